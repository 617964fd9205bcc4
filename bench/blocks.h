/* The standard function blocks: one call of each, on its values, at the time of the scan.
   to_c puts this file behind the blocks' structs, whose fields are their pins and what they keep besides. */

/* How long ago a time was, and how long a preset is: neither is below 0. */
static inline wide since(TIME start) { return now > start ? (wide)now - start : 0; }
static inline wide preset(TIME length) { return length > 0 ? length : 0; }

/* Whether a pin rises; its memory keeps it. */
static inline bool rises(BOOL pin, BOOL *memory)
{
    bool is_edge = pin && !*memory;
    *memory = pin;
    return is_edge;
}

static inline void step_TON(struct TON *s)
{
    if (!s->IN) {
        s->RUN = s->Q = false;
        s->START = s->ET = 0;
        return;
    }
    if (!s->RUN) {
        s->RUN = true;
        s->START = now;
    }
    wide e = since(s->START), p = preset(s->PT);
    s->Q = e >= p;
    s->ET = (TIME)(e < p ? e : p);
}

static inline void step_TOF(struct TOF *s)
{
    if (s->IN) {
        s->M = s->Q = true;
        s->RUN = false;
        s->START = s->ET = 0;
        return;
    }
    if (s->M) {
        s->M = false;
        s->RUN = true;
        s->START = now;
    }
    wide e = since(s->START), p = preset(s->PT);
    if (s->RUN) {
        s->Q = s->RUN = e < p;
        s->ET = (TIME)(e < p ? e : p);
    } else
        s->Q = false;
}

static inline void step_TP(struct TP *s)
{
    wide p = preset(s->PT);
    if (s->RUN && since(s->START) >= p) {
        s->RUN = false;
        s->ET = (TIME)p;
    }
    if (s->IN && !s->M && !s->RUN) {
        s->ET = 0;
        if (p > 0) {
            s->RUN = true;
            s->START = now;
        }
    }
    s->Q = s->RUN;
    if (s->RUN)
        s->ET = (TIME)since(s->START);
    else if (!s->IN)
        s->ET = 0;
    s->M = s->IN;
}

static inline void step_CTU(struct CTU *s)
{
    bool counts = rises(s->CU, &s->M);
    if (s->R)
        s->CV = 0;
    else if (counts && s->CV < INT16_MAX)
        s->CV++;
    s->Q = s->CV >= s->PV;
}

static inline void step_CTD(struct CTD *s)
{
    bool counts = rises(s->CD, &s->M);
    if (s->LD)
        s->CV = s->PV;
    else if (counts && s->CV > INT16_MIN)
        s->CV--;
    s->Q = s->CV <= 0;
}

static inline void step_CTUD(struct CTUD *s)
{
    bool up = rises(s->CU, &s->MU), down = rises(s->CD, &s->MD);
    if (s->R)
        s->CV = 0;
    else if (s->LD)
        s->CV = s->PV;
    else if (up && !down && s->CV < INT16_MAX)
        s->CV++;
    else if (down && !up && s->CV > INT16_MIN)
        s->CV--;
    s->QU = s->CV >= s->PV;
    s->QD = s->CV <= 0;
}

static inline void step_SR(struct SR *s) { s->Q1 = s->S1 || (!s->R && s->Q1); }

static inline void step_RS(struct RS *s) { s->Q1 = !s->R1 && (s->S || s->Q1); }

static inline void step_R_TRIG(struct R_TRIG *s) { s->Q = rises(s->CLK, &s->M); }

static inline void step_F_TRIG(struct F_TRIG *s) { s->Q = rises(!s->CLK, &s->M); }
