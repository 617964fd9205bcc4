/* Files of events: their records, and what each event does to the program.
   to_c puts this file behind a program, of which it uses `top`, its values, `top_block`, what it declares, and `run_top`, one evaluation. */

static int64_t turns = 1000; /* the turns of a scan */
static bool halted;          /* whether a scan stopped, and no restart came since */

/* ---- state ---- */

/* Variables begin with their initial values; a warm restart leaves those that are retained. */
static void restart(const struct Block *block, char *at, bool retained, bool cold)
{
    for (const struct Variable *v = block->variables; v < block->variables + block->count; v++)
        if (v->block)
            restart(v->block, at + v->at, retained || v->retain, cold);
        else if (cold || !(retained || v->retain))
            store(v->type, at + v->at, v->first);
}

/* Whether a variable is the compiler's own, which no file tells. */
static bool is_own(const struct Variable *v) { return strncasecmp(v->name, "PLCX_", 5) == 0; }

static const struct Variable *variable_of(const struct Block *block, struct Text name)
{
    for (const struct Variable *v = block->variables; v < block->variables + block->count; v++)
        if (strlen(v->name) == name.length && strncasecmp(v->name, name.at, name.length) == 0 && !is_own(v))
            return v;
    return NULL;
}

/* ---- files ---- */

static _Noreturn void fail(int status, const char *what, const char *name)
{
    fprintf(stderr, "plcx: %s%s\n", what, name);
    exit(status);
}

static _Noreturn void refuse(const char *what, size_t number)
{
    fprintf(stderr, "plcx: %s %zu\n", what, number);
    exit(7);
}

static struct Text whole_file(const char *name, const char *what)
{
    const size_t longest = 16 * 1024 * 1024;
    struct Text text = {malloc(longest + 1), 0};
    FILE *file = fopen(name, "rb");
    if (!file || !text.at)
        fail(3, "cannot read ", name);
    text.length = fread(text.at, 1, longest + 1, file);
    fclose(file);
    if (text.length > longest)
        refuse(what, 0);
    return text;
}

/* A list with room for one more item. */
static void *grown(void *list, size_t count, size_t size)
{
    if (count & (count - 1))
        return list;
    list = realloc(list, 2 * (count + 1) * size);
    if (!list)
        fail(5, "no memory", "");
    return list;
}

/* ---- records ---- */

static struct Text rest;    /* what is left of the file */
static struct Text *fields; /* the fields of the last record */
static size_t field_count, field_room;

/* The next record: fields between commas, perhaps in double quotes; an empty line is none. It is written over itself without its quotes. */
static bool next_record(void)
{
    char *at = rest.at, *end = rest.at + rest.length;
    while (at < end && (*at == '\n' || *at == '\r'))
        at++;
    if (at == end)
        return false;
    field_count = 0;
    for (char *to = at;; at++) {
        char *from = to;
        bool quoted = at < end && *at == '"';
        for (at += quoted; at < end; at++)
            if (quoted && *at == '"') {
                quoted = at + 1 < end && at[1] == '"';
                if (quoted)
                    *to++ = *at++;
            } else if (!quoted && (*at == ',' || *at == '\n' || *at == '\r'))
                break;
            else
                *to++ = *at;
        if (field_count == field_room)
            fields = grown(fields, field_room++, sizeof *fields);
        fields[field_count++] = (struct Text){from, to - from};
        if (at == end || *at != ',')
            break;
    }
    rest = (struct Text){at, end - at};
    return true;
}

/* ---- events ---- */

struct Input {
    const struct Variable *variable;
    wide value;
};

/* A scan at a time, with its inputs from a first one up to a last; or a restart. */
struct Event {
    enum { SCAN, WARM, COLD } kind;
    TIME time;
    size_t first, last;
};

static const struct Variable **columns; /* the variables that the events set */
static size_t column_count;
static struct Input *inputs;
static size_t input_count;
static struct Event *events;
static size_t event_count;

static bool read_header(void)
{
    if (!next_record() || field_count < 2 || !is(fields[0], "event") || !is(fields[1], "time"))
        return false;
    for (size_t k = 2; k < field_count; k++) {
        const struct Variable *v = variable_of(&top_block, fields[k]);
        if (!v || v->block || v->constant)
            return false;
        for (size_t j = 0; j < column_count; j++)
            if (columns[j] == v)
                return false;
        columns = grown(columns, column_count, sizeof *columns);
        columns[column_count++] = v;
    }
    return true;
}

static bool is_time(struct Text text, TIME least, TIME *time)
{
    wide n = 0;
    for (size_t k = 0; k < text.length && n >= 0; k++)
        n = text.length <= 19 && digit(text.at[k]) < 10 ? 10 * n + digit(text.at[k]) : -1;
    *time = (TIME)n;
    return text.length > 0 && n >= least && n <= (wide)1 << 62;
}

/* The event of the last record; no scan comes before the least time. */
static bool read_event(TIME least, struct Event *event)
{
    *event = (struct Event){SCAN, 0, input_count, input_count};
    if (field_count != column_count + 2)
        return false;
    if (!is(fields[0], "scan")) {
        event->kind = is(fields[0], "warm") ? WARM : COLD;
        for (size_t k = 1; k < field_count; k++)
            if (fields[k].length > 0)
                return false;
        return event->kind == WARM || is(fields[0], "cold");
    }
    if (!is_time(fields[1], least, &event->time))
        return false;
    for (size_t k = 0; k < column_count; k++)
        if (fields[k + 2].length > 0) {
            inputs = grown(inputs, input_count, sizeof *inputs);
            inputs[input_count].variable = columns[k];
            if (!read_value(columns[k]->type, fields[k + 2], &inputs[input_count++].value))
                return false;
        }
    event->last = input_count;
    return true;
}

static void read_events(const char *name)
{
    TIME last = 0;
    rest = whole_file(name, "events row");
    if (rest.length >= 3 && memcmp(rest.at, "\xEF\xBB\xBF", 3) == 0)
        rest = (struct Text){rest.at + 3, rest.length - 3};
    if (!read_header())
        refuse("events row", 1);
    while (next_record()) {
        events = grown(events, event_count, sizeof *events);
        if (!read_event(last, &events[event_count]))
            refuse("events row", event_count + 2);
        if (events[event_count].kind == SCAN)
            last = events[event_count].time;
        event_count++;
    }
}

/* A scan at a time, with the inputs of an event. */
static enum Result scan(const struct Event *event, TIME time)
{
    if (halted)
        return HALTED;
    for (const struct Input *i = inputs + event->first; i < inputs + event->last; i++)
        store(i->variable->type, (char *)&top + i->variable->at, i->value);
    now = time;
    turns_left = turns;
    if (setjmp(end_of_scan) == 0) {
        run_top();
        return OK;
    }
    halted = true;
    return result;
}

/* What an event does, and how it ends. */
static enum Result after(const struct Event *event)
{
    if (event->kind == SCAN)
        return scan(event, event->time);
    restart(&top_block, (char *)&top, false, event->kind == COLD);
    halted = false;
    return RESTART;
}
