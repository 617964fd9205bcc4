/* A run from its words to its trace.
   to_c puts this file last. */

/* ---- retained values ---- */

/* The retained leaf of a path with points, and where its value is. */
static const struct Variable *leaf_of(struct Text path, char **at)
{
    const struct Block *block = &top_block;
    bool retained = false;
    for (*at = (char *)&top;;) {
        const char *point = memchr(path.at, '.', path.length);
        size_t length = point ? (size_t)(point - path.at) : path.length;
        const struct Variable *v = variable_of(block, (struct Text){path.at, length});
        if (!v)
            return NULL;
        retained = retained || v->retain;
        *at += v->at;
        block = v->block;
        if (!point)
            return !block && retained ? v : NULL;
        if (!block)
            return NULL;
        path = (struct Text){path.at + length + 1, path.length - length - 1};
    }
}

/* Lines of `retain`, a path and a literal, no path twice. */
static void read_retained(const char *name)
{
    struct Text text = whole_file(name, "retained line");
    bool *given = calloc(sizeof top + 1, 1);
    if (!given)
        fail(5, "no memory", "");
    for (size_t line = 1; text.length > 0; line++) {
        char *at, *end = memchr(text.at, '\n', text.length);
        size_t length = end ? (size_t)(end - text.at) : text.length;
        struct Text row = {text.at, end && length > 0 && end[-1] == '\r' ? length - 1 : length};
        const char *comma = NULL;
        if (take(&row, "retain,") && memcmp(row.at - 7, "retain,", 7) == 0)
            comma = memchr(row.at, ',', row.length);
        size_t until = comma ? (size_t)(comma - row.at) : 0;
        const struct Variable *v = comma ? leaf_of((struct Text){row.at, until}, &at) : NULL;
        wide n;
        if (!v || given[at - (char *)&top] || !read_value(v->type, (struct Text){row.at + until + 1, row.length - until - 1}, &n))
            refuse("retained line", line);
        given[at - (char *)&top] = true;
        store(v->type, at, n);
        text = end ? (struct Text){end + 1, text.length - length - 1} : (struct Text){text.at, 0};
    }
    free(given);
}

/* ---- the trace ---- */

static void print_value(enum Type type, const void *at)
{
    wide n = load(type, at);
    if (type == T_BOOL)
        fputs(n ? "TRUE" : "FALSE", stdout);
    else if (type == T_TIME)
        printf("T#%lldms", (long long)n);
    else if (n < 0)
        printf("%s#%lld", type_names[type], (long long)n);
    else
        printf("%s#%llu", type_names[type], (unsigned long long)n);
}

/* A line for each retained leaf that the program declares; a path has the names of the instances before it. */
static void print_retained(const struct Block *block, const char *at, bool retained, char *path, size_t length)
{
    for (const struct Variable *v = block->variables; v < block->variables + block->count; v++) {
        if (is_own(v) || (!v->block && !retained && !v->retain))
            continue;
        size_t after_name = length + sprintf(path + length, length > 0 ? ".%s" : "%s", v->name);
        if (v->block)
            print_retained(v->block, at + v->at, retained || v->retain, path, after_name);
        else {
            printf("retain,%s,", path);
            print_value(v->type, at + v->at);
            putchar('\n');
        }
    }
}

static void print_trace(void)
{
    static char path[64 * 256]; /* names have at most 128 bytes, and blocks at most 17 levels */
    const struct Variable *end = top_block.variables + top_block.count;
    fputs("event,result", stdout);
    for (const struct Variable *v = top_block.variables; v < end; v++)
        if (!v->block && !is_own(v))
            printf(",%s", v->name);
    putchar('\n');
    for (size_t k = 0; k < event_count; k++) {
        enum Result how = after(&events[k]);
        printf("%zu,%s", k + 1, results[how]);
        for (const struct Variable *v = top_block.variables; v < end; v++)
            if (!v->block && !is_own(v)) {
                putchar(',');
                print_value(v->type, (char *)&top + v->at);
            }
        putchar('\n');
    }
    print_retained(&top_block, (char *)&top, false, path, 0);
}

/* ---- time ---- */

static double seconds(void)
{
    struct timespec spent;
    clock_gettime(CLOCK_PROCESS_CPUTIME_ID, &spent);
    return spent.tv_sec + spent.tv_nsec / 1e9;
}

/* All events, and then so many scans, 10 ms apart, with the inputs of the events over and over; tells what one of these scans takes. */
static void print_times(size_t scans)
{
    static const struct Event without_inputs;
    enum Result how = OK;
    for (size_t k = 0; k < event_count; k++)
        after(&events[k]);
    double start = seconds();
    for (size_t k = 0; k < scans; k++) {
        const struct Event *event = event_count > 0 ? &events[k % event_count] : &without_inputs;
        how = scan(event, now + 10);
    }
    double each = (seconds() - start) / scans * 1e9;
    if (how != OK)
        fail(1, "the last scan was no whole one: ", results[how]);
    printf("%.1f ns a scan\n", each);
#ifdef ELEMENTS
    printf("%.3f ns an element\n", each / ELEMENTS);
#endif
}

int main(int count, char **words)
{
    const char *files = NULL, *retained = NULL;
    size_t scans = 0;
    for (int k = 1; k < count; k++)
        if (strncmp(words[k], "--", 2) != 0 && !files)
            files = words[k];
        else if (k + 1 < count && strcmp(words[k], "--turns") == 0)
            turns = strtoll(words[++k], NULL, 10);
        else if (k + 1 < count && strcmp(words[k], "--retain") == 0)
            retained = words[++k];
        else if (k + 1 < count && strcmp(words[k], "--time") == 0)
            scans = strtoull(words[++k], NULL, 10);
        else
            fail(2, "usage: EVENTS [--turns N] [--retain FILE] [--time N]", "");
    if (!files)
        fail(2, "usage: EVENTS [--turns N] [--retain FILE] [--time N]", "");
    restart(&top_block, (char *)&top, false, true);
    if (retained)
        read_retained(retained);
    read_events(files);
    if (scans > 0)
        print_times(scans);
    else
        print_trace();
    return 0;
}
