/* The literals of events and of retained values.
   to_c puts this file behind a program. */

/* A part of a file. */
struct Text {
    char *at;
    size_t length;
};

static bool is(struct Text text, const char *word) { return text.length == strlen(word) && memcmp(text.at, word, text.length) == 0; }

/* Takes a word in any case from the front of a text, where it stands there. */
static bool take(struct Text *text, const char *word)
{
    size_t length = strlen(word);
    if (text->length < length || strncasecmp(text->at, word, length) != 0)
        return false;
    *text = (struct Text){text->at + length, text->length - length};
    return true;
}

/* The value of a digit, 16 where it is none. */
static int digit(char c)
{
    return c >= '0' && c <= '9' ? c - '0' : c >= 'A' && c <= 'F' ? c - 'A' + 10 : c >= 'a' && c <= 'f' ? c - 'a' + 10 : 16;
}

/* Digits of a base with single `_` between them; the greatest numeral is the greatest wide number. */
static bool digits(struct Text text, int base, wide *n)
{
    bool after_digit = false;
    *n = 0;
    for (size_t k = 0; k < text.length; k++) {
        int d = digit(text.at[k]);
        if (text.at[k] == '_' && after_digit) {
            after_digit = false;
            continue;
        }
        if (d >= base || __builtin_mul_overflow(*n, base, n) || __builtin_add_overflow(*n, d, n))
            return false;
        after_digit = true;
    }
    return after_digit;
}

/* A whole number: decimal with or without a sign, or behind 2#, 8# or 16#. */
static bool whole(struct Text text, wide *n)
{
    if (take(&text, "-")) {
        bool is_number = digits(text, 10, n);
        *n = -*n;
        return is_number;
    }
    if (take(&text, "+"))
        return digits(text, 10, n);
    int base = take(&text, "2#") ? 2 : take(&text, "8#") ? 8 : take(&text, "16#") ? 16 : 10;
    return digits(text, base, n);
}

/* The plain digits at the front of a text; gives how many there are, of at most so many. */
static int count_digits(struct Text *text, int most_digits, wide *n)
{
    int count = 0;
    for (*n = 0; count < most_digits && text->length > 0 && digit(*text->at) < 10; count++) {
        *n = *n * 10 + digit(*text->at++);
        text->length--;
    }
    return count;
}

/* A length of time in milliseconds: parts from days to milliseconds, the last perhaps with decimals. */
static bool duration(struct Text text, wide *n)
{
    static const struct { const char *unit; wide length; } units[] = {{"ms", 1}, {"d", 86400000}, {"h", 3600000}, {"m", 60000}, {"s", 1000}};
    bool is_negative = take(&text, "-"), is_first = true;
    wide before = (wide)1 << 64; /* the unit of the part before */
    *n = 0;
    do {
        wide part, decimals = 0, scale = 1;
        size_t k = 0;
        if (!is_first)
            take(&text, "_");
        is_first = false;
        if (count_digits(&text, 20, &part) == 0)
            return false;
        bool has_point = take(&text, ".");
        int count = has_point ? count_digits(&text, 9, &decimals) : 0;
        if (has_point && count == 0)
            return false;
        while (k < 5 && !take(&text, units[k].unit))
            k++;
        if (k == 5 || units[k].length >= before || (has_point && text.length > 0))
            return false;
        before = units[k].length;
        *n += part * before;
        for (; count > 0; count--)
            scale *= 10;
        if (decimals * before % scale != 0)
            return false;
        *n += decimals * before / scale;
    } while (text.length > 0);
    if (is_negative)
        *n = -*n;
    return true;
}

/* The value of a type that a text stands for. */
static bool read_value(enum Type type, struct Text text, wide *n)
{
    bool found = false;
    if (type == T_TIME)
        found = (take(&text, "T#") || take(&text, "TIME#")) && duration(text, n);
    else {
        size_t length = strlen(type_names[type]);
        if (text.length > length && text.at[length] == '#' && take(&text, type_names[type]))
            take(&text, "#");
        bool is_true = type == T_BOOL && text.length == 4 && take(&text, "TRUE"), is_false = type == T_BOOL && text.length == 5 && take(&text, "FALSE");
        found = is_true || is_false || whole(text, n);
        if (is_true || is_false)
            *n = is_true;
    }
    return found && in_range(type, *n);
}
