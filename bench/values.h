/* The values of a program: their types, the standard functions on them, and how a scan stops.
   to_c puts this file at the front of each program that it writes. */
#include <setjmp.h>
#include <stdbool.h>
#include <stddef.h>
#include <stdint.h>
#include <stdio.h>
#include <stdlib.h>
#include <string.h>
#include <strings.h>
#include <time.h>

typedef bool BOOL;
typedef uint8_t BYTE, USINT;
typedef uint16_t WORD, UINT;
typedef uint32_t DWORD, UDINT;
typedef uint64_t LWORD, ULINT;
typedef int8_t SINT;
typedef int16_t INT;
typedef int32_t DINT;
typedef int64_t LINT, TIME; /* a TIME is so many milliseconds */
typedef __int128 wide;      /* a number of any type */

/* The types, each with its least and its greatest number. */
#define BIT_STRINGS(X) X(BYTE, 0, UINT8_MAX) X(WORD, 0, UINT16_MAX) X(DWORD, 0, UINT32_MAX) X(LWORD, 0, UINT64_MAX)
#define SIGNED(X) X(SINT, INT8_MIN, INT8_MAX) X(INT, INT16_MIN, INT16_MAX) X(DINT, INT32_MIN, INT32_MAX) X(LINT, INT64_MIN, INT64_MAX)
#define UNSIGNED(X) X(USINT, 0, UINT8_MAX) X(UINT, 0, UINT16_MAX) X(UDINT, 0, UINT32_MAX) X(ULINT, 0, UINT64_MAX)
#define LENGTH_OF_TIME(X) X(TIME, INT64_MIN, INT64_MAX)
#define TYPES(X) X(BOOL, 0, 1) BIT_STRINGS(X) SIGNED(X) UNSIGNED(X) LENGTH_OF_TIME(X)

#define NUMBERED(T, low, high) T_##T,
enum Type { TYPES(NUMBERED) };
#define NAMED(T, low, high) #T,
static const char *const type_names[] = {TYPES(NAMED)};

/* ---- how a scan stops ---- */

enum Result { OK, DIV_BY_ZERO, RANGE, TURNS, HALTED, RESTART };
static const char *const results[] = {"ok", "fault DivByZero", "fault Range", "turns", "halted", "restart"};

static enum Result result;  /* why the last scan that stopped did so */
static jmp_buf end_of_scan; /* where it goes on then */
static int64_t turns_left;  /* the turns that the scan may still take */
static TIME now;            /* the time of the scan */

static _Noreturn __attribute__((cold, noinline)) void stop(enum Result why)
{
    result = why;
    longjmp(end_of_scan, 1);
}

/* One more turn of a loop. */
static inline void turn(void)
{
    if (turns_left == 0)
        stop(TURNS);
    turns_left--;
}

/* ---- values of any type ---- */

static wide load(enum Type type, const void *at)
{
#define LOAD(T, low, high) case T_##T: return *(const T *)at;
    switch (type) { TYPES(LOAD) }
    return 0;
}

static void store(enum Type type, void *at, wide n)
{
#define STORE(T, low, high) case T_##T: *(T *)at = (T)n; break;
    switch (type) { TYPES(STORE) }
}

static bool in_range(enum Type type, wide n)
{
#define IN_RANGE(T, low, high) case T_##T: return n >= (low) && n <= (high);
    switch (type) { TYPES(IN_RANGE) }
    return false;
}

/* ---- functions ---- */

/* Of every type: a number of the type or the fault, and what chooses among values. */
#define CHOICES(T, low, high) \
    static inline T to_##T(wide n) { if (n < (low) || n > (high)) stop(RANGE); return (T)n; } \
    static inline T MAX_##T(T a, T b) { return a > b ? a : b; } \
    static inline T MIN_##T(T a, T b) { return a < b ? a : b; } \
    static inline T LIMIT_##T(T least, T in, T most) { return MIN_##T(MAX_##T(in, least), most); } \
    static inline T SEL_##T(BOOL second, T in0, T in1) { return second ? in1 : in0; } \
    static inline T MUX_##T(wide k, int count, const T *in) { if (k < 0 || k >= count) stop(RANGE); return in[(int)k]; }
TYPES(CHOICES)

/* Of the numbers and lengths of time. */
#define SUMS(T, low, high) \
    static inline T ADD_##T(T a, T b) { T r; if (__builtin_add_overflow(a, b, &r)) stop(RANGE); return r; } \
    static inline T SUB_##T(T a, T b) { T r; if (__builtin_sub_overflow(a, b, &r)) stop(RANGE); return r; }
SIGNED(SUMS) UNSIGNED(SUMS) LENGTH_OF_TIME(SUMS)

/* Of the numbers. The least one divided by -1 has no place in a signed type, and C has no remainder for it. */
#define IS_MINUS_ONE(T, low, b) ((low) < 0 && (b) == (T)-1)
#define PRODUCTS(T, low, high) \
    static inline T MUL_##T(T a, T b) { T r; if (__builtin_mul_overflow(a, b, &r)) stop(RANGE); return r; } \
    static inline T DIV_##T(T a, T b) { if (b == 0) stop(DIV_BY_ZERO); return IS_MINUS_ONE(T, low, b) ? SUB_##T(0, a) : (T)(a / b); } \
    static inline T MOD_##T(T a, T b) { return b == 0 || IS_MINUS_ONE(T, low, b) ? 0 : (T)(a % b); } \
    static inline T ABS_##T(T a) { return a < 0 ? SUB_##T(0, a) : a; }
SIGNED(PRODUCTS) UNSIGNED(PRODUCTS)

/* Of the bit strings. */
#define WIDTH(T) ((int)(8 * sizeof(T)))
#define SHIFTS(T, low, high) \
    static inline int places_##T(wide n) { if (n < 0) stop(RANGE); return (int)(n & (WIDTH(T) - 1)); } \
    static inline T SHL_##T(T a, wide n) { int k = places_##T(n); return n >= WIDTH(T) ? 0 : (T)((uint64_t)a << k); } \
    static inline T SHR_##T(T a, wide n) { int k = places_##T(n); return n >= WIDTH(T) ? 0 : (T)(a >> k); } \
    static inline T ROL_##T(T a, wide n) { int k = places_##T(n); return k == 0 ? a : (T)((uint64_t)a << k | a >> (WIDTH(T) - k)); } \
    static inline T ROR_##T(T a, wide n) { int k = places_##T(n); return k == 0 ? a : (T)((uint64_t)a << (WIDTH(T) - k) | a >> k); }
BIT_STRINGS(SHIFTS)

/* ---- what a program declares ---- */

struct Block;

/* A variable of a block: elementary, or an instance where it has a block of its own. */
struct Variable {
    const char *name;
    const struct Block *block;
    enum Type type;
    size_t at;  /* its place in the block's values */
    wide first; /* its initial value */
    bool constant, retain;
};

struct Block {
    const struct Variable *variables;
    size_t count;
};
