/* For programs in C that extractd runs: a segment's record, and the helper functions. */
#ifndef EXTRACTD_H
#define EXTRACTD_H

#include <stddef.h>
#include <stdint.h>

/* A segment's record, TIGER/Line record type 1. It has no padding, so a field's place is its offset plus one.
   docs/records.md says what the fields mean. */
struct record {
    uint8_t rt[1];         /* place 1 */
    uint8_t version[4];    /* 2 */
    uint8_t tlid[10];      /* 6 */
    uint8_t side1[1];      /* 16 */
    uint8_t source[1];     /* 17 */
    uint8_t fedirp[2];     /* 18 */
    uint8_t fename[30];    /* 20 */
    uint8_t fetype[4];     /* 50 */
    uint8_t fedirs[2];     /* 54 */
    uint8_t cfcc[3];       /* 56 */
    uint8_t fraddl[11];    /* 59 */
    uint8_t toaddl[11];    /* 70 */
    uint8_t fraddr[11];    /* 81 */
    uint8_t toaddr[11];    /* 92 */
    uint8_t imputed[4];    /* 103 */
    uint8_t zipl[5];       /* 107 */
    uint8_t zipr[5];       /* 112 */
    uint8_t unnamed[14];   /* 117 */
    uint8_t statel[2];     /* 131 */
    uint8_t stater[2];     /* 133 */
    uint8_t countyl[3];    /* 135 */
    uint8_t countyr[3];    /* 138 */
    uint8_t cousubl[5];    /* 141 */
    uint8_t cousubr[5];    /* 146 */
    uint8_t unnamed2[10];  /* 151 */
    uint8_t placel[5];     /* 161 */
    uint8_t placer[5];     /* 166 */
    uint8_t tractl[6];     /* 171 */
    uint8_t tractr[6];     /* 177 */
    uint8_t blockl[4];     /* 183 */
    uint8_t blockr[4];     /* 187 */
    uint8_t frlong[10];    /* 191 */
    uint8_t frlat[9];      /* 201 */
    uint8_t tolong[10];    /* 210 */
    uint8_t tolat[9];      /* 220 */
};

_Static_assert(sizeof(struct record) == 228, "a record has 228 bytes");
_Static_assert(offsetof(struct record, cfcc) == 55, "CFCC begins at place 56");
_Static_assert(offsetof(struct record, statel) == 130, "STATEL begins at place 131");
_Static_assert(offsetof(struct record, frlong) == 190, "FRLONG begins at place 191");

/* The fields for field and has. */
enum {
    TLID, FRADDL, TOADDL, FRADDR, TOADDR, ZIPL, ZIPR, STATEL, STATER,
    COUNTYL, COUNTYR, PLACEL, PLACER, TRACTL, TRACTR, BLOCKL, BLOCKR
};

/* The coordinates for coord. */
enum { FRLONG, FRLAT, TOLONG, TOLAT };

/* The results of in_range. */
enum { NO_SIDE, LEFT, RIGHT, BOTH_SIDES };

/* How each compiler calls a helper function, by its number. */
#ifdef __clang__
#define HELPER(number, answer, name, arguments) static answer (*const name) arguments = (void *) number
#else
#define HELPER(number, answer, name, arguments) answer name arguments __attribute__((kernel_helper(number)))
#endif

/* The helper functions. docs/helpers.md says what each takes and returns. */
HELPER(1, uint64_t, field, (uint64_t id));
HELPER(2, uint64_t, has, (uint64_t id));
HELPER(3, uint64_t, names, (void));
HELPER(4, uint64_t, ranges, (void));
HELPER(5, uint64_t, in_range, (uint64_t range, uint64_t house));
HELPER(6, uint64_t, name_copy, (uint64_t name, void *bytes, uint64_t length));
HELPER(7, uint64_t, name_is, (uint64_t name, const void *bytes, uint64_t length));
HELPER(8, uint64_t, emit, (uint64_t score));
HELPER(9, int64_t, coord, (uint64_t which));

/* The program: a nonzero answer selects the segment. `flatten` puts all that it calls inside of it. */
uint64_t choose(const struct record *record) __attribute__((flatten));

/* Unrolls the loop after it, which must have a fixed number of iterations, up to 100. */
#ifdef __clang__
#define UNROLL _Pragma("unroll")
#else
#define UNROLL _Pragma("GCC unroll 100")
#endif

/* Returns number & mask, such as bounded(x, 15) for an index from 0 to 15. A compiler may omit a plain `&` that it proves redundant, and
   then the verifier doesn't know the bound. */
static inline __attribute__((always_inline)) uint64_t bounded(uint64_t number, uint64_t mask)
{
    __asm__("" : "+r"(number));
    return number & mask;
}

/* Returns a number below the limit: the number itself, or 0 if it isn't below. */
static inline __attribute__((always_inline)) uint64_t below(uint64_t number, uint64_t limit)
{
    __asm__("" : "+r"(number));
    return number < limit ? number : 0;
}

/* The element of an array, by an index that may be too great. Then it is the first one. */
#define at(array, index) ((array)[below(index, sizeof(array) / sizeof *(array))])

/* Returns 1 if the bytes are equal, else 0. */
static inline __attribute__((always_inline)) uint64_t same(const void *one, const void *other, uint64_t length)
{
    const uint8_t *a = (const uint8_t *) one, *b = (const uint8_t *) other;
    for (uint64_t i = 0; i < length; i++)
        if (a[i] != b[i])
            return 0;
    return 1;
}

/* Returns 1 if the bytes begin with the text, which is in quotes, else 0. */
#define begins(bytes, text) same(bytes, "" text, sizeof(text) - 1)

/* Copies bytes, such as those of a name, into an array. */
static inline __attribute__((always_inline)) void copy(void *to, const void *from, uint64_t length)
{
    for (uint64_t i = 0; i < length; i++)
        ((uint8_t *) to)[i] = ((const uint8_t *) from)[i];
}

#ifndef __clang__
/* GCC calls a function of its library for these. */
static inline __attribute__((always_inline)) int count_bits(uint64_t bits)
{
    int count = 0;
    for (int i = 0; i < 64; i++)
        count += bits >> i & 1;
    return count;
}
#define __builtin_popcount(bits) count_bits((uint32_t) (bits))
#define __builtin_popcountl(bits) count_bits(bits)
#define __builtin_popcountll(bits) count_bits(bits)
#define __builtin_parity(bits) (count_bits((uint32_t) (bits)) & 1)
#endif

#endif
