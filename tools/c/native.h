/* Replaces extractd.h when a program is compiled for this machine: see native.c. The shared guard makes a later
   #include "extractd.h" empty. */
#ifndef EXTRACTD_H
#define EXTRACTD_H

#include <stddef.h>
#include <stdint.h>
#include <string.h>

/* Record type 1. The columns are those of docs/records.md: the field's first place, then its last. */
#define BYTES(name, first, last) uint8_t name[last - first + 1];
struct record {
    BYTES(rt, 1, 1) BYTES(version, 2, 5) BYTES(tlid, 6, 15) BYTES(side1, 16, 16) BYTES(source, 17, 17)
    BYTES(fedirp, 18, 19) BYTES(fename, 20, 49) BYTES(fetype, 50, 53) BYTES(fedirs, 54, 55) BYTES(cfcc, 56, 58)
    BYTES(fraddl, 59, 69) BYTES(toaddl, 70, 80) BYTES(fraddr, 81, 91) BYTES(toaddr, 92, 102) BYTES(imputed, 103, 106)
    BYTES(zipl, 107, 111) BYTES(zipr, 112, 116) BYTES(unnamed, 117, 130)
    BYTES(statel, 131, 132) BYTES(stater, 133, 134) BYTES(countyl, 135, 137) BYTES(countyr, 138, 140)
    BYTES(cousubl, 141, 145) BYTES(cousubr, 146, 150) BYTES(unnamed2, 151, 160)
    BYTES(placel, 161, 165) BYTES(placer, 166, 170) BYTES(tractl, 171, 176) BYTES(tractr, 177, 182)
    BYTES(blockl, 183, 186) BYTES(blockr, 187, 190)
    BYTES(frlong, 191, 200) BYTES(frlat, 201, 209) BYTES(tolong, 210, 219) BYTES(tolat, 220, 228)
};
#undef BYTES

enum {
    TLID = 0, FRADDL = 1, TOADDL = 2, FRADDR = 3, TOADDR = 4, ZIPL = 5, ZIPR = 6, STATEL = 7, STATER = 8, COUNTYL = 9,
    COUNTYR = 10, PLACEL = 11, PLACER = 12, TRACTL = 13, TRACTR = 14, BLOCKL = 15, BLOCKR = 16
};
enum { FRLONG = 0, FRLAT = 1, TOLONG = 2, TOLAT = 3 };
enum { NO_SIDE = 0, LEFT = 1, RIGHT = 2, BOTH_SIDES = 3 };

/* Loops stay loops on this machine. */
#define UNROLL

uint64_t field(uint64_t id);
uint64_t has(uint64_t id);
uint64_t names(void);
uint64_t ranges(void);
uint64_t in_range(uint64_t range, uint64_t house);
uint64_t name_copy(uint64_t name, void *bytes, uint64_t length);
uint64_t name_is(uint64_t name, const void *bytes, uint64_t length);
uint64_t emit(uint64_t score);
int64_t coord(uint64_t which);

/* Returns number & mask, such as bounded(x, 15) for an index from 0 to 15. A compiler may omit a plain `&` that it proves redundant, and
   then the verifier doesn't know the bound. */
static inline __attribute__((always_inline)) uint64_t bounded(uint64_t number, uint64_t mask)
{
    __asm__("" : "+r"(number));
    return number & mask;
}

/* The others of extractd.h, by the C library. */
#define below(number, limit) ((uint64_t) (number) < (limit) ? (uint64_t) (number) : 0)
#define at(array, index) ((array)[below(index, sizeof(array) / sizeof *(array))])
#define same(one, other, length) (memcmp(one, other, length) == 0)
#define begins(bytes, text) same(bytes, text, strlen(text))
#define copy(to, from, length) memcpy(to, from, length)

/* The program. */
uint64_t choose(const struct record *record);

#endif
