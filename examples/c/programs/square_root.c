/* The score is the length in millionths of a degree, by Newton's method. */
#include "extractd.h"

static uint64_t root(uint64_t square)
{
    uint64_t guess = 1 << 16;
    for (int i = 0; i < 20; i++)
        guess = (guess + square / guess) / 2;
    return guess;
}

uint64_t choose(const struct record *record)
{
    (void) record;
    int64_t dx = coord(TOLONG) - coord(FRLONG), dy = coord(TOLAT) - coord(FRLAT);
    uint64_t length = root((uint64_t) (dx * dx + dy * dy));
    emit(length);
    return length > 1000;
}
