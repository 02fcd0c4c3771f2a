/* The score is the greatest common divisor of both ends' last two digits. */
#include "extractd.h"

static unsigned divisor(unsigned a, unsigned b)
{
    while (b != 0) {
        unsigned rest = a % b;
        a = b;
        b = rest;
    }
    return a;
}

uint64_t choose(const struct record *record)
{
    (void) record;
    unsigned result = divisor(field(FRADDL) % 100, field(TOADDR) % 100);
    emit(result);
    return result > 1;
}
