/* Segments with odd numbers on the left and even ones on the right. */
#include "extractd.h"

static int parity(uint64_t from, uint64_t to)
{
    if (from % 2 != to % 2)
        return -1;
    return (int) (from % 2);
}

uint64_t choose(const struct record *record)
{
    (void) record;
    if (!has(FRADDL) || !has(TOADDL) || !has(FRADDR) || !has(TOADDR))
        return 0;
    return parity(field(FRADDL), field(TOADDL)) == 1 && parity(field(FRADDR), field(TOADDR)) == 0;
}
