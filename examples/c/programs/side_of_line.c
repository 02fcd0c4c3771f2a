/* On which side of a line a segment's ends are. */
#include "extractd.h"

static int sign(int64_t number)
{
    return number > 0 ? 1 : number < 0 ? -1 : 0;
}

static int side(int64_t x, int64_t y)
{
    const int64_t ax = -86700000, ay = 32400000, bx = -86500000, by = 32600000;
    return sign((bx - ax) * (y - ay) - (by - ay) * (x - ax));
}

uint64_t choose(const struct record *record)
{
    (void) record;
    return side(coord(FRLONG), coord(FRLAT)) != side(coord(TOLONG), coord(TOLAT));
}
