/* Segments of which an end is near a point, by the sum of both differences. */
#include "extractd.h"
#include <stdlib.h>

#define POINT_X -86630000L
#define POINT_Y 32520000L

static int is_near(long x, long y, long limit)
{
    return labs(x - POINT_X) + labs(y - POINT_Y) < limit;
}

uint64_t choose(const struct record *record)
{
    (void) record;
    return is_near(coord(FRLONG), coord(FRLAT), 60000) || is_near(coord(TOLONG), coord(TOLAT), 60000);
}
