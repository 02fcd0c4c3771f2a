/* Segments that begin in a box. */
#include "extractd.h"

struct box {
    int64_t west, south, east, north;
};

static const struct box area = { -86700000, 32400000, -86600000, 32500000 };

uint64_t choose(const struct record *record)
{
    (void) record;
    int64_t x = coord(FRLONG), y = coord(FRLAT);
    return x >= area.west && x <= area.east && y >= area.south && y <= area.north;
}
