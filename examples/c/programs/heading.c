/* Segments that lead north-east; the score is the octant. */
#include "extractd.h"

uint64_t choose(const struct record *record)
{
    (void) record;
    int64_t dx = coord(TOLONG) - coord(FRLONG), dy = coord(TOLAT) - coord(FRLAT);
    unsigned octant = 0;
    if (dy < 0) {
        octant |= 4;
        dy = -dy;
    }
    if (dx < 0) {
        octant |= 2;
        dx = -dx;
    }
    if (dx > dy)
        octant |= 1;
    emit(octant);
    return octant < 2;
}
