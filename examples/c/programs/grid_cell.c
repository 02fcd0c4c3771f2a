/* Counts nothing, but scores the cell of a grid that the segment begins in. */
#include "extractd.h"

enum { WEST = -87000000, SOUTH = 32000000, CELL = 10000 };

uint64_t choose(const struct record *record)
{
    (void) record;
    int64_t column = (coord(FRLONG) - WEST) / CELL;
    int64_t row = (coord(FRLAT) - SOUTH) / CELL;
    if (column < 0 || row < 0)
        return 0;
    emit((uint64_t) (row * 1000 + column));
    return (row + column) % 2 == 0;
}
