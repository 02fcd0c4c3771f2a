/* The score is the latitude of the middle, in thousandths of a degree. */
#include "extractd.h"

uint64_t choose(const struct record *record)
{
    (void) record;
    int64_t middle = (coord(FRLAT) + coord(TOLAT)) / 2;
    emit((uint64_t) (middle / 1000));
    return middle > 32500000;
}
