/* Segments longer than 0.005 degrees; the score is the square of the length. */
#include "extractd.h"

uint64_t choose(const struct record *record)
{
    (void) record;
    int64_t dx = coord(TOLONG) - coord(FRLONG);
    int64_t dy = coord(TOLAT) - coord(FRLAT);
    uint64_t squared = (uint64_t) (dx * dx + dy * dy);
    emit(squared);
    return squared > 5000ull * 5000ull;
}
