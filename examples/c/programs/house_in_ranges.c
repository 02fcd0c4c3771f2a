/* Segments where house 151 is in any range. */
#include "extractd.h"

uint64_t choose(const struct record *record)
{
    (void) record;
    uint64_t n = ranges();
    for (uint64_t i = 0; i < n && i < 8; i++)
        if (in_range(i, 151) != NO_SIDE)
            return 1;
    return 0;
}
