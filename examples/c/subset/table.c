#include "extractd.h"

static const uint8_t points[8] = { 3, 1, 4, 1, 5, 9, 2, 6 };

uint64_t choose(const struct record *record)
{
    return points[record->cfcc[1] & 7];
}
