/* Segments in one of some ZIP codes. */
#include "extractd.h"

static const uint32_t zips[] = { 36003, 36006, 36051, 36066, 36067, 36068, 36091 };

static int listed(uint64_t zip)
{
    int low = 0, high = sizeof zips / sizeof zips[0] - 1;
    while (low <= high) {
        int middle = (low + high) / 2;
        if (zips[middle] == zip)
            return 1;
        if (zips[middle] < zip)
            low = middle + 1;
        else
            high = middle - 1;
    }
    return 0;
}

uint64_t choose(const struct record *record)
{
    (void) record;
    return listed(field(ZIPL)) || listed(field(ZIPR));
}
