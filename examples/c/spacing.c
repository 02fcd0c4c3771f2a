/* Roads with house numbers whose ZIP Code, the left one or else the right one, ends with 67.
   The score is how far apart their house numbers are, in millionths of a degree. */
#include "extractd.h"

static inline __attribute__((always_inline)) uint64_t distance(int64_t from, int64_t to)
{
    return from < to ? to - from : from - to;
}

uint64_t choose(const struct record *record)
{
    const uint8_t *zip = has(ZIPL) ? record->zipl : record->zipr;
    int64_t from_long = coord(FRLONG), from_lat = coord(FRLAT);
    int64_t to_long = coord(TOLONG), to_lat = coord(TOLAT);
    uint64_t from_left = field(FRADDL), to_left = field(TOADDL);
    uint64_t from_right = field(FRADDR), to_right = field(TOADDR);
    uint64_t houses = 0;
    if (has(FRADDL))
        houses += distance(from_left, to_left) / 2 + 1;
    if (has(FRADDR))
        houses += distance(from_right, to_right) / 2 + 1;
    if (houses == 0 || record->cfcc[0] != 'A' || zip[3] != '6' || zip[4] != '7')
        return 0;
    emit((distance(from_long, to_long) + distance(from_lat, to_lat)) / houses);
    return 1;
}
