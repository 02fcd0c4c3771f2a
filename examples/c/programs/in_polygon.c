/* Segments that begin in a triangle, by crossings of its sides. */
#include "extractd.h"

static const int64_t xs[3] = { -86700000, -86500000, -86600000 };
static const int64_t ys[3] = { 32400000, 32400000, 32600000 };

uint64_t choose(const struct record *record)
{
    (void) record;
    int64_t x = coord(FRLONG), y = coord(FRLAT);
    int inside = 0;
    for (int i = 0, j = 2; i < 3; j = i++) {
        if ((ys[i] > y) == (ys[j] > y))
            continue;
        int64_t cross = (xs[j] - xs[i]) * (y - ys[i]) - (ys[j] - ys[i]) * (x - xs[i]);
        if ((cross < 0) == (ys[j] > ys[i]))
            inside = !inside;
    }
    return (uint64_t) inside;
}
