/* Segments whose sides share house numbers. */
#include "extractd.h"

struct range {
    uint64_t low, high;
};

static struct range make_range(uint64_t a, uint64_t b)
{
    struct range range = { a < b ? a : b, a < b ? b : a };
    return range;
}

uint64_t choose(const struct record *record)
{
    (void) record;
    struct range left = make_range(field(FRADDL), field(TOADDL));
    struct range right = make_range(field(FRADDR), field(TOADDR));
    return left.high > 0 && left.low <= right.high && right.low <= left.high;
}
