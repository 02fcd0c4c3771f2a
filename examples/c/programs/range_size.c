/* Segments with more than forty house numbers; the score is how many. */
#include "extractd.h"
#include <stdlib.h>

uint64_t choose(const struct record *record)
{
    (void) record;
    long total = 0;
    if (has(FRADDL))
        total += labs((long) field(TOADDL) - (long) field(FRADDL)) / 2 + 1;
    if (has(FRADDR))
        total += labs((long) field(TOADDR) - (long) field(FRADDR)) / 2 + 1;
    emit((uint64_t) total);
    return total > 40;
}
