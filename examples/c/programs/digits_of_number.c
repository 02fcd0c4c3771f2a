/* Segments whose left house numbers have four digits. */
#include "extractd.h"

static int digits(uint64_t number)
{
    int count = 0;
    while (number > 0) {
        number /= 10;
        count++;
    }
    return count;
}

uint64_t choose(const struct record *record)
{
    (void) record;
    return digits(field(FRADDL)) == 4;
}
