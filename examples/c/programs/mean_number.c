/* The score is the mean of the house numbers that are there. */
#include "extractd.h"

uint64_t choose(const struct record *record)
{
    (void) record;
    static const uint8_t fields[4] = { FRADDL, TOADDL, FRADDR, TOADDR };
    uint64_t sum = 0, count = 0;
    for (int i = 0; i < 4; i++) {
        if (has(fields[i])) {
            sum += field(fields[i]);
            count++;
        }
    }
    if (count == 0)
        return 0;
    emit(sum / count);
    return sum / count > 500;
}
