/* Segments whose number has a check digit that fits. */
#include "extractd.h"

uint64_t choose(const struct record *record)
{
    (void) record;
    uint64_t id = field(TLID);
    unsigned sum = 0;
    for (int i = 0; i < 10; i++) {
        unsigned digit = id % 10;
        id /= 10;
        if (i % 2) {
            digit *= 2;
            if (digit > 9)
                digit -= 9;
        }
        sum += digit;
    }
    return sum % 10 == 0;
}
