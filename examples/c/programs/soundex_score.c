/* The score is the sum of the Soundex digits of the name. */
#include "extractd.h"

static unsigned digit_of(uint8_t c)
{
    switch (c | 0x20) {
    case 'b': case 'f': case 'p': case 'v': return 1;
    case 'c': case 'g': case 'j': case 'k': case 'q': case 's': case 'x': case 'z': return 2;
    case 'd': case 't': return 3;
    case 'l': return 4;
    case 'm': case 'n': return 5;
    case 'r': return 6;
    default: return 0;
    }
}

uint64_t choose(const struct record *record)
{
    unsigned sum = 0;
    for (unsigned i = 0; i < sizeof record->fename; i++)
        sum += digit_of(record->fename[i]);
    emit(sum);
    return sum > 12;
}
