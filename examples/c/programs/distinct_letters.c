/* The score is how many letters of the alphabet the name has. */
#include "extractd.h"
#include <ctype.h>

uint64_t choose(const struct record *record)
{
    uint32_t seen = 0;
    for (unsigned i = 0; i < sizeof record->fename; i++) {
        int c = tolower(record->fename[i]);
        if (isalpha(c))
            seen |= 1u << (c - 'a');
    }
    int letters = __builtin_popcount(seen);
    emit((uint64_t) letters);
    return letters > 6;
}
