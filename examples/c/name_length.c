/* Roads with house numbers on the left; the score is the length of the name. */
#include "extractd.h"

uint64_t choose(const struct record *record)
{
    uint64_t length = 0;
    UNROLL
    for (unsigned i = 0; i < sizeof record->fename; i++)
        if (record->fename[i] != ' ')
            length = i + 1;
    emit(length);
    return record->cfcc[0] == 'A' && has(FRADDL);
}
