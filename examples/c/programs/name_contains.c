/* Names with "er" anywhere; the score is where. */
#include "extractd.h"

uint64_t choose(const struct record *record)
{
    for (unsigned i = 0; i + 1 < sizeof record->fename; i++) {
        if (record->fename[i] == 'e' && record->fename[i + 1] == 'r') {
            emit(i);
            return 1;
        }
    }
    return 0;
}
