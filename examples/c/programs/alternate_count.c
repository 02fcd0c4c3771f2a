/* Roads with alternate names; the score is how many. */
#include "extractd.h"

uint64_t choose(const struct record *record)
{
    uint64_t n = names();
    emit(n);
    return record->cfcc[0] == 'A' && n > 0;
}
