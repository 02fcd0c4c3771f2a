#include "extractd.h"

uint64_t choose(const struct record *record)
{
    return record->fename[field(FRADDL)] == 'e';
}
