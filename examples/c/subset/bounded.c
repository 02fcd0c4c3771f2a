#include "extractd.h"

uint64_t choose(const struct record *record)
{
    return record->fename[bounded(field(FRADDL), 15)] == 'e';
}
