#include "extractd.h"

static uint64_t seen;

uint64_t choose(const struct record *record)
{
    return ++seen < 10 && record->cfcc[0] == 'A';
}
