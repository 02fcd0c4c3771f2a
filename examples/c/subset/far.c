#include "extractd.h"

static const uint8_t wide[600] = { 1, 2, 3 };

uint64_t choose(const struct record *record)
{
    return wide[bounded(field(FRADDL), 511)] == record->cfcc[0];
}
