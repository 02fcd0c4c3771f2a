#include "extractd.h"

uint64_t choose(const struct record *record)
{
    const uint8_t *volatile bytes = record->fename;
    volatile uint32_t at = record->cfcc[0] & 15;
    return has(FRADDL) && bytes[at] == 'e';
}
