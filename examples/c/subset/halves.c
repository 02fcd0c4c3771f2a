#include "extractd.h"

uint64_t choose(const struct record *record)
{
    volatile uint32_t halves[2] = { (uint64_t) record, (uint64_t) record >> 32 };
    has(FRADDL);
    return ((const struct record *) (halves[0] | (uint64_t) halves[1] << 32))->cfcc[0] == 'A';
}
