#include "extractd.h"

uint64_t choose(const struct record *record)
{
    volatile uint64_t n = 0;
    __sync_fetch_and_add(&n, record->cfcc[0]);
    return n;
}
