/* The speed limit of a road by its class. */
#include "extractd.h"

static unsigned speed(const uint8_t *cfcc)
{
    if (cfcc[0] != 'A')
        return 0;
    switch (cfcc[1]) {
    case '1': return 70;
    case '2': return 60;
    case '3': return 50;
    case '4': return 30;
    case '5': return 20;
    case '6': return 25;
    case '7': return 10;
    default: return 0;
    }
}

uint64_t choose(const struct record *record)
{
    unsigned limit = speed(record->cfcc);
    emit(limit);
    return limit >= 25;
}
