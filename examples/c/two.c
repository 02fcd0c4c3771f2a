#include "extractd.h"

uint64_t is_road(const struct record *record)
{
    return record->cfcc[0] == 'A';
}

uint64_t choose(const struct record *record)
{
    return is_road(record) && has(FRADDL);
}
