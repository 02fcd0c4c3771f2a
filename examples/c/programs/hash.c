/* One in eight segments, by a hash of the name. */
#include "extractd.h"

static uint32_t fnv(const uint8_t *bytes, size_t length)
{
    uint32_t hash = 2166136261u;
    for (size_t i = 0; i < length; i++)
        hash = (hash ^ bytes[i]) * 16777619u;
    return hash;
}

uint64_t choose(const struct record *record)
{
    return fnv(record->fename, sizeof record->fename) % 8 == 0;
}
