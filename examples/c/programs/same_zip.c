/* Segments with different ZIP codes on both sides. */
#include "extractd.h"
#include <string.h>

uint64_t choose(const struct record *record)
{
    if (record->zipl[0] == ' ' || record->zipr[0] == ' ')
        return 0;
    return memcmp(record->zipl, record->zipr, sizeof record->zipl) != 0;
}
