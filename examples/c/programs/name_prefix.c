/* County roads, by the first words of the name. */
#include "extractd.h"
#include <string.h>

uint64_t choose(const struct record *record)
{
    return memcmp(record->fename, "County Road", 11) == 0;
}
