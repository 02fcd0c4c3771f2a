/* Names with a letter that is doubled. */
#include "extractd.h"

uint64_t choose(const struct record *record)
{
    for (const uint8_t *p = record->fename; p < record->fename + 29; p++)
        if (*p != ' ' && p[0] == p[1])
            return 1;
    return 0;
}
