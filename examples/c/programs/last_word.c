/* Names whose last word is "Dam" or "Run". */
#include "extractd.h"
#include <string.h>

uint64_t choose(const struct record *record)
{
    const uint8_t *name = record->fename;
    int end = 30, begin;
    while (end > 0 && name[end - 1] == ' ')
        end--;
    for (begin = end; begin > 0 && name[begin - 1] != ' '; begin--)
        ;
    if (end - begin != 3)
        return 0;
    return !memcmp(name + begin, "Dam", 3) || !memcmp(name + begin, "Run", 3);
}
