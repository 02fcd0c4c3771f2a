/* Names that end in a number. */
#include "extractd.h"
#include <ctype.h>

uint64_t choose(const struct record *record)
{
    int i = sizeof record->fename - 1;
    while (i >= 0 && record->fename[i] == ' ')
        i--;
    return i >= 0 && isdigit(record->fename[i]);
}
