/* Names that end in "wood". */
#include "extractd.h"
#include <string.h>

static int trimmed_length(const uint8_t *text, int length)
{
    while (length > 0 && text[length - 1] == ' ')
        length--;
    return length;
}

uint64_t choose(const struct record *record)
{
    int length = trimmed_length(record->fename, sizeof record->fename);
    if (length < 4)
        return 0;
    return memcmp(record->fename + length - 4, "wood", 4) == 0;
}
