/* Names that begin with "LITTLE", in any case. */
#include "extractd.h"
#include <ctype.h>

static int begins_with(const uint8_t *text, const char *prefix)
{
    for (int i = 0; prefix[i] != '\0'; i++)
        if (toupper(text[i]) != prefix[i])
            return 0;
    return 1;
}

uint64_t choose(const struct record *record)
{
    return begins_with(record->fename, "LITTLE");
}
