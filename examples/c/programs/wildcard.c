/* Names that match a pattern: ? is any letter, * any rest. */
#include "extractd.h"

static const char pattern[] = "?a*";

uint64_t choose(const struct record *record)
{
    for (int i = 0; i < (int) sizeof record->fename; i++) {
        if (pattern[i] == '*')
            return 1;
        if (pattern[i] == '\0')
            return record->fename[i] == ' ';
        if (pattern[i] != '?' && pattern[i] != record->fename[i])
            return 0;
    }
    return 0;
}
