/* Names that read the same from both ends, by their first and last letters. */
#include "extractd.h"
#include <ctype.h>

uint64_t choose(const struct record *record)
{
    const uint8_t *name = record->fename;
    int end = 30;
    while (end > 0 && name[end - 1] == ' ')
        end--;
    if (end == 0)
        return 0;
    int same = 0;
    for (int i = 0, j = end - 1; i < j; i++, j--)
        if (tolower(name[i]) == tolower(name[j]))
            same++;
    emit((uint64_t) same);
    return same > 0;
}
