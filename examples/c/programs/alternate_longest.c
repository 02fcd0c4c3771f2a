/* The score is the length of the longest of all names. */
#include "extractd.h"

static int length_of(const uint8_t *name)
{
    int length = 30;
    while (length > 0 && name[length - 1] == ' ')
        --length;
    return length;
}

uint64_t choose(const struct record *record)
{
    uint8_t name[30];
    int longest = length_of(record->fename);
    for (int i = 1; i < 8; i++) {
        if (!name_copy((uint64_t) i, name, sizeof name))
            break;
        int length = length_of(name);
        if (length > longest)
            longest = length;
    }
    emit((uint64_t) longest);
    return longest > 10;
}
