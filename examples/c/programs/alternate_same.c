/* Roads with an alternate name that is the first one without its first word. */
#include "extractd.h"

uint64_t choose(const struct record *record)
{
    uint8_t name[30];
    unsigned start = 0;
    while (start < 30 && record->fename[start] != ' ')
        start++;
    for (uint64_t n = 1; n <= names() && n < 5; n++) {
        name_copy(n, name, 30);
        unsigned i = 0;
        while (i < 30 && name[i] == record->fename[i])
            i++;
        if (i >= start)
            return 1;
    }
    return 0;
}
