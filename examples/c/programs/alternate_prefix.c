/* Roads that have a name beginning with "State", alternate ones included. */
#include "extractd.h"
#include <string.h>

uint64_t choose(const struct record *record)
{
    (void) record;
    char name[30];
    for (uint64_t i = 0; i <= 5; i++) {
        if (!name_copy(i, name, sizeof name))
            break;
        if (memcmp(name, "Old", 3) == 0)
            return 1;
    }
    return 0;
}
