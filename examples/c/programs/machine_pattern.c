/* Names with the letters a, r and n in this order. */
#include "extractd.h"

uint64_t choose(const struct record *record)
{
    const char *const letters = "arn";
    unsigned found = 0;
    for (unsigned i = 0; i < sizeof record->fename && found < 3; i++)
        if (record->fename[i] == letters[found])
            found++;
    return found == 3;
}
