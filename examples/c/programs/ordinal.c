/* Names such as 5th or 22nd. */
#include "extractd.h"
#include <string.h>

static const char endings[4][2] = { { 's', 't' }, { 'n', 'd' }, { 'r', 'd' }, { 't', 'h' } };

uint64_t choose(const struct record *record)
{
    unsigned i = 0;
    while (i < 28 && record->fename[i] >= '0' && record->fename[i] <= '9')
        i++;
    if (i == 0)
        return 0;
    for (unsigned k = 0; k < 4; k++)
        if (memcmp(&record->fename[i], endings[k], 2) == 0)
            return 1;
    return 0;
}
