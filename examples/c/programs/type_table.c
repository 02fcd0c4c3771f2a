/* Streets by their types, padded with blanks. */
#include "extractd.h"
#include <string.h>

static const char types[4][4] = { "Ave ", "Blvd", "St  ", "Rd  " };

static int is_street(const uint8_t *type)
{
    for (int i = 0; i < 4; i++)
        if (!memcmp(type, types[i], 4))
            return 1;
    return 0;
}

uint64_t choose(const struct record *record)
{
    return is_street(record->fetype);
}
