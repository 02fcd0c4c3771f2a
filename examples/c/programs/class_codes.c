/* Segments of a list of classes. */
#include "extractd.h"
#include <string.h>

static const char classes[][4] = { "A11", "A15", "A21", "A31", "H12" };

uint64_t choose(const struct record *record)
{
    for (size_t i = 0; i < sizeof classes / sizeof classes[0]; i++)
        if (memcmp(record->cfcc, classes[i], 3) == 0)
            return 1;
    return 0;
}
