/* Roads with one of four names. */
#include "extractd.h"

static const char *const wanted[] = { "Main", "Northgate", "Yarrow", "Elmwood" };
static const unsigned lengths[] = { 4, 9, 6, 7 };

uint64_t choose(const struct record *record)
{
    (void) record;
    for (unsigned i = 0; i < sizeof wanted / sizeof wanted[0]; i++)
        if (name_is(0, wanted[i], lengths[i]))
            return 1;
    return 0;
}
