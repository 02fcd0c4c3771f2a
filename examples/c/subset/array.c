#include "extractd.h"

uint64_t choose(const struct record *record)
{
    const char wanted[9] = "Northgate";
    return name_is(0, wanted, sizeof wanted);
}
