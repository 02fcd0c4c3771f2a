#include "extractd.h"

uint64_t choose(const struct record *record)
{
    return name_is(0, "Northgate", 9);
}
