#include "extractd.h"

uint64_t choose(const struct record *record)
{
    uint8_t name[30];
    name_copy(0, name, 4);
    return name_is(1, name, 5);
}
