#include "extractd.h"

uint64_t choose(const struct record *record)
{
    uint8_t name[30];
    name_copy(0, name, sizeof name);
    return name[0] == 'M' && name[3] == 'n';
}
