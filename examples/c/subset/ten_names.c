#include "extractd.h"

uint64_t choose(const struct record *record)
{
    uint8_t name[30];
    for (uint64_t i = 0; i <= names() && i < 10; i++) {
        name_copy(i, name, sizeof name);
        if (begins(name, "Old "))
            return 1;
    }
    return 0;
}
