#include "extractd.h"

uint64_t choose(const struct record *record)
{
    uint8_t name[30];
    UNROLL
    for (uint64_t i = 0; i < 4; i++) {
        if (!name_copy(i, name, sizeof name))
            break;
        if (name[0] == 'Y') {
            emit(field(ZIPL));
            return has(FRADDL) || has(FRADDR);
        }
    }
    return 0;
}
