/* The score has the initials of the name's words, eight bits each. */
#include "extractd.h"

uint64_t choose(const struct record *record)
{
    uint64_t initials = 0;
    uint8_t before = ' ';
    for (int i = 0; i < 30; i++) {
        uint8_t c = record->fename[i];
        if (c != ' ' && before == ' ')
            initials = initials << 8 | c;
        before = c;
    }
    emit(initials);
    return initials != 0;
}
