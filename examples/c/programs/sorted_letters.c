/* The first name in the order of letters among a segment's names; the score is its number. */
#include "extractd.h"
#include <string.h>

uint64_t choose(const struct record *record)
{
    char best[30], name[30];
    uint64_t which = 0;
    memcpy(best, record->fename, sizeof best);
    for (uint64_t i = 1; i < 6 && i <= names(); i++) {
        name_copy(i, name, sizeof name);
        if (memcmp(name, best, sizeof name) < 0) {
            memcpy(best, name, sizeof best);
            which = i;
        }
    }
    emit(which);
    return which > 0;
}
