/* The score counts the three-letter parts of the name that "Northgate" has too. */
#include "extractd.h"

static const char wanted[] = "Northgate";

uint64_t choose(const struct record *record)
{
    unsigned common = 0;
    for (unsigned i = 0; i + 2 < 30; i++) {
        for (unsigned j = 0; j + 2 < sizeof wanted - 1; j++) {
            if (record->fename[i] == wanted[j] && record->fename[i + 1] == wanted[j + 1] && record->fename[i + 2] == wanted[j + 2]) {
                common++;
                break;
            }
        }
    }
    emit(common);
    return common > 2;
}
