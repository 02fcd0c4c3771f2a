/* A table of structs, searched from its start. */
#include "extractd.h"

static const struct {
    char letter;
    char digit;
    uint16_t width;
} table[] = {
    { 'A', '1', 40 }, { 'A', '2', 30 }, { 'A', '3', 25 }, { 'A', '4', 20 }, { 'B', '1', 15 }, { 'H', '0', 5 },
};

uint64_t choose(const struct record *record)
{
    for (unsigned i = 0; i < sizeof table / sizeof *table; i++) {
        if (table[i].letter == record->cfcc[0] && table[i].digit == record->cfcc[1]) {
            emit(table[i].width);
            return 1;
        }
    }
    return 0;
}
