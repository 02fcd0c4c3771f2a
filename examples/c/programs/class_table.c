/* Weighs the classes by a table of their letters. */
#include "extractd.h"

static const uint8_t weights[8] = { 9, 5, 0, 3, 0, 1, 0, 7 };

uint64_t choose(const struct record *record)
{
    uint8_t letter = record->cfcc[0];
    if (letter < 'A' || letter > 'H')
        return 0;
    emit(weights[letter - 'A']);
    return weights[letter - 'A'] > 2;
}
