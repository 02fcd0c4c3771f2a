/* A set of classes as bits. */
#include "extractd.h"

#define BIT(letter) (1u << ((letter) - 'A'))

uint64_t choose(const struct record *record)
{
    const uint32_t set = BIT('A') | BIT('B') | BIT('H');
    uint8_t letter = record->cfcc[0];
    return letter >= 'A' && letter <= 'Z' && (set >> (letter - 'A') & 1);
}
