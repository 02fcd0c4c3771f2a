/* Reads the right house number by hand; the score is the number. */
#include "extractd.h"

static uint64_t parse(const uint8_t *text, unsigned length)
{
    uint64_t number = 0;
    for (unsigned i = 0; i < length; i++) {
        if (text[i] == ' ')
            continue;
        if (text[i] < '0' || text[i] > '9')
            return 0;
        number = number * 10 + (text[i] - '0');
    }
    return number;
}

uint64_t choose(const struct record *record)
{
    uint64_t number = parse(record->fraddr, sizeof record->fraddr);
    emit(number);
    return number > 1000;
}
