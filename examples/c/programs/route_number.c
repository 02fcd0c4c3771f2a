/* Highways; the score is their number. */
#include "extractd.h"
#include <string.h>

uint64_t choose(const struct record *record)
{
    uint64_t number = 0;
    if (memcmp(record->fename, "US Hwy ", 7) != 0)
        return 0;
    for (int i = 7; i < 30 && record->fename[i] >= '0' && record->fename[i] <= '9'; i++)
        number = number * 10 + record->fename[i] - '0';
    emit(number);
    return number != 0;
}
