/* Names in which a letter occurs three times or more. */
#include "extractd.h"
#include <ctype.h>

uint64_t choose(const struct record *record)
{
    uint8_t counts[26] = { 0 };
    for (int i = 0; i < 30; i++) {
        int c = tolower(record->fename[i]);
        if (c >= 'a' && c <= 'z')
            counts[c - 'a']++;
    }
    uint8_t most = 0;
    for (int i = 0; i < 26; i++)
        if (counts[i] > most)
            most = counts[i];
    emit(most);
    return most >= 3;
}
