/* Names with more vowels than consonants. */
#include "extractd.h"
#include <ctype.h>
#include <string.h>

uint64_t choose(const struct record *record)
{
    int vowels = 0, consonants = 0;
    for (int i = 0; i < 30; i++) {
        int c = tolower(record->fename[i]);
        if (!isalpha(c))
            continue;
        if (strchr("aeiou", c) != NULL)
            vowels++;
        else
            consonants++;
    }
    emit((uint64_t) vowels);
    return vowels > consonants;
}
