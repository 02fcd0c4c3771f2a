/* Names of two or more words; the score is how many. */
#include "extractd.h"
#include <stdbool.h>

uint64_t choose(const struct record *record)
{
    uint64_t words = 0;
    bool inside = false;
    for (size_t i = 0; i < sizeof record->fename; i++) {
        bool blank = record->fename[i] == ' ';
        if (!blank && !inside)
            words++;
        inside = !blank;
    }
    emit(words);
    return words >= 2;
}
