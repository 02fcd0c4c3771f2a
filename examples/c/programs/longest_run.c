/* The score is the longest run of consonants. */
#include "extractd.h"

static int is_vowel(uint8_t c)
{
    switch (c) {
    case 'a': case 'e': case 'i': case 'o': case 'u': case 'y':
    case 'A': case 'E': case 'I': case 'O': case 'U': case 'Y':
        return 1;
    }
    return 0;
}

uint64_t choose(const struct record *record)
{
    unsigned run = 0, longest = 0;
    for (unsigned i = 0; i < 30; i++) {
        uint8_t c = record->fename[i];
        run = c == ' ' || is_vowel(c) ? 0 : run + 1;
        if (run > longest)
            longest = run;
    }
    emit(longest);
    return longest >= 3;
}
