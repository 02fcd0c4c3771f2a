/* The score counts the alternate names by their first letters. */
#include "extractd.h"

uint64_t choose(const struct record *record)
{
    (void) record;
    uint64_t vowels = 0;
    uint64_t count = names();
    for (uint64_t i = 1; i <= count; i++) {
        uint8_t first;
        if (i > 10)
            break;
        name_copy(i, &first, 1);
        if (first == 'A' || first == 'E' || first == 'I' || first == 'O' || first == 'U')
            vowels++;
    }
    emit(vowels);
    return vowels > 0;
}
