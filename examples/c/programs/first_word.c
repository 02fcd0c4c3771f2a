/* The score is the length of the name's first word. */
#include "extractd.h"
#include <string.h>

uint64_t choose(const struct record *record)
{
    const uint8_t *blank = memchr(record->fename, ' ', sizeof record->fename);
    uint64_t length = blank ? (uint64_t) (blank - record->fename) : sizeof record->fename;
    emit(length);
    return length > 6;
}
