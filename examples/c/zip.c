#include "extractd.h"

uint64_t choose(const struct record *record)
{
    if (record->cfcc[0] != 'A')
        return 0;
    emit(field(ZIPL));
    return 1;
}
