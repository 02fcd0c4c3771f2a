#include "extractd.h"

uint64_t choose(const struct record *record)
{
    uint8_t name[30];
    uint64_t answer = field(TLID) + has(BLOCKR) + names() + ranges() + in_range(0, 151);
    answer += name_copy(0, name, sizeof name) + name_is(1, name, sizeof name) + coord(TOLAT);
    return answer + emit(answer);
}
