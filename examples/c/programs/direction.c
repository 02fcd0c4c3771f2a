/* Segments with a direction before or after the name. */
#include "extractd.h"
#include <string.h>

static int is_direction(const uint8_t field[2])
{
    static const char directions[8][3] = { "N ", "S ", "E ", "W ", "NE", "NW", "SE", "SW" };
    for (int i = 0; i < 8; i++)
        if (field[0] == directions[i][0] && field[1] == directions[i][1])
            return 1;
    return 0;
}

uint64_t choose(const struct record *record)
{
    return is_direction(record->fedirp) || is_direction(record->fedirs);
}
