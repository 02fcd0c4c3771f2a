/* The same machine as a table of states and kinds of letters. */
#include "extractd.h"
#include <ctype.h>

enum { BLANK, LETTER, DIGIT, OTHER };
enum { START, WORD, GAP, NUMBER, TAIL, BAD, STATES };

static const uint8_t next[STATES][4] = {
    [START] = { BAD, WORD, BAD, BAD },
    [WORD] = { GAP, WORD, BAD, BAD },
    [GAP] = { BAD, WORD, NUMBER, BAD },
    [NUMBER] = { TAIL, BAD, NUMBER, BAD },
    [TAIL] = { TAIL, BAD, BAD, BAD },
    [BAD] = { BAD, BAD, BAD, BAD },
};

static int kind(int c)
{
    if (c == ' ')
        return BLANK;
    if (isalpha(c))
        return LETTER;
    return isdigit(c) ? DIGIT : OTHER;
}

uint64_t choose(const struct record *record)
{
    int state = START;
    for (int i = 0; i < 30; i++)
        state = next[state][kind(record->fename[i])];
    return state == TAIL || state == NUMBER;
}
