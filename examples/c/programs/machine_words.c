/* A state machine: names that are a word and then a number. */
#include "extractd.h"
#include <ctype.h>

enum state { START, WORD, GAP, NUMBER, TAIL, BAD };

uint64_t choose(const struct record *record)
{
    enum state state = START;
    for (int i = 0; i < 30; i++) {
        int c = record->fename[i];
        switch (state) {
        case START: state = isalpha(c) ? WORD : BAD; break;
        case WORD: state = c == ' ' ? GAP : isalpha(c) ? WORD : BAD; break;
        case GAP: state = isdigit(c) ? NUMBER : isalpha(c) ? WORD : BAD; break;
        case NUMBER: state = c == ' ' ? TAIL : isdigit(c) ? NUMBER : BAD; break;
        case TAIL: state = c == ' ' ? TAIL : BAD; break;
        case BAD: break;
        }
    }
    return state == TAIL || state == NUMBER;
}
