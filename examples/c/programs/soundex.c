/* Names that sound like Mane. */
#include "extractd.h"
#include <ctype.h>
#include <string.h>

static const char codes[26] = "01230120022455012623010202";

static void soundex(const uint8_t *name, char *code)
{
    int filled = 1;
    char last = '0';
    code[0] = (char) toupper(name[0]);
    for (int i = 1; i < 30 && filled < 4; i++) {
        int c = toupper(name[i]);
        if (c < 'A' || c > 'Z')
            continue;
        char digit = codes[c - 'A'];
        if (digit != '0' && digit != last)
            code[filled++] = digit;
        last = digit;
    }
    while (filled < 4)
        code[filled++] = '0';
}

uint64_t choose(const struct record *record)
{
    char code[4];
    soundex(record->fename, code);
    return memcmp(code, "M500", 4) == 0;
}
