/* Runs a program in C on this machine, over a county's files, and prints the rows that `extractd run` prints:

       cc -g -Itools/c -include tools/c/native.h PROGRAM.c tools/c/native.c -o program
       ./program DIR CODE

   Written from docs/records.md and docs/helpers.md, independently of extractd's code, so that each can check the other.
   Expects well-formed files. */
#include <inttypes.h>
#include <stdbool.h>
#include <stdio.h>
#include <stdlib.h>
#include <string.h>

#include "native.h"

/* ---- Files */

struct lines {
    size_t count;
    size_t width;
    char *bytes;
};

struct place {
    size_t first; /* counted from 1, as in docs/records.md */
    size_t last;
};

enum { NAME = 30, MOST_NAMES = 5001, MOST_RANGES = 1001 };

static struct lines segments, feature_ids, features, more_ranges;

static void *checked(void *memory)
{
    if (memory == NULL) {
        perror("native.c");
        exit(3);
    }
    return memory;
}

/* Reads a file's lines, each of `width` bytes and its line end. A missing file has no lines. */
static struct lines read_lines(const char *folder, const char *code, char type, size_t width)
{
    struct lines lines = { .width = width };
    char path[4096], line[512];
    snprintf(path, sizeof path, "%s/TGR%s.RT%c", folder, code, type);
    FILE *file = fopen(path, "rb");
    if (file == NULL)
        return lines;
    while (fgets(line, sizeof line, file) != NULL) {
        lines.bytes = checked(realloc(lines.bytes, (lines.count + 1) * width));
        memcpy(lines.bytes + lines.count * width, line, width);
        lines.count++;
    }
    fclose(file);
    return lines;
}

static const char *line_of(const struct lines *lines, size_t index)
{
    return lines->bytes + index * lines->width;
}

/* ---- Fields */

/* Strips the blanks from both ends of a field. */
static size_t stripped(const char **field, size_t length)
{
    while (length > 0 && (*field)[0] == ' ') {
        (*field)++;
        length--;
    }
    while (length > 0 && (*field)[length - 1] == ' ')
        length--;
    return length;
}

static bool read_digits(const char *digits, size_t length, size_t most, uint64_t *number)
{
    *number = 0;
    if (length < 1 || length > most)
        return false;
    for (size_t i = 0; i < length; i++) {
        if (digits[i] < '0' || digits[i] > '9')
            return false;
        *number = *number * 10 + (uint64_t) (digits[i] - '0');
    }
    return true;
}

static bool read_number(const char *line, struct place place, uint64_t *number)
{
    const char *digits = line + place.first - 1;
    size_t length = stripped(&digits, place.last - place.first + 1);
    return read_digits(digits, length, 11, number);
}

static int64_t read_coordinate(const char *line, struct place place)
{
    const char *digits = line + place.first - 1;
    size_t length = stripped(&digits, place.last - place.first + 1);
    uint64_t number;
    bool minus = length > 0 && digits[0] == '-';
    if (minus || (length > 0 && digits[0] == '+')) {
        digits++;
        length--;
    }
    if (!read_digits(digits, length, 9, &number))
        return 0;
    return minus ? -(int64_t) number : (int64_t) number;
}

/* ---- The current segment */

static const char *segment;
static const char *segment_names[MOST_NAMES];
static const char *segment_ranges[MOST_RANGES]; /* each points to the four address fields */
static size_t name_count, range_count;
static uint64_t score;

static const struct place tlid_place = { 6, 15 };

static bool same_tlid(const char *line)
{
    uint64_t wanted, found;
    return read_number(segment, tlid_place, &wanted) && read_number(line, tlid_place, &found) && wanted == found;
}

/* Adds the name with this number, from the first line of type 5 that has it. */
static void add_name(uint64_t feature)
{
    for (size_t i = 0; i < features.count; i++) {
        uint64_t found;
        const char *line = line_of(&features, i);
        if (read_number(line, (struct place) { 11, 18 }, &found) && found == feature) {
            segment_names[name_count++] = line + 20;
            return;
        }
    }
}

static void enter_segment(const char *line)
{
    segment = line;
    score = 0;
    name_count = range_count = 0;
    segment_names[name_count++] = line + 19;
    segment_ranges[range_count++] = line + 58;
    for (size_t i = 0; i < feature_ids.count; i++) {
        const char *ids = line_of(&feature_ids, i);
        uint64_t feature;
        for (size_t first = 19; first <= 51 && same_tlid(ids); first += 8)
            if (read_number(ids, (struct place) { first, first + 7 }, &feature))
                add_name(feature);
    }
    for (size_t i = 0; i < more_ranges.count; i++)
        if (same_tlid(line_of(&more_ranges, i)))
            segment_ranges[range_count++] = line_of(&more_ranges, i) + 18;
}

/* ---- The helper functions */

static const struct place number_places[] = {
    [TLID] = { 6, 15 },     [FRADDL] = { 59, 69 },   [TOADDL] = { 70, 80 },   [FRADDR] = { 81, 91 },  [TOADDR] = { 92, 102 },
    [ZIPL] = { 107, 111 },  [ZIPR] = { 112, 116 },   [STATEL] = { 131, 132 }, [STATER] = { 133, 134 },
    [COUNTYL] = { 135, 137 }, [COUNTYR] = { 138, 140 }, [PLACEL] = { 161, 165 }, [PLACER] = { 166, 170 },
    [TRACTL] = { 171, 176 }, [TRACTR] = { 177, 182 }, [BLOCKL] = { 183, 186 }, [BLOCKR] = { 187, 190 },
};

static const struct place coordinate_places[] = {
    [FRLONG] = { 191, 200 }, [FRLAT] = { 201, 209 }, [TOLONG] = { 210, 219 }, [TOLAT] = { 220, 228 },
};

/* Exits if the verifier would refuse the program: 50 BadArgument. */
static void require(bool good)
{
    if (!good) {
        fputs("native.c: a helper's argument is out of bounds\n", stderr);
        exit(1);
    }
}

uint64_t field(uint64_t id)
{
    uint64_t number;
    require(id <= BLOCKR);
    return read_number(segment, number_places[id], &number) ? number : 0;
}

uint64_t has(uint64_t id)
{
    uint64_t number;
    require(id <= BLOCKR);
    return read_number(segment, number_places[id], &number);
}

uint64_t names(void)
{
    return name_count - 1;
}

uint64_t ranges(void)
{
    return range_count;
}

static bool lies_between(const char *from_field, const char *to_field, uint64_t house)
{
    uint64_t from, to;
    struct place whole = { 1, 11 };
    if (!read_number(from_field, whole, &from) || !read_number(to_field, whole, &to))
        return false;
    if (house < (from < to ? from : to) || house > (from < to ? to : from))
        return false;
    return from % 2 != to % 2 || house % 2 == from % 2;
}

uint64_t in_range(uint64_t range, uint64_t house)
{
    if (range >= range_count)
        return NO_SIDE;
    const char *ends = segment_ranges[range];
    return (lies_between(ends, ends + 11, house) ? LEFT : NO_SIDE) + (lies_between(ends + 22, ends + 33, house) ? RIGHT : NO_SIDE);
}

uint64_t name_copy(uint64_t name, void *bytes, uint64_t length)
{
    require(length >= 1 && length <= NAME);
    if (name >= name_count) {
        memset(bytes, ' ', length);
        return 0;
    }
    memcpy(bytes, segment_names[name], length);
    return 1;
}

static char small(char letter)
{
    return letter >= 'A' && letter <= 'Z' ? (char) (letter + ('a' - 'A')) : letter;
}

uint64_t name_is(uint64_t name, const void *bytes, uint64_t length)
{
    const char *wanted = bytes;
    require(length >= 1 && length <= NAME);
    if (name >= name_count)
        return 0;
    for (size_t i = 0; i < NAME; i++)
        if (small(segment_names[name][i]) != (i < length ? small(wanted[i]) : ' '))
            return 0;
    return 1;
}

uint64_t emit(uint64_t number)
{
    score = number;
    return 0;
}

int64_t coord(uint64_t which)
{
    require(which <= TOLAT);
    return read_coordinate(segment, coordinate_places[which]);
}

/* ---- Rows */

int main(int count, char **arguments)
{
    if (count != 3) {
        fprintf(stderr, "usage: %s DIR CODE\n", arguments[0]);
        return 2;
    }
    feature_ids = read_lines(arguments[1], arguments[2], '4', 58);
    features = read_lines(arguments[1], arguments[2], '5', 56);
    more_ranges = read_lines(arguments[1], arguments[2], '6', 76);
    segments = read_lines(arguments[1], arguments[2], '1', sizeof(struct record));
    for (size_t i = 0; i < segments.count; i++) {
        enter_segment(line_of(&segments, i));
        if (choose((const struct record *) segment) != 0)
            printf("%" PRIu64 "\t%.*s\n", score, (int) segments.width, segment);
    }
    return 0;
}
