/* arm COUNT: so many random tables and runs of bytes, good and bad, through all ten functions, with and without a level limit. Prints how many were
 * written and read, how many calls were refused for a level, for text, for a payload and for a limit, and a hash of all answers and of all memory that was
 * lent, so that the same program on two processors can be compared (compare/arm). */
#include <inttypes.h>
#include <stdio.h>
#include <stdlib.h>
#include <string.h>

#include "afsungar.h"

enum { WORDS = 512, TEXT = 2048, BYTES = 1 << 16, ROWS = 1 << 12 };

static uint64_t words[WORDS], rows[ROWS];
static uint8_t text[TEXT], letters[2 * ROWS], out[BYTES], damaged[BYTES];
static size_t word_count, text_length;
static uint64_t state = 88172645463325252u, hash = 14695981039346656037u, answers[16];

/* The level limit of calls, which may be any word; or they are made without one. */
static uint64_t limit;
static int is_plain;
#define CALL(function, ...) told(is_plain ? function(__VA_ARGS__) : function##_within(limit, __VA_ARGS__), n)

static uint64_t any(void) {
    state ^= state << 13;
    state ^= state >> 7;
    return state ^= state << 17;
}

static uint64_t below(uint64_t bound) { return any() % bound; }

static uint64_t number(void) {
    uint64_t shift = below(64), one = below(2);
    switch (below(7)) {
    case 0: return one;
    case 1: return below(256);
    case 2: return below(70000);
    case 3: return any() >> 32;
    case 4: return any();
    case 5: return 0 - below(300);
    default: return ((uint64_t)1 << shift) - one;
    }
}

/* Mostly a limit that is in force, and often a low one. */
static void choose_limit(void) {
    is_plain = !below(6);
    limit = below(10) ? 1 + below(below(2) ? 4 : 32) : number();
}

static void row(uint64_t kind, uint64_t n) {
    if (word_count + 2 > WORDS) return;
    words[word_count++] = kind;
    words[word_count++] = n;
}

/* The number of an array's row. */
static uint64_t array(uint64_t count, uint64_t kind) { return count | kind << 32; }

/* Mostly ASCII; now and then a sequence of two to four bytes, which the text's end may cut off, or any byte. */
static void spell(size_t n) {
    static const char *const sequences[] = {"\xc3\x98", "\xe2\x82\xac", "\xf0\x9f\x98\x80"};
    const char *next = "";
    for (; n > 0 && text_length < TEXT; n--) {
        if (!*next && !below(20)) next = sequences[below(3)];
        text[text_length++] = (uint8_t)(!below(60) ? any() : *next ? *next++ : (char)(32 + below(90)));
    }
}

static void scalar(uint64_t kind) {
    size_t length = below(below(9) ? 12 : 300);
    switch (kind) {
    case 0x94: case 0x98: case 0xa0: row(kind, 0); spell(16); break;
    case 0xb0: case 0xb1: case 0xb3: row(kind, length); spell(length); break;
    default: row(kind, number());
    }
}

static const uint64_t kinds[] = {0x40, 0x50, 0x51, 0x56, 0x60, 0x61, 0x70, 0x71, 0x72, 0x73, 0x74, 0x80, 0x81, 0x82,
                                 0x83, 0x84, 0x94, 0x98, 0xa0, 0xb0, 0xb1, 0xb3, 0xd0, 0xd1, 0xf0, 0x00, 0x99};
enum { SCALARS = 22, ELEMENTS = 25, KINDS = 26 };

/* The elements of an array are of one kind, lists, maps and arrays too. Its number tells the kind, now and then a wrong one. */
static void value(uint64_t kind, int level) {
    uint64_t count = below(below(5) ? 3 : 30), same = kinds[below(3) ? below(SCALARS) : SCALARS + below(ELEMENTS - SCALARS)];
    int is_element = same != 0x40 && same != 0xa0;
    uint64_t element = !below(60) ? kinds[below(KINDS + 1)] : count || is_element ? same : 0x70;
    switch (kind) {
    case 0x00: count = 2; break;
    case 0xd1: count *= 2; break;
    case 0xd0: case 0xf0: break;
    default: scalar(kind); return;
    }
    row(kind, kind == 0xf0 ? array(count, element) : count);
    for (uint64_t i = 0; i < count && level < 34 && word_count < WORDS; i++)
        value(kind == 0xf0 ? same : kinds[below(below(30) ? KINDS : KINDS + 1)], level + 1);
}

/* Lists, arrays and maps, one in the other, to level 34. */
static void chain(void) {
    uint64_t links[34], length = 1 + below(34);
    for (uint64_t i = 0; i < length; i++) {
        uint64_t which = below(10);
        links[i] = which < 5 ? 0xd0 : which < 9 ? 0xf0 : 0xd1;
    }
    for (uint64_t i = 0; i < length; i++) {
        uint64_t next = i + 1 < length ? links[i + 1] : 0x70;
        row(links[i], links[i] == 0xd0 ? 1 : links[i] == 0xf0 ? array(1, next) : 1 + below(2));
    }
    row(0x70, number());
}

static void mix(const void *bytes, size_t n) {
    for (const uint8_t *b = bytes; n > 0; n--) hash = (hash ^ *b++) * 1099511628211u;
}

static uint64_t told(uint64_t code, const uint64_t numbers[4]) {
    answers[code & 15] += 1;
    mix(&code, sizeof code);
    mix(numbers, 4 * sizeof *numbers);
    return code;
}

int main(int argc, char **argv) {
    uint64_t count = argc == 2 ? strtoull(argv[1], NULL, 10) : 0, written = 0, read = 0;
    for (uint64_t i = 0; i < count; i++) {
        uint64_t n[4] = {0}, at = 0;
        word_count = text_length = 0;
        if (below(20)) value(kinds[below(below(30) ? KINDS : KINDS + 1)], 1);
        else chain();
        if (!below(40)) word_count -= 1;
        choose_limit();

        size_t room = below(10) ? BYTES : below(64);
        memset(out, 0xee, 64);
        written += !CALL(afsungar_write, words, word_count, text, text_length, out, room, &n[0], &n[1]);
        mix(out, n[1] > 64 ? n[1] : 64);
        CALL(afsungar_size, words, word_count, text, text_length, &n[0], &n[1]);

        size_t length = n[1] && n[1] < BYTES ? n[1] : below(40);
        memcpy(damaged, out, length);
        for (uint64_t hits = length ? below(4) : 0; hits > 0; hits--) {
            size_t place = below(length);
            damaged[place] = (uint8_t)any();
        }
        if (!below(3)) length = below(length + 1);
        choose_limit();
        CALL(afsungar_measure, damaged, length, &n[0], &n[1], &n[2], &n[3]);
        size_t row_room = below(8) ? ROWS : below(40), text_room = below(8) ? 2 * ROWS : below(40);
        memset(rows, 0xee, 64);
        memset(letters, 0xee, 64);
        read += !CALL(afsungar_read, damaged, length, rows, row_room, letters, text_room, &n[0], &n[1], &n[2], &n[3]);
        mix(rows, n[2] > 4 ? 16 * n[2] : 64);
        mix(letters, n[3] > 64 ? n[3] : 64);
        for (int steps = 0; steps < 3; steps++) {
            CALL(afsungar_step, damaged, length, &at, &n[0], &n[1]);
            mix(&at, sizeof at);
        }
    }
    printf("%" PRIu64 " tables, %" PRIu64 " written, %" PRIu64 " read; calls refused: %" PRIu64 " with 3, %" PRIu64 " with 6, %" PRIu64 " with 11, %" PRIu64 " with 15; hash %016" PRIx64 "\n",
           count, written, read, answers[3], answers[6], answers[11], answers[15], hash);
    return 0;
}
