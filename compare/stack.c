/* stack: how many bytes of stack each function takes at the most, with no limit named, within 16 levels and within 32, over values that are nested as deep as the limit allows, and over the
 * same in a list, which are refused. Each call runs on memory of its own that is filled with a pattern, twice with two patterns; what is changed in it was used. Prints a
 * line a function (compare/stack). */
#include <stdio.h>
#include <stdlib.h>
#include <string.h>
#include <ucontext.h>

#include "afsungar.h"

enum { STACK = 1 << 16, WORDS = 256, BYTES = 1 << 12 };

/* What stands at each level: one of these all the way down, or lists and arrays in turn. */
static const char *const shapes[] = {"lists", "maps", "described values", "arrays", "lists and arrays in turn", "arrays and lists in turn"};

static uint64_t words[WORDS], rows[WORDS], place, length, count, used, at;
static uint8_t text[64], letters[64], bytes[BYTES], out[BYTES];
static size_t word_count;
static uint64_t limit, byte_count;

static void row(uint64_t kind, uint64_t number) {
    words[word_count++] = kind;
    words[word_count++] = number;
}

static uint64_t kind_at(size_t shape, uint64_t level) {
    static const uint64_t kinds[] = {AFSUNGAR_LIST, AFSUNGAR_MAP, AFSUNGAR_DESCRIBED, AFSUNGAR_ARRAY};
    if (shape < 4) return kinds[shape];
    return (level + shape) % 2 ? AFSUNGAR_LIST : AFSUNGAR_ARRAY;
}

/* A value of that shape that has so many levels. */
static void nest(size_t shape, uint64_t levels) {
    word_count = 0;
    for (uint64_t level = 1; level < levels; level++) {
        uint64_t kind = kind_at(shape, level), below = level + 1 < levels ? kind_at(shape, level + 1) : AFSUNGAR_STRING;
        if (kind == AFSUNGAR_MAP || kind == AFSUNGAR_DESCRIBED) {
            row(kind, 2);
            row(AFSUNGAR_SYMBOL, 1);
        } else {
            row(kind, kind == AFSUNGAR_ARRAY ? AFSUNGAR_ELEMENTS(below, 1) : 1);
        }
    }
    row(AFSUNGAR_STRING, 1);
}

static size_t letters_in(void) {
    size_t n = 0;
    for (size_t i = 0; i < word_count; i += 2) n += words[i] == AFSUNGAR_SYMBOL || words[i] == AFSUNGAR_STRING;
    return n;
}

/* The same value in a list: one level more. */
static void enclose(void) {
    memmove(words + 2, words, word_count * sizeof *words);
    words[0] = AFSUNGAR_LIST;
    words[1] = 1;
    word_count += 2;
    memmove(bytes + 9, bytes, byte_count);
    const uint8_t head[] = {0xd0, 0, 0, (uint8_t)((byte_count + 4) >> 8), (uint8_t)(byte_count + 4), 0, 0, 0, 1};
    memcpy(bytes, head, sizeof head);
    byte_count += sizeof head;
}

/* The functions. */

static int is_plain; /* the form that names no limit */
#define CALL(function, ...) (is_plain ? function(__VA_ARGS__) : function##_within(limit, __VA_ARGS__))

static uint64_t size(void) { return CALL(afsungar_size, words, word_count, text, letters_in(), &place, &length); }
static uint64_t write(void) { return CALL(afsungar_write, words, word_count, text, letters_in(), out, BYTES, &place, &length); }
static uint64_t measure(void) { return CALL(afsungar_measure, bytes, byte_count, &place, &length, &count, &used); }
static uint64_t read(void) { return CALL(afsungar_read, bytes, byte_count, rows, WORDS, letters, sizeof letters, &place, &length, &count, &used); }
static uint64_t step(void) {
    at = 0;
    return CALL(afsungar_step, bytes, byte_count, &at, &place, &length);
}

static const struct {
    const char *name;
    uint64_t (*call)(void);
} functions[] = {{"afsungar_size", size}, {"afsungar_write", write}, {"afsungar_measure", measure}, {"afsungar_read", read}, {"afsungar_step", step}};

static ucontext_t here, there;
static _Alignas(64) unsigned char stack[STACK];
static uint64_t (*called)(void);
static uint64_t answer, due;
static unsigned char *top;

static void run(void) {
    top = __builtin_frame_address(0);
    answer = called();
}

/* The bytes below the frame of `run` that a call changes. */
static size_t taken_over(unsigned char pattern, uint64_t (*call)(void)) {
    memset(stack, pattern, STACK);
    getcontext(&there);
    there.uc_stack.ss_sp = stack;
    there.uc_stack.ss_size = STACK;
    there.uc_link = &here;
    makecontext(&there, run, 0);
    called = call;
    swapcontext(&here, &there);
    if (answer != due) {
        fprintf(stderr, "%u in place of %u\n", (unsigned)answer, (unsigned)due);
        exit(1);
    }
    size_t low = 0;
    while (stack[low] == pattern) low++;
    return (size_t)(top - (stack + low));
}

static size_t taken(uint64_t (*call)(void)) {
    size_t one = taken_over(0xa5, call), other = taken_over(0x5a, call);
    return one < other ? other : one;
}

/* The most over all shapes, and with which. */
static size_t most(uint64_t (*call)(void), const char **shape) {
    size_t most = 0;
    for (size_t i = 0; i < sizeof shapes / sizeof *shapes; i++) {
        nest(i, limit);
        if (write()) exit(1);
        memcpy(bytes, out, BYTES);
        byte_count = length;
        for (due = 0; due <= AFSUNGAR_TOO_DEEP; due += AFSUNGAR_TOO_DEEP) {
            size_t n = taken(call);
            if (most < n) most = n, *shape = shapes[i];
            enclose();
        }
    }
    return most;
}

int main(void) {
    memset(text, 'a', sizeof text);
    for (size_t i = 0; i < sizeof functions / sizeof *functions; i++) {
        const char *shape = shapes[0];
        printf("| %s ", functions[i].name);
        for (int form = 0; form < 3; form++) {
            is_plain = form == 0;
            limit = form == 2 ? AFSUNGAR_LEVELS_MOST : AFSUNGAR_LEVELS_DEFAULT;
            size_t n = most(functions[i].call, &shape);
            printf("| %zu (%s) ", n, shape);
        }
        puts("|");
    }
    return 0;
}
