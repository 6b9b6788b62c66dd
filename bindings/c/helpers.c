/* Tries what afsungar.h has beside the ten functions: the way through a table, the words of the refusals, the version; and lends the
 * functions null pointers with the length 0. It says each line that is not as it is due, and ends with 1.
 *
 *     make -C bindings/c check */
#include <stdio.h>
#include <string.h>

#include "afsungar.h"

static int status;
static uint64_t n[4]; /* answers */

static void due(int line, int good) {
    if (good) return;
    printf("helpers.c: line %d\n", line);
    status = 1;
}

/* Whether a function returned that number, and answered place and length, rows and text so. */
static int is(uint64_t number, uint64_t refusal, uint64_t place, uint64_t length, uint64_t rows, uint64_t text) {
    int good = number == refusal && n[0] == place && n[1] == length && n[2] == rows && n[3] == text;
    n[0] = n[1] = n[2] = n[3] = 0;
    return good;
}

#define DUE(good) due(__LINE__, good)
#define COUNT(words) (sizeof(words) / sizeof *(words))
#define LEVELS AFSUNGAR_LEVELS_DEFAULT

static void way(void) {
    /* a described list of a string, an array of two lists, a map and a UUID */
    static const uint64_t t[] = {
        AFSUNGAR_DESCRIBED, 2, AFSUNGAR_SYMBOL, 3, AFSUNGAR_LIST, 4, AFSUNGAR_STRING, 5,
        AFSUNGAR_ARRAY, AFSUNGAR_ELEMENTS(AFSUNGAR_LIST, 2), AFSUNGAR_LIST, 1, AFSUNGAR_UINT, 9, AFSUNGAR_LIST, 0,
        AFSUNGAR_MAP, 2, AFSUNGAR_SYMBOL, 1, AFSUNGAR_NULL, 0, AFSUNGAR_UUID, 0,
    };
    static const uint64_t counts[] = {2, 0, 4, 0, 2, 1, 0, 0, 2, 0, 0, 0};
    static const uint64_t behind[] = {12, 2, 12, 4, 8, 7, 7, 8, 11, 10, 11, 12};
    static const uint64_t texts[] = {0, 3, 3, 8, 8, 8, 8, 8, 8, 9, 9, 25};
    uint64_t row, at = 0;
    for (row = 0; row < COUNT(t) / 2; row++) {
        DUE(afsungar_child_count(t[2 * row], t[2 * row + 1]) == counts[row]);
        DUE(afsungar_row_after(t, COUNT(t), row) == behind[row]);
        DUE(afsungar_child(t, COUNT(t), row, counts[row]) == 12);
        at = afsungar_text_after(t, COUNT(t), row, at);
        DUE(at == texts[row]);
    }
    DUE(afsungar_child(t, COUNT(t), 0, 0) == 1 && afsungar_child(t, COUNT(t), 0, 1) == 2);
    DUE(afsungar_child(t, COUNT(t), 2, 0) == 3 && afsungar_child(t, COUNT(t), 2, 1) == 4);
    DUE(afsungar_child(t, COUNT(t), 2, 2) == 8 && afsungar_child(t, COUNT(t), 2, 3) == 11);
    DUE(afsungar_child(t, COUNT(t), 4, 1) == 7 && afsungar_child(t, COUNT(t), 8, 1) == 10);
    DUE(afsungar_child(t, COUNT(t), 2, UINT64_MAX) == 12 && afsungar_child(t, COUNT(t), UINT64_MAX, 0) == 12);
    DUE(afsungar_row_after(t, COUNT(t), 12) == 12 && afsungar_row_after(t, COUNT(t), UINT64_MAX) == 12);
    DUE(afsungar_text_after(t, COUNT(t), 12, 25) == 25 && afsungar_text_after(t, COUNT(t), UINT64_MAX, 7) == 7);
    /* cut off: what is not all there ends at the last row */
    DUE(afsungar_row_after(t, 22, 0) == 11 && afsungar_row_after(t, 22, 8) == 11 && afsungar_child(t, 22, 2, 3) == 11);
    DUE(afsungar_row_after(t, 2, 0) == 1 && afsungar_child(t, 2, 0, 0) == 1 && afsungar_row_after(t, 9, 2) == 4);
}

/* Words that are no table, the last of them a lone one. */
static void wild(void) {
    static const uint64_t w[] = {
        AFSUNGAR_LIST, UINT64_MAX, AFSUNGAR_MAP, 3, AFSUNGAR_LIST, UINT64_MAX - 1, AFSUNGAR_BINARY, UINT64_MAX,
        0xff, 7, AFSUNGAR_ARRAY, UINT64_MAX, AFSUNGAR_LIST,
    };
    static const uint64_t behind[] = {6, 6, 6, 4, 5, 6};
    uint64_t row;
    for (row = 0; row < 6; row++) DUE(afsungar_row_after(w, COUNT(w), row) == behind[row]);
    DUE(afsungar_child(w, COUNT(w), 0, 0) == 1 && afsungar_child(w, COUNT(w), 0, UINT64_MAX - 1) == 6);
    DUE(afsungar_child(w, COUNT(w), 5, 0) == 6 && afsungar_child_count(w[10], w[11]) == UINT32_MAX);
    DUE(afsungar_text_after(w, COUNT(w), 3, 0) == UINT64_MAX && afsungar_text_after(w, COUNT(w), 3, 1) == UINT64_MAX);
    DUE(afsungar_row_after(w, 1, 0) == 0 && afsungar_child(w, 1, 0, 0) == 0 && afsungar_text_after(w, 1, 0, 4) == 4);
}

static void words(void) {
    uint64_t number, other;
    char version[32];
    for (number = 0; number <= 16; number++)
        for (other = 0; other < number; other++) DUE(strcmp(afsungar_refusal_text(number), afsungar_refusal_text(other)) != 0);
    DUE(!strcmp(afsungar_refusal_text(16), afsungar_refusal_text(UINT64_MAX)));
    DUE(!strcmp(afsungar_refusal_text(AFSUNGAR_OUTPUT_SHORT), "the output is too short"));
    snprintf(version, sizeof version, "%d.%d.%d", AFSUNGAR_VERSION_MAJOR, AFSUNGAR_VERSION_MINOR, AFSUNGAR_VERSION_PATCH);
    DUE(!strcmp(version, AFSUNGAR_VERSION));
}

/* Every pointer that goes with a length is null in some call, in both forms of each function. */
static void null(void) {
    static const uint64_t row[] = {AFSUNGAR_NULL, 0};
    static const uint8_t byte[] = {0x40}, letters[] = {'x'};
    uint64_t at = 0, filled[2] = {7, 7};
    uint8_t out[1] = {7};
    DUE(is(afsungar_size(NULL, 0, NULL, 0, n, n + 1), AFSUNGAR_ROWS_AMISS, 0, 0, 0, 0));
    DUE(is(afsungar_size_within(LEVELS, NULL, 0, NULL, 0, n, n + 1), AFSUNGAR_ROWS_AMISS, 0, 0, 0, 0));
    DUE(is(afsungar_size(NULL, 0, letters, 1, n, n + 1), AFSUNGAR_ROWS_AMISS, 0, 0, 0, 0));
    DUE(is(afsungar_size(row, 2, NULL, 0, n, n + 1), 0, 0, 1, 0, 0));
    DUE(is(afsungar_size_within(LEVELS, row, 2, NULL, 0, n, n + 1), 0, 0, 1, 0, 0));
    DUE(is(afsungar_write(NULL, 0, NULL, 0, NULL, 0, n, n + 1), AFSUNGAR_ROWS_AMISS, 0, 0, 0, 0));
    DUE(is(afsungar_write_within(LEVELS, NULL, 0, NULL, 0, NULL, 0, n, n + 1), AFSUNGAR_ROWS_AMISS, 0, 0, 0, 0));
    DUE(is(afsungar_write(row, 2, NULL, 0, NULL, 0, n, n + 1), AFSUNGAR_OUTPUT_SHORT, 0, 0, 0, 0));
    DUE(is(afsungar_write_within(LEVELS, row, 2, NULL, 0, NULL, 0, n, n + 1), AFSUNGAR_OUTPUT_SHORT, 0, 0, 0, 0));
    DUE(is(afsungar_write(row, 2, NULL, 0, out, 1, n, n + 1), 0, 0, 1, 0, 0) && out[0] == 0x40);
    DUE(is(afsungar_write_within(LEVELS, row, 2, NULL, 0, out, 1, n, n + 1), 0, 0, 1, 0, 0) && out[0] == 0x40);
    DUE(is(afsungar_measure(NULL, 0, n, n + 1, n + 2, n + 3), AFSUNGAR_INPUT_SHORT, 0, 0, 0, 0));
    DUE(is(afsungar_measure_within(LEVELS, NULL, 0, n, n + 1, n + 2, n + 3), AFSUNGAR_INPUT_SHORT, 0, 0, 0, 0));
    DUE(is(afsungar_read(NULL, 0, NULL, 0, NULL, 0, n, n + 1, n + 2, n + 3), AFSUNGAR_INPUT_SHORT, 0, 0, 0, 0));
    DUE(is(afsungar_read_within(LEVELS, NULL, 0, NULL, 0, NULL, 0, n, n + 1, n + 2, n + 3), AFSUNGAR_INPUT_SHORT, 0, 0, 0, 0));
    DUE(is(afsungar_read(byte, 1, NULL, 0, NULL, 0, n, n + 1, n + 2, n + 3), AFSUNGAR_ROWS_SHORT, 0, 0, 0, 0));
    DUE(is(afsungar_read_within(LEVELS, byte, 1, NULL, 0, NULL, 0, n, n + 1, n + 2, n + 3), AFSUNGAR_ROWS_SHORT, 0, 0, 0, 0));
    DUE(is(afsungar_read(byte, 1, filled, 2, NULL, 0, n, n + 1, n + 2, n + 3), 0, 0, 1, 1, 0) && filled[0] == AFSUNGAR_NULL);
    DUE(is(afsungar_read_within(LEVELS, byte, 1, filled, 2, NULL, 0, n, n + 1, n + 2, n + 3), 0, 0, 1, 1, 0) && !filled[1]);
    DUE(is(afsungar_step(NULL, 0, &at, n, n + 1), 0, 0, 0, 0, 0) && at == 0);
    DUE(is(afsungar_step_within(LEVELS, NULL, 0, &at, n, n + 1), 0, 0, 0, 0, 0) && at == 0);
    DUE(is(afsungar_step_within(0, NULL, 0, &at, n, n + 1), AFSUNGAR_LIMIT_OUTSIDE, 0, 0, 0, 0) && at == 0);
    DUE(afsungar_row_of_byte(NULL, 0, 0, &at) == 0 && !afsungar_is_bad_text(NULL, 0, NULL, 0, 0));
    DUE(!afsungar_is_bad_text(row, 2, NULL, 0, 0) && !afsungar_child(NULL, 0, 0, 0) && !afsungar_row_after(NULL, 0, 0));
}

int main(void) {
    way();
    wild();
    words();
    null();
    return status;
}
