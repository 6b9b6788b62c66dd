/* Tries what afsungar.h has for the place of a 6, over the library. It says each line that is not as it is due, and ends with 1.
 *
 *     make -C bindings/c check */
#include <stdio.h>
#include <string.h>

#include "afsungar.h"

enum { LONG = 1048576 };
static uint8_t text[LONG + 2];
static int status;

static void due(int line, int good) {
    if (good) return;
    printf("places.c: line %d\n", line);
    status = 1;
}

/* Whether these words and the start of text are refused with a 6 at this place, which is a byte (1) or a row (0). */
static int refused(const uint64_t *words, size_t words_len, size_t text_len, uint64_t place, int is_byte) {
    uint64_t at, size;
    return afsungar_size(words, words_len, text, text_len, &at, &size) == AFSUNGAR_TEXT_AMISS && at == place &&
           afsungar_is_bad_text(words, words_len, text, text_len, place) == is_byte;
}

static int row_is(const uint64_t *words, size_t words_len, uint64_t byte, uint64_t row, uint64_t start) {
    uint64_t begins;
    return afsungar_row_of_byte(words, words_len, byte, &begins) == row && begins == start;
}

#define COUNT(words) (sizeof(words) / sizeof *(words))
#define TEXT(letters) memcpy(text, letters, sizeof(letters) - 1)
#define BYTE(words, text_len, place) due(__LINE__, refused(words, COUNT(words), text_len, place, 1))
#define ROW(words, text_len, place) due(__LINE__, refused(words, COUNT(words), text_len, place, 0))
#define ROW_OF(words, byte, row, start) due(__LINE__, row_is(words, COUNT(words), byte, row, start))

int main(void) {
    const uint64_t string[] = {AFSUNGAR_STRING, 2}, symbol[] = {AFSUNGAR_SYMBOL, 2};
    const uint64_t list[] = {AFSUNGAR_LIST,   4, AFSUNGAR_UUID,   0, AFSUNGAR_BINARY, 1,
                             AFSUNGAR_STRING, 0, AFSUNGAR_STRING, 2};
    const uint64_t two[] = {AFSUNGAR_LIST, 2, AFSUNGAR_STRING, 1, AFSUNGAR_STRING, 3};
    const uint64_t lengthy[] = {AFSUNGAR_LIST, 2, AFSUNGAR_STRING, LONG, AFSUNGAR_SYMBOL, 1};
    const uint64_t wild[] = {AFSUNGAR_STRING, 1, 0xff, 9, AFSUNGAR_BINARY, UINT64_MAX, AFSUNGAR_SYMBOL, UINT64_MAX, AFSUNGAR_UUID};

    TEXT("x\303\230\377");
    BYTE(string, 2, 1); /* cut off */
    BYTE(symbol, 2, 1);
    ROW(string, 1, 0); /* too short */
    TEXT("\303\230\377");
    ROW(string, 3, 1); /* left, and the byte of that number is within a sequence */
    BYTE(symbol, 3, 0);

    memset(text, 0xff, 17); /* a UUID and a binary may hold anything */
    memcpy(text + 17, "x\200", 2);
    BYTE(list, 19, 18);
    ROW(list, 18, 4);
    memcpy(text + 17, "\303\230", 2);
    ROW(list, 20, 5);
    ROW_OF(list, 0, 1, 0);
    ROW_OF(list, 15, 1, 0);
    ROW_OF(list, 16, 2, 16);
    ROW_OF(list, 17, 4, 17); /* the empty string before it has no byte */
    ROW_OF(list, 18, 4, 17);
    ROW_OF(list, 19, 5, 19);
    ROW_OF(list, UINT64_MAX, 5, 19);

    TEXT("x\377x\377");
    ROW(two, 2, 2); /* too short comes before bad */
    BYTE(two, 4, 1);
    TEXT("\303\230xx");
    BYTE(two, 4, 0); /* a sequence over two rows is a fault of the first */

    memset(text, 'x', LONG); /* by itself good, and too long to be written */
    text[LONG] = 0x80;
    BYTE(lengthy, LONG + 1, LONG);
    ROW(lengthy, LONG, 2);

    /* words that are no table, the last of them a lone one */
    ROW_OF(wild, 0, 0, 0);
    ROW_OF(wild, 1, 2, 1);
    ROW_OF(wild, UINT64_MAX, 2, 1);
    due(__LINE__, !afsungar_is_bad_text(wild, COUNT(wild), text, 4, 3));
    due(__LINE__, !afsungar_is_bad_text(wild, COUNT(wild), text, 4, UINT64_MAX));
    due(__LINE__, !afsungar_is_bad_text(wild, 1, text, 4, 0) && !afsungar_is_bad_text(wild, 0, text, 0, 0));
    due(__LINE__, row_is(wild, 1, 0, 0, 0));
    return status;
}
