/* Writes an order to standard output; or lists the rows of the first value of a file, within its first 4,096 bytes, as the listing
 * does (docs/FORMAT.md, 8), with --texts each string and symbol behind its row.
 *
 *     make -C bindings/c install                # see bindings/c/Makefile for where
 *     cc bindings/c/order.c $(pkg-config --cflags --libs afsungar) -o order
 *     ./order >order.amqp                       # the same bytes as examples/order.amqp
 *     ./order --texts examples/order.amqp */
#include <inttypes.h>
#include <stdio.h>
#include <string.h>

#include "afsungar.h"

enum { MOST = 4096 };

/* An order: which one and when, what, its size, the sizes at hand, how many for each ear, and each ear's vents. These are an array
 * of lists; a vent is its size, and how far across and up it is, in tenths of a millimetre. Arrays tell the kind of their elements,
 * even if there are none: an ear without vents has AFSUNGAR_ELEMENTS(AFSUNGAR_LIST, 0). */
static const uint64_t order[] = {
    AFSUNGAR_DESCRIBED, 2, AFSUNGAR_SYMBOL, 19, AFSUNGAR_LIST, 7,
    AFSUNGAR_ULONG, 4711, AFSUNGAR_TIMESTAMP, 1763164800000,
    AFSUNGAR_SYMBOL, 9, AFSUNGAR_STRING, 5,
    AFSUNGAR_ARRAY, AFSUNGAR_ELEMENTS(AFSUNGAR_STRING, 3), AFSUNGAR_STRING, 5, AFSUNGAR_STRING, 5, AFSUNGAR_STRING, 2,
    AFSUNGAR_MAP, 4, AFSUNGAR_SYMBOL, 4, AFSUNGAR_UINT, 2, AFSUNGAR_SYMBOL, 5, AFSUNGAR_UINT, 1,
    AFSUNGAR_MAP, 4,
    AFSUNGAR_SYMBOL, 4, AFSUNGAR_ARRAY, AFSUNGAR_ELEMENTS(AFSUNGAR_LIST, 2),
    AFSUNGAR_LIST, 3, AFSUNGAR_STRING, 5, AFSUNGAR_INT, 35, AFSUNGAR_INT, (uint32_t)-12,
    AFSUNGAR_LIST, 3, AFSUNGAR_STRING, 5, AFSUNGAR_INT, 48, AFSUNGAR_INT, 7,
    AFSUNGAR_SYMBOL, 5, AFSUNGAR_ARRAY, AFSUNGAR_ELEMENTS(AFSUNGAR_LIST, 1),
    AFSUNGAR_LIST, 3, AFSUNGAR_STRING, 5, AFSUNGAR_INT, (uint32_t)-35, AFSUNGAR_INT, (uint32_t)-12,
};

/* Its text. \303\230 is the letter in front of a diameter, in UTF-8: two bytes, so these strings have five. */
static const uint8_t letters[] = "afsungar:order:list" "ear-shell" "\303\2301.2" "\303\2301.2" "\303\2301.3" "M4"
    "left" "right" "left" "\303\2301.2" "\303\2301.3" "right" "\303\2301.2";

enum { WORDS = sizeof order / sizeof *order, LETTERS = sizeof letters - 1 }; /* without the 0 that C puts behind the text */

static uint8_t bytes[MOST], text[MOST];
static uint64_t table[2 * MOST];

static int refused(uint64_t refusal, uint64_t place) {
    fprintf(stderr, "%s\n", afsungar_refusal_text(refusal));
    printf("refused %" PRIu64 " %" PRIu64 "\n", refusal, place);
    return 1;
}

static int write_order(void) {
    uint64_t place, length;
    uint64_t refusal = afsungar_write(order, WORDS, letters, LETTERS, bytes, MOST, &place, &length);
    if (refusal == AFSUNGAR_TEXT_AMISS && afsungar_is_bad_text(order, WORDS, letters, LETTERS, place)) {
        /* place is a byte of all the text: which row has it, and where in that row's text it is */
        uint64_t start, row = afsungar_row_of_byte(order, WORDS, place, &start);
        fprintf(stderr, "bad text in row %" PRIu64 ", at its byte %" PRIu64 "\n", row, place - start);
    }
    if (refusal) return refused(refusal, place);
    return fwrite(bytes, 1, length, stdout) != length;
}

/* A text in quotes. Control characters, quotes and backslashes stand in hex. */
static void show(const uint8_t *letter, uint64_t length) {
    printf(" \"");
    for (const uint8_t *end = letter + length; letter < end; letter++)
        if (*letter < ' ' || *letter == 0x7f || *letter == '"' || *letter == '\\')
            printf("\\x%02x", *letter);
        else
            putchar(*letter);
    printf("\"");
}

static int list(FILE *file, int texts) {
    uint64_t place, length, rows, used, at = 0;
    size_t read = fread(bytes, 1, MOST, file);
    fclose(file);
    /* the listing names the highest level limit; afsungar_read would refuse a file of more than 16 levels */
    uint64_t refusal =
        afsungar_read_within(AFSUNGAR_LEVELS_MOST, bytes, read, table, 2 * MOST, text, MOST, &place, &length, &rows, &used);
    if (refusal) return refused(refusal, place);
    for (uint64_t row = 0; row < rows; row++) {
        uint64_t kind = table[2 * row], number = table[2 * row + 1];
        printf("%" PRIu64 " %02" PRIx64 " %" PRIu64, row, kind, number);
        if (texts && (kind == AFSUNGAR_STRING || kind == AFSUNGAR_SYMBOL)) show(text + at, number);
        printf("\n");
        at = afsungar_text_after(table, 2 * MOST, row, at);
    }
    printf("end %" PRIu64 "\n", length);
    return 0;
}

int main(int count, char **words) {
    if (count == 1) return write_order();
    int texts = count == 3 && !strcmp(words[1], "--texts");
    FILE *file = count == 2 + texts ? fopen(words[1 + texts], "rb") : NULL;
    if (!file) return fprintf(stderr, "usage: order [[--texts] FILE], of a file that can be read\n"), 2;
    return list(file, texts);
}
