/* Afsungar: AMQP 1.0 values to bytes and back. docs/FORMAT.md says what a table is, which bytes it has and what is refused.
 *
 * `make -C bindings/c install` makes the library, on x86-64 and on Arm. Then:   cc program.c $(pkg-config --cflags --libs afsungar)
 *
 * A table is words, two to a row (kind, number), the parent first, and beside them the text: the bytes of all rows that have
 * some, in the order of the rows. Each child stands with all that is below it before the next, in lists, maps and arrays alike.
 *
 * Arrays
 *   The number of an array's row tells the kind of its elements and how many they are: AFSUNGAR_ELEMENTS(kind, count). The kind is
 *   told also where there are none. An array of two lists, of uint 1 and of uint 2 and 3, and an empty array of strings are
 *     {AFSUNGAR_ARRAY, AFSUNGAR_ELEMENTS(AFSUNGAR_LIST, 2),
 *      AFSUNGAR_LIST, 1, AFSUNGAR_UINT, 1, AFSUNGAR_LIST, 2, AFSUNGAR_UINT, 2, AFSUNGAR_UINT, 3}
 *     {AFSUNGAR_ARRAY, AFSUNGAR_ELEMENTS(AFSUNGAR_STRING, 0)}
 *   - In writing an array's row is refused with 4 where the kind is null, which arrays cannot hold; with 5 where it is none of the
 *     25, or 0, or where the count is above 1,048,576. (Arrays cannot hold described values either, and their kind is 0.) An
 *     element's row is refused with 4 where its kind is not the one that is told.
 *   - In reading the kind is that of the element code, in whichever form it came. An empty array may come without a code: its row
 *     has the number 0, and the kind 0, AFSUNGAR_NOT_TOLD.
 *   - So what was read is not always written again. Some senders write every empty array without a code, and the row that is read
 *     from it is refused (5) until a kind is put in.
 *
 * The level limit
 *   The root of a value is at level 1, and each child is one level below its parent. Each function has two forms: NAME_within takes
 *   the level limit as its first argument, and NAME is the same at 16.
 *   - A limit has to be from 1 to 32. Any other is refused with 15, before every other check: before odd words, and in each step
 *     of the walker, even where it is done.
 *   - A value of more levels than the limit is refused with 3.
 *   - The limit belongs to the call: nothing of it is in the bytes, and a higher one changes neither the bytes nor the table of a
 *     value that a lower one takes. So a desk that reads with 16 refuses (3) what a station wrote with 32, if it has more than 16
 *     levels: whoever sends these has to know that all who read name as many.
 *
 * What is answered
 *   Each function returns the number of the refusal, 1 to 15, or 0 for success. All else that it answers is stored behind the
 *   last pointers, and each of them is always stored. On success *place is 0, and nothing is touched behind what is filled. On a
 *   refusal *place says where: the table of the refusals, below, has what it is with each number. Every length and count is then
 *   0, and all lent memory is as it was.
 *
 * What is lent
 *   - A length counts what is lent: words_len counts words, so rows times 2; all other lengths count bytes.
 *   - A pointer that goes with a length may be null, or point anywhere, where the length is 0: nothing is then read or written
 *     there. No other pointer may be null: every answer is stored.
 *   - Words and answers are uint64_t, aligned as such.
 *   - Memory that is filled (out, words and text in reading, and every answer) must not overlap other memory that is lent to
 *     the same call.
 *   - An odd number of words breaks nothing: sizing and writing refuse it (1), and in reading the lone last word is room for no
 *     row and stays as it is.
 *
 * Nothing is allocated, nothing is kept between calls and no pointer is held, so calls from any number of threads are
 * independent of each other, as long as none fills memory that another uses. The need of stack is bounded, because the nesting of
 * values ends at the level limit: on x86-64 and on Arm it was measured as less than 6 KiB at 16 and less than 12 KiB at 32. */
#ifndef AFSUNGAR_H
#define AFSUNGAR_H

#include <stddef.h>
#include <stdint.h>

#ifdef __cplusplus
extern "C" {
#endif

/* The version of this header and its library. */
#define AFSUNGAR_VERSION_MAJOR 0
#define AFSUNGAR_VERSION_MINOR 1
#define AFSUNGAR_VERSION_PATCH 0
#define AFSUNGAR_VERSION "0.1.0"

/* In front of each function that may refuse: a call whose result is not used is warned about. */
#if defined(__cplusplus) && __cplusplus >= 201703L
#define AFSUNGAR_NODISCARD [[nodiscard]]
#elif defined(__STDC_VERSION__) && __STDC_VERSION__ >= 202311L
#define AFSUNGAR_NODISCARD [[nodiscard]]
#elif defined(__GNUC__)
#define AFSUNGAR_NODISCARD __attribute__((warn_unused_result))
#else
#define AFSUNGAR_NODISCARD
#endif

/* The refusals (docs/FORMAT.md, 5), W in sizing and writing, R in measuring, reading and steps. All places are counted from 0.
 *
 *     | AFSUNGAR_      |     | given when                                                                  | place
 *   1 | ROWS_AMISS     | W   | the words are odd in number                                                 | 0
 *     |                |     | a row is needed and none is left                                            | the number of rows
 *     |                |     | rows are left at the end                                                    | the first of them
 *   2 | KIND_UNKNOWN   | W   | the kind is not one of the 25                                               | the row
 *   3 | TOO_DEEP       | W   | a value would be one level beyond the limit                                 | the row
 *     |                |   R | the same                                                                    | the code
 *   4 | ELEMENT_UNFIT  | W   | an array tells a kind that it cannot hold, or an element has another        | the row
 *     |                |   R | an array's element code is not allowed                                      | the code
 *   5 | NUMBER_OUTSIDE | W   | the number is not one that its kind allows (for an array's, see above)      | the row
 *   6 | TEXT_AMISS     | W   | the text left is too short for the row; this comes before bad text          | the row
 *     |                |     | bad text: a string is not UTF-8, or a symbol not ASCII                      | the byte of the text
 *     |                |     | text is left at the end                                                     | the number of rows
 *   7 | TOO_LONG       | W   | more than 1,048,576 bytes would be written                                  | 0
 *   8 | OUTPUT_SHORT   | W   | the output is shorter than the size                                         | 0
 *   9 | INPUT_SHORT    |   R | a byte is needed beyond the input, or beyond the body that holds the value  | the code
 *  10 | CODE_UNKNOWN   |   R | the format code is not one of the 40                                        | the code
 *  11 | PAYLOAD_BAD    |   R | a boolean or a char is bad                                                  | the code
 *     |                |     | bad text: a string is not UTF-8, or a symbol not ASCII                      | the byte of the input
 *  12 | SIZE_AMISS     |   R | a size is below its count field; bytes left in a body; a map's count is odd | the code
 *  13 | ROWS_SHORT     |   R | the lent words are too few for the rows                                     | 0
 *  14 | TEXT_SHORT     |   R | the lent text is too short                                                  | 0
 *  15 | LIMIT_OUTSIDE  | W R | the level limit is 0 or above 32                                            | 0
 *
 *   the code               the offset of the value's format code, or of where that would be, in the input. For all that stands in
 *                          an array, at any depth, it is that of the array, and of arrays in arrays that of the outermost.
 *   the byte of the text   the offset of the faulty byte in the whole text that is lent: the bytes of all rows before it count.
 *   the byte of the input  the offset of the faulty byte in the input, in arrays too, at every depth.
 *
 *   The faulty byte of a string is the first at which, after correct sequences from its start, none begins: of a sequence that is
 *   broken or cut off, its first byte. That of a symbol is its first byte of 0x80 or more. A step counts offsets from *at.
 *   The place of a 6 is a row or a byte: afsungar_is_bad_text tells which, and afsungar_row_of_byte tells the row of a byte. */
enum afsungar_refusal {
    AFSUNGAR_ROWS_AMISS = 1,
    AFSUNGAR_KIND_UNKNOWN = 2,
    AFSUNGAR_TOO_DEEP = 3,
    AFSUNGAR_ELEMENT_UNFIT = 4,
    AFSUNGAR_NUMBER_OUTSIDE = 5,
    AFSUNGAR_TEXT_AMISS = 6,
    AFSUNGAR_TOO_LONG = 7,
    AFSUNGAR_OUTPUT_SHORT = 8,
    AFSUNGAR_INPUT_SHORT = 9,
    AFSUNGAR_CODE_UNKNOWN = 10,
    AFSUNGAR_PAYLOAD_BAD = 11,
    AFSUNGAR_SIZE_AMISS = 12,
    AFSUNGAR_ROWS_SHORT = 13,
    AFSUNGAR_TEXT_SHORT = 14,
    AFSUNGAR_LIMIT_OUTSIDE = 15
};

/* What a refusal says, in a phrase; where it is, the table above says. */
static inline const char *afsungar_refusal_text(uint64_t number) {
    switch (number) {
    case 0: return "no refusal";
    case AFSUNGAR_ROWS_AMISS: return "a row is missing or left over";
    case AFSUNGAR_KIND_UNKNOWN: return "the kind is not one of the 25";
    case AFSUNGAR_TOO_DEEP: return "a value stands deeper than the level limit of the call";
    case AFSUNGAR_ELEMENT_UNFIT: return "an array's element code is not allowed, or an array tells a kind that it cannot hold, or an element has another one";
    case AFSUNGAR_NUMBER_OUTSIDE: return "the number is not one that the row's kind allows";
    case AFSUNGAR_TEXT_AMISS: return "text is missing or left over, or a string is not UTF-8 or a symbol not ASCII";
    case AFSUNGAR_TOO_LONG: return "more than 1,048,576 bytes would be written";
    case AFSUNGAR_OUTPUT_SHORT: return "the output is too short";
    case AFSUNGAR_INPUT_SHORT: return "a value goes on beyond its bytes";
    case AFSUNGAR_CODE_UNKNOWN: return "the format code is not one of the 40";
    case AFSUNGAR_PAYLOAD_BAD: return "a boolean, char, string or symbol is not valid";
    case AFSUNGAR_SIZE_AMISS: return "a size or count does not fit its body";
    case AFSUNGAR_ROWS_SHORT: return "the room for rows is too small";
    case AFSUNGAR_TEXT_SHORT: return "the room for text is too small";
    case AFSUNGAR_LIMIT_OUTSIDE: return "the level limit has to be from 1 to 32";
    default: return "not the number of a refusal";
    }
}

/* The level limit: the least and the most that a call may name, and that of a call which names none. */
#define AFSUNGAR_LEVELS_LEAST 1
#define AFSUNGAR_LEVELS_MOST 32
#define AFSUNGAR_LEVELS_DEFAULT 16

/* The 25 kinds of a row (docs/FORMAT.md, 2.2). */
enum afsungar_kind {
    AFSUNGAR_DESCRIBED = 0x00,  /* number 2; two children: descriptor, then value */
    AFSUNGAR_NULL = 0x40,       /* number 0 */
    AFSUNGAR_UBYTE = 0x50,      /* the value, as for all whole numbers; signed ones in two's complement at their own width, */
    AFSUNGAR_BYTE = 0x51,       /* with all bits above zero: int -1 is 4294967295 */
    AFSUNGAR_BOOLEAN = 0x56,    /* 0 false, 1 true */
    AFSUNGAR_USHORT = 0x60,
    AFSUNGAR_SHORT = 0x61,
    AFSUNGAR_UINT = 0x70,
    AFSUNGAR_INT = 0x71,
    AFSUNGAR_FLOAT = 0x72,      /* its bits, as for double and the decimals */
    AFSUNGAR_CHAR = 0x73,       /* the code point */
    AFSUNGAR_DECIMAL32 = 0x74,
    AFSUNGAR_ULONG = 0x80,
    AFSUNGAR_LONG = 0x81,
    AFSUNGAR_DOUBLE = 0x82,
    AFSUNGAR_TIMESTAMP = 0x83,  /* milliseconds since 1970, in two's complement */
    AFSUNGAR_DECIMAL64 = 0x84,
    AFSUNGAR_DECIMAL128 = 0x94, /* number 0, and 16 bytes of text */
    AFSUNGAR_UUID = 0x98,       /* number 0, and 16 bytes of text */
    AFSUNGAR_BINARY = 0xb0,     /* the length in bytes, and so much text */
    AFSUNGAR_STRING = 0xb1,     /* the same, in UTF-8 */
    AFSUNGAR_SYMBOL = 0xb3,     /* the same, in ASCII */
    AFSUNGAR_LIST = 0xd0,       /* the number of children */
    AFSUNGAR_MAP = 0xd1,        /* the number of keys plus values; children: key, value, key, value, .. */
    AFSUNGAR_ARRAY = 0xf0       /* AFSUNGAR_ELEMENTS(kind, count): so many children of one kind, any but null and described */
};

/* The number of an array's row, as a uint64_t that is constant where its parts are: so many elements of that kind. The count has to
 * be below 4,294,967,296; what is more would change the kind. */
#define AFSUNGAR_ELEMENTS(kind, count) (UINT64_C(4294967296) * (kind) + (count))

/* The kind and the count in such a number. */
#define AFSUNGAR_ELEMENT_KIND(number) ((number) / UINT64_C(4294967296))
#define AFSUNGAR_ELEMENT_COUNT(number) ((number) % UINT64_C(4294967296))

/* In the place of the kind: an array that was read has no elements, and does not tell their kind. */
#define AFSUNGAR_NOT_TOLD 0

/* The functions, each in its two forms. Beside the refusals that are named here, a form that takes the limit has 15. */

/* The number of bytes that afsungar_write writes. Refusals: 1 to 7. */
AFSUNGAR_NODISCARD
uint64_t afsungar_size(const uint64_t *words, size_t words_len, const uint8_t *text, size_t text_len,
                       uint64_t *place, uint64_t *length);
AFSUNGAR_NODISCARD
uint64_t afsungar_size_within(uint64_t limit, const uint64_t *words, size_t words_len, const uint8_t *text, size_t text_len,
                              uint64_t *place, uint64_t *length);

/* Writes a table's bytes to the start of out. *length: their number. Refusals: 1 to 8. */
AFSUNGAR_NODISCARD
uint64_t afsungar_write(const uint64_t *words, size_t words_len, const uint8_t *text, size_t text_len,
                        uint8_t *out, size_t out_len, uint64_t *place, uint64_t *length);
AFSUNGAR_NODISCARD
uint64_t afsungar_write_within(uint64_t limit, const uint64_t *words, size_t words_len, const uint8_t *text, size_t text_len,
                               uint8_t *out, size_t out_len, uint64_t *place, uint64_t *length);

/* Measures the value at the start of bytes: its length, and the rows and bytes of text that reading it fills. Bytes behind the
 * value are not looked at. Refusals: 3, 4, 9 to 12. */
AFSUNGAR_NODISCARD
uint64_t afsungar_measure(const uint8_t *bytes, size_t len,
                          uint64_t *place, uint64_t *length, uint64_t *rows, uint64_t *text);
AFSUNGAR_NODISCARD
uint64_t afsungar_measure_within(uint64_t limit, const uint8_t *bytes, size_t len,
                                 uint64_t *place, uint64_t *length, uint64_t *rows, uint64_t *text);

/* Reads the value at the start of bytes into words, two to a row, and text. *length: its bytes; *rows and *text_used: what was
 * filled. There is room enough with two words and one byte of text for each byte that is read. Refusals: those of
 * afsungar_measure, 13 and 14. */
AFSUNGAR_NODISCARD
uint64_t afsungar_read(const uint8_t *bytes, size_t len, uint64_t *words, size_t words_len, uint8_t *text, size_t text_len,
                       uint64_t *place, uint64_t *length, uint64_t *rows, uint64_t *text_used);
AFSUNGAR_NODISCARD
uint64_t afsungar_read_within(uint64_t limit, const uint8_t *bytes, size_t len, uint64_t *words, size_t words_len,
                              uint8_t *text, size_t text_len,
                              uint64_t *place, uint64_t *length, uint64_t *rows, uint64_t *text_used);

/* A step of the walker through values that stand end to end; the caller keeps its place, *at, at first 0.
 *   0 with length 0: done. That is where *at is len or more; *at stays.
 *   0 with a length: a value of so many bytes at *at as it was, and *at has moved behind it.
 *   Otherwise a refusal, those of afsungar_measure: *at stays. */
AFSUNGAR_NODISCARD
uint64_t afsungar_step(const uint8_t *bytes, size_t len, uint64_t *at, uint64_t *place, uint64_t *length);
AFSUNGAR_NODISCARD
uint64_t afsungar_step_within(uint64_t limit, const uint8_t *bytes, size_t len, uint64_t *at, uint64_t *place, uint64_t *length);

/* The way through a table, and what a 6 needs beside its place. These are plain C. They take any words, any text and any row, and
 * read nothing beyond them. */

/* How many bytes of text a row has. */
static inline uint64_t afsungar_text_length(uint64_t kind, uint64_t number) {
    switch (kind) {
    case AFSUNGAR_DECIMAL128:
    case AFSUNGAR_UUID:
        return 16;
    case AFSUNGAR_BINARY:
    case AFSUNGAR_STRING:
    case AFSUNGAR_SYMBOL:
        return number;
    default:
        return 0;
    }
}

/* Where the text of the next row begins, given a row and where its own begins; UINT64_MAX where that is beyond all numbers. */
static inline uint64_t afsungar_text_after(const uint64_t *words, size_t words_len, uint64_t row, uint64_t start) {
    uint64_t length = row < words_len / 2 ? afsungar_text_length(words[2 * row], words[2 * row + 1]) : 0;
    return length > UINT64_MAX - start ? UINT64_MAX : start + length;
}

/* How many children a row says it has. */
static inline uint64_t afsungar_child_count(uint64_t kind, uint64_t number) {
    switch (kind) {
    case AFSUNGAR_DESCRIBED:
    case AFSUNGAR_LIST:
    case AFSUNGAR_MAP:
        return number;
    case AFSUNGAR_ARRAY:
        return AFSUNGAR_ELEMENT_COUNT(number);
    default:
        return 0;
    }
}

/* The row behind a value and all that is below it; the number of rows where that is not all there. */
static inline uint64_t afsungar_row_after(const uint64_t *words, size_t words_len, uint64_t row) {
    uint64_t rows = words_len / 2, due = 1; /* due: values that are still to come, never more than the rows that are left */
    if (row >= rows) return rows;
    for (; due; row++) {
        uint64_t children = afsungar_child_count(words[2 * row], words[2 * row + 1]);
        if (children > rows - row - due) return rows;
        due = due - 1 + children;
    }
    return row;
}

/* The row of a row's n-th child, from 0; the number of rows where there is none. */
static inline uint64_t afsungar_child(const uint64_t *words, size_t words_len, uint64_t row, uint64_t n) {
    uint64_t rows = words_len / 2;
    if (row >= rows || n >= afsungar_child_count(words[2 * row], words[2 * row + 1])) return rows;
    for (row++; n && row < rows; n--) row = afsungar_row_after(words, words_len, row);
    return row;
}

/* The row that a byte of the text belongs to; the number of rows where it belongs to none. *start: where that row's text begins,
 * so that byte - *start counts within it. */
static inline uint64_t afsungar_row_of_byte(const uint64_t *words, size_t words_len, uint64_t byte, uint64_t *start) {
    uint64_t row = 0;
    for (*start = 0; row < words_len / 2; row++) {
        uint64_t length = afsungar_text_length(words[2 * row], words[2 * row + 1]);
        if (length > byte - *start) break;
        *start += length; /* byte at most, so there is no overflow */
    }
    return row;
}

/* Of words and text that were refused with a 6: 1 where the text is bad and place is the faulty byte; 0 where place is a row.
 *
 * Up to the row that is refused all texts are there and good. So if place is a byte, its row is bad by itself; and if it is a row,
 * then the text in which there happens to be a byte of this number is good, or is not all there. */
static inline int afsungar_is_bad_text(const uint64_t *words, size_t words_len, const uint8_t *text, size_t text_len,
                                       uint64_t place) {
    uint64_t start, row = afsungar_row_of_byte(words, words_len, place, &start), length, nowhere, size;
    if (row == words_len / 2 || start > text_len) return 0;
    length = afsungar_text_length(words[2 * row], words[2 * row + 1]);
    if (length > text_len - start) return 0;
    return afsungar_size(words + 2 * row, 2, text + start, (size_t)length, &nowhere, &size) == AFSUNGAR_TEXT_AMISS;
}

#ifdef __cplusplus
}
#endif

#endif
