#!/usr/bin/env python3
"""model.py FILE...: a model of the writer after docs/FORMAT.md, section by section. It shares nothing with the code.

Computes the answer of each case of the files (write*.txt, size*.txt and own_write*.txt of data/), prints a line a file
with the number of those that agree, and fails where one differs. It is made for reading, not for speed.
"""
import os
import sys

sys.dont_write_bytecode = True
from form import bytes_field, bytes_of, cases_in, refusal_field, words_of

MOST = 1_048_576        # 2.7
LEVELS = 32             # 2.5: the highest level limit that may be named; the lowest is 1
TOLD = 2 ** 32          # 2.6: an array's number is its count plus so many times its element kind

DESCRIBED, NULL, BOOLEAN, UINT, INT, CHAR, ULONG, LONG = 0x00, 0x40, 0x56, 0x70, 0x71, 0x73, 0x80, 0x81
STRING, SYMBOL, LIST, MAP, ARRAY = 0xb1, 0xb3, 0xd0, 0xd1, 0xf0
# 2.2: bytes of a number, by kind
WIDTHS = {NULL: 0, 0x50: 1, 0x51: 1, BOOLEAN: 1, 0x60: 2, 0x61: 2, UINT: 4, INT: 4, 0x72: 4, CHAR: 4, 0x74: 4,
          ULONG: 8, LONG: 8, 0x82: 8, 0x83: 8, 0x84: 8}
BLOBS = (0x94, 0x98)                                                # number 0, 16 bytes of text
TEXTS = {0xb0: 0xa0, STRING: 0xa1, SYMBOL: 0xa3}                    # with the code of the short form
COMPOUNDS = {LIST: 0xc0, MAP: 0xc1, ARRAY: 0xe0}
KINDS = {DESCRIBED, *WIDTHS, *BLOBS, *TEXTS, *COMPOUNDS}
ELEMENTS = KINDS - {NULL, DESCRIBED}                                # 2.6
NOT_TOLD = 0                                                        # 2.6: in place of an element kind, from the reader alone
UNFIT = KINDS - ELEMENTS - {NOT_TOLD}

# 4.6: the bytes that may stand first, and those that may then stand second; all further ones are 80 to bf
SEQUENCES = [
    (0x00, 0x7f, None, None, 1), (0xc2, 0xdf, 0x80, 0xbf, 2), (0xe0, 0xe0, 0xa0, 0xbf, 3),
    (0xe1, 0xec, 0x80, 0xbf, 3), (0xed, 0xed, 0x80, 0x9f, 3), (0xee, 0xef, 0x80, 0xbf, 3),
    (0xf0, 0xf0, 0x90, 0xbf, 4), (0xf1, 0xf3, 0x80, 0xbf, 4), (0xf4, 0xf4, 0x80, 0x8f, 4)]


class Refused(Exception):
    """A refusal: its number, and its place."""


def sequence(text, at):
    """The length of the sequence that begins there, or 0."""
    for first, last, low, high, length in SEQUENCES:
        if first <= text[at] <= last:
            rest = text[at + 1:at + length]
            good = len(rest) == length - 1 and all(0x80 <= b <= 0xbf for b in rest[1:])
            return length if good and (not rest or low <= rest[0] <= high) else 0
    return 0


def utf8_fault(text):
    """The first byte at which, after correct sequences, none begins; None where all are correct."""
    at = 0
    while at < len(text):
        step = sequence(text, at)
        if step == 0:
            return at
        at += step
    return None


def told(number):
    """The count and the element kind that an array's number tells (2.6)."""
    return number % TOLD, number // TOLD


def number_allowed(kind, number):
    """2.3, 2.6 and 2.7."""
    if kind == DESCRIBED:
        return number == 2
    if kind in BLOBS:
        return number == 0
    if kind in WIDTHS:
        surrogate = kind == CHAR and 0xd800 <= number <= 0xdfff
        most = {BOOLEAN: 1, CHAR: 0x10ffff}.get(kind, 256 ** WIDTHS[kind] - 1)
        return number <= most and not surrogate
    if kind == ARRAY:
        count, element = told(number)
        return count <= MOST and element in ELEMENTS
    return number <= MOST and (kind != MAP or number % 2 == 0)


def fault(kind, text):
    """2.4: the first fault of a row's text, counted from its start (4.6), or None."""
    if kind == STRING:
        return utf8_fault(text)
    return next((at for at, b in enumerate(text) if b >= 0x80), None) if kind == SYMBOL else None


class Table:
    """A table that is being taken apart, row by row, and written, within a level limit."""

    def __init__(self, limit, words, text):
        self.limit, self.words, self.text, self.row, self.used = limit, words, text, 0, 0

    def take(self, level, element):
        """The next row's kind, number and text. `element` is None outside arrays, else the kind that the array tells (5.2)."""
        place = self.row
        if 2 * place == len(self.words):
            raise Refused(1, place)
        kind, number = self.words[2 * place:2 * place + 2]
        if kind not in KINDS:
            raise Refused(2, place)
        if level > self.limit:
            raise Refused(3, place)
        if element is not None and kind != element:
            raise Refused(4, place)
        if kind == ARRAY and told(number)[1] in UNFIT:
            raise Refused(4, place)
        if not number_allowed(kind, number):
            raise Refused(5, place)
        length = 16 if kind in BLOBS else number if kind in TEXTS else 0
        text = self.text[self.used:self.used + length]
        if len(text) < length:
            raise Refused(6, place)
        bad = fault(kind, text)
        if bad is not None:
            raise Refused(6, self.used + bad)
        self.row, self.used = place + 1, self.used + length
        return kind, number, text

    def value(self, level):
        """The bytes of the next value (3)."""
        kind, number, text = self.take(level, None)
        if kind == DESCRIBED:
            return b'\0' + self.value(level + 1) + self.value(level + 1)
        if kind in COMPOUNDS:
            return enclosed(kind, *self.body(kind, number, level + 1))
        if kind in TEXTS:
            short = number <= 254
            return bytes([TEXTS[kind] if short else kind]) + number.to_bytes(1 if short else 4, 'big') + text
        return written_number(kind, number) + text

    def body(self, kind, number, level):
        """The count and the body of a list, map or array: values (3.5), or the element code and then payloads (3.6)."""
        if kind != ARRAY:
            return number, b''.join([self.value(level) for _ in range(number)])
        count, element = told(number)
        return count, bytes([element]) + b''.join([self.payload(*self.take(level, element), level) for _ in range(count)])

    def payload(self, kind, number, text, level):
        """What an element is written to behind the element code: always the full width (3.6)."""
        if kind in COMPOUNDS:
            return wide_fields(*self.body(kind, number, level + 1))
        width = 4 if kind in TEXTS else WIDTHS.get(kind, 0)
        return number.to_bytes(width, 'big') + text


def written_number(kind, number):
    """3.2 and 3.3: a number outside arrays, in the shortest form of its kind."""
    width = WIDTHS.get(kind, 0)
    if kind == BOOLEAN:
        return b'\x41' if number else b'\x42'
    if kind in (UINT, ULONG) and number == 0:
        return b'\x43' if kind == UINT else b'\x44'
    if kind in (UINT, ULONG) and number <= 255:
        return bytes([0x52 if kind == UINT else 0x53, number])
    if kind in (INT, LONG):
        signed = number - 256 ** width if number >= 256 ** width // 2 else number
        if -128 <= signed <= 127:
            return bytes([0x54 if kind == INT else 0x55, signed % 256])
    return bytes([kind]) + number.to_bytes(width, 'big')


def enclosed(kind, count, body):
    """3.5 and 3.6: size, count and body, by the body's length."""
    if kind == LIST and count == 0:
        return b'\x45'
    if len(body) <= 254:
        return bytes([COMPOUNDS[kind], len(body) + 1, count]) + body
    return bytes([kind]) + wide_fields(count, body)


def wide_fields(count, body):
    return (len(body) + 4).to_bytes(4, 'big') + count.to_bytes(4, 'big') + body


def check_limit(limit):
    """What comes before every other check, in the reader too: may that limit be named (2.5)."""
    if not 1 <= limit <= LEVELS:
        raise Refused(15, 0)


def encode(limit, words, text):
    """The bytes of a table, or a refusal (5.2)."""
    check_limit(limit)
    if len(words) % 2 == 1:
        raise Refused(1, 0)
    table = Table(limit, words, text)
    bs = table.value(1)
    if 2 * table.row < len(words):
        raise Refused(1, table.row)
    if table.used < len(text):
        raise Refused(6, table.row)
    if len(bs) > MOST:
        raise Refused(7, 0)
    return bs


def size(limit, words, text):
    """Sizing's answer, as a case has it (6.1)."""
    try:
        return f'={len(encode(limit, words, text))}'
    except Refused as r:
        return refusal_field(*r.args)


def write(limit, words, text, room):
    """Writing's answer, as a case has it (6.2)."""
    try:
        bs = encode(limit, words, text)
        if len(bs) > room:
            raise Refused(8, 0)
        return '=' + bytes_field(bs)
    except Refused as r:
        return refusal_field(*r.args)


def agrees(line, sizing):
    fields = line.split(' ')
    limit, words, text, answer = int(fields[0]), words_of(fields[1]), bytes_of(fields[2]), fields[-1]
    if sizing:
        return size(limit, words, text) == answer
    given = '=' + bytes_field(bytes_of(answer[1:])) if answer[0] == '=' else answer
    return write(limit, words, text, int(fields[3])) == given


def main():
    differ = 0
    for path in sys.argv[1:]:
        name = os.path.basename(path)
        wrong = [(n, line) for n, line in cases_in(path) if not agrees(line, 'size' in name)]
        for number, line in wrong:
            print(f'{name} line {number} differs: {line[:200]}')
        print(f'{name}: {sum(1 for _ in cases_in(path)) - len(wrong)} cases agree, {len(wrong)} differ')
        differ += len(wrong)
    sys.exit(1 if differ else 0)


if __name__ == '__main__':
    main()
