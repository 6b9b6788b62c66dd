#!/usr/bin/env python3
"""read_model.py FILE...: a model of the reader and the walker after docs/FORMAT.md, sections 4, 5.3 and 7. It shares nothing with the code.

Computes the answer of each case of the files (read*.txt, own_read.txt, walk.txt and own_walk.txt of data/), prints a line a file with
the number of those that agree, and fails where one differs. It is made for reading, not for speed.
"""
import os
import sys

sys.dont_write_bytecode = True
from form import bytes_field, bytes_of, cases_in, refusal_field, words_field
from model import NOT_TOLD, Refused, TOLD, check_limit, fault, number_allowed

# 4.1: code, kind, layout and its number
CODES = {
    0x00: (0x00, 'described', 0), 0x40: (0x40, 'whole', 0), 0x41: (0x56, 'constant', 1), 0x42: (0x56, 'constant', 0),
    0x43: (0x70, 'constant', 0), 0x44: (0x80, 'constant', 0), 0x45: (0xd0, 'constant', 0),
    0x50: (0x50, 'whole', 1), 0x51: (0x51, 'whole', 1), 0x52: (0x70, 'whole', 1), 0x53: (0x80, 'whole', 1),
    0x54: (0x71, 'small', 4), 0x55: (0x81, 'small', 8), 0x56: (0x56, 'whole', 1), 0x60: (0x60, 'whole', 2), 0x61: (0x61, 'whole', 2),
    0x70: (0x70, 'whole', 4), 0x71: (0x71, 'whole', 4), 0x72: (0x72, 'whole', 4), 0x73: (0x73, 'whole', 4), 0x74: (0x74, 'whole', 4),
    0x80: (0x80, 'whole', 8), 0x81: (0x81, 'whole', 8), 0x82: (0x82, 'whole', 8), 0x83: (0x83, 'whole', 8), 0x84: (0x84, 'whole', 8),
    0x94: (0x94, 'raw', 16), 0x98: (0x98, 'raw', 16),
    0xa0: (0xb0, 'sized', 1), 0xa1: (0xb1, 'sized', 1), 0xa3: (0xb3, 'sized', 1),
    0xb0: (0xb0, 'sized', 4), 0xb1: (0xb1, 'sized', 4), 0xb3: (0xb3, 'sized', 4),
    0xc0: (0xd0, 'compound', 1), 0xc1: (0xd1, 'compound', 1), 0xd0: (0xd0, 'compound', 4), 0xd1: (0xd1, 'compound', 4),
    0xe0: (0xf0, 'array', 1), 0xf0: (0xf0, 'array', 4)}
# 4.4
ELEMENT_CODES = bytes.fromhex('505152535455566061707172737480818283849498a0a1a3b0b1b3c0c1d0d1e0f0')


class Value:
    """What was read: rows and text, and the place behind it."""

    def __init__(self, rows, text, end):
        self.rows, self.text, self.end = rows, text, end


def several(one, count, at):
    """So many of what `one` reads at a place, one after another. Each takes a byte at least, so no count is believed."""
    rows, texts = [], []
    for _ in range(count):
        v = one(at)
        rows += v.rows
        texts.append(v.text)
        at = v.end
    return Value(rows, b''.join(texts), at)


class Input:
    """Bytes that are being read, within a level limit."""

    def __init__(self, limit, data):
        self.limit, self.data = limit, data

    def cut(self, place, at, end, width):
        """So many bytes of the room."""
        if end - at < width:
            raise Refused(9, place)
        return self.data[at:at + width]

    def scalar(self, layout, width, kind, place, at, end):
        if layout == 'constant':
            return Value([(kind, width)], b'', at)
        if layout == 'small':
            byte = self.cut(place, at, end, 1)[0]
            return Value([(kind, byte if byte < 128 else 256 ** width - 256 + byte)], b'', at + 1)
        field = self.cut(place, at, end, width)
        if layout == 'raw':
            return Value([(kind, 0)], field, at + width)
        number = int.from_bytes(field, 'big')
        if layout == 'sized':
            text = self.cut(place, at + width, end, number)
            bad = fault(kind, text)
            if bad is not None:
                raise Refused(11, at + width + bad)
            return Value([(kind, number)], text, at + width + number)
        if kind in (0x56, 0x73) and not number_allowed(kind, number):
            raise Refused(11, place)
        return Value([(kind, number)], b'', at + width)

    def children(self, count, at, end, level, outer):
        return several(lambda start: self.value(start, end, level, outer), count, at)

    def fields(self, width, place, at, end):
        """Count, and the body's two ends."""
        size = int.from_bytes(self.cut(place, at, end, width), 'big')
        if size < width:
            raise Refused(12, place)
        self.cut(place, at + width, end, size)
        return int.from_bytes(self.data[at + width:at + 2 * width], 'big'), at + 2 * width, at + width + size

    def compound(self, width, kind, place, at, end, level, outer):
        count, first, last = self.fields(width, place, at, end)
        if kind == 0xd1 and count % 2:
            raise Refused(12, place)
        body = self.children(count, first, last, level + 1, outer)
        if body.end != last:
            raise Refused(12, place)
        return Value([(kind, count)] + body.rows, body.text, last)

    def array(self, width, kind, place, at, end, level):
        """The row tells the kind of the element code, whichever of its forms the code is. All that an array holds, however deep, is refused at its
        place, or at that of the outermost array around it; but for a bad text, whose place is its own byte everywhere."""
        count, first, last = self.fields(width, place, at, end)
        if count and level == self.limit:
            raise Refused(3, place)
        if first == last:
            if count:
                raise Refused(9, place)
            return Value([(kind, TOLD * NOT_TOLD)], b'', last)
        code = self.data[first]
        if code not in CODES:
            raise Refused(10, place)
        if code not in ELEMENT_CODES:
            raise Refused(4, place)
        items = several(lambda start: self.payload(code, place, start, last, level + 1, place), count, first + 1)
        if items.end != last:
            raise Refused(12, place)
        return Value([(kind, count + TOLD * CODES[code][0])] + items.rows, items.text, last)

    def payload(self, code, place, at, end, level, outer):
        """What stands behind a code."""
        kind, layout, n = CODES[code]
        if layout == 'compound':
            return self.compound(n, kind, place, at, end, level, outer)
        if layout == 'array':
            return self.array(n, kind, place, at, end, level)
        if layout == 'described':
            both = self.children(2, at, end, level + 1, outer)
            return Value([(kind, 2)] + both.rows, both.text, both.end)
        return self.scalar(layout, n, kind, place, at, end)

    def value(self, at, end, level, outer):
        """The value at a place of its room, which ends there. `outer` is the place of the outermost array around it, or None."""
        place = at if outer is None else outer
        if level > self.limit:
            raise Refused(3, place)
        if at >= end:
            raise Refused(9, place)
        if self.data[at] not in CODES:
            raise Refused(10, place)
        return self.payload(self.data[at], place, at + 1, end, level, outer)


def measure(limit, data):
    check_limit(limit)
    return Input(limit, data).value(0, len(data), 1, None)


def read(limit, data, words, letters):
    """The answer of reading with so many lent words and bytes of text, as it is stored."""
    try:
        v = measure(limit, data)
        if words // 2 < len(v.rows):
            raise Refused(13, 0)
        if letters < len(v.text):
            raise Refused(14, 0)
    except Refused as refused:
        return refusal_field(*refused.args)
    return f'={v.end} {words_field([w for row in v.rows for w in row])} {bytes_field(v.text)}'


def step(limit, data, at):
    """The answer of the walker's step at a place, as it is stored, and the place behind it."""
    try:
        check_limit(limit)
        length = measure(limit, data[at:]).end if at < len(data) else 0
    except Refused as refused:
        return refusal_field(*refused.args), at
    return f'={length}', at + length


def walk(limit, at, data, count):
    """The answers of so many steps, the first of them at a place."""
    answers = []
    for _ in range(count):
        answer, at = step(limit, data, at)
        answers.append(answer)
    return ' '.join(answers)


def agrees(line, name):
    limit, *fields = line.split(' ')
    if 'walk' in name:
        at = int(fields.pop(0)) if 'own' in name else 0
        return walk(int(limit), at, bytes_of(fields[0]), len(fields) - 1) == ' '.join(fields[1:])
    return read(int(limit), bytes_of(fields[0]), int(fields[1]), int(fields[2])) == ' '.join(fields[3:])


def main(paths):
    wrong = 0
    for path in paths:
        name = os.path.basename(path)
        cases = [agrees(line, name) for _, line in cases_in(path)]
        wrong += cases.count(False)
        print(f'{name}: {cases.count(True)} of {len(cases)} agree')
    return 1 if wrong else 0


if __name__ == '__main__':
    sys.exit(main(sys.argv[1:]))
