#!/usr/bin/env python3
"""own.py: writes data/own_write.txt and data/own_write_big.txt, cases for every refusal and limit of the writer.

The tables are chosen here, by docs/FORMAT.md, sections 2, 3 and 5, and by one limit of the code; some are from outside. The answers are those of model.py.
Where nothing else is said a case names the level limit 32.
"""
import re
import sys

sys.dont_write_bytecode = True
from form import bytes_field, bytes_of, store, words_field, words_of
from model import BLOBS, COMPOUNDS, ELEMENTS, KINDS, LEVELS, MOST, NULL, Refused, SEQUENCES as FORMS, TEXTS, TOLD, WIDTHS, encode, write

REFUSED_ROOM = 16       # bytes of output for a table that is refused
EDGES = sorted(n + d for n in (1, 2 ** 7, 2 ** 8, 2 ** 15, 2 ** 16, 2 ** 31, 2 ** 32, 2 ** 63) for d in (-1, 0)) + [2 ** 64 - 1]
SCALARS = sorted(ELEMENTS - COMPOUNDS.keys())
NAMED = (1, 2, 15, 16, 17, 31)                              # level limits beside 32
NOT_NAMED = (0, 33, 2 ** 32, 2 ** 32 + 16, 2 ** 64 - 1)     # and such as may not be named
PARENTS = {0x00: '00:2,40:0,40:0', 0xd0: 'd0:1,40:0', 0xd1: 'd1:2,40:0,40:0', 0xf0: 'f0.50:1,50:0'}


def array_row(found):
    return f'f0:{int(found[2]) + TOLD * int(found[1], 16)}'


def table(rows):
    """The words of a table. `f0.70:2` is the row of an array that tells uint and has two elements."""
    return words_of(re.sub(r'f0\.([0-9a-f]+):([0-9]+)', array_row, rows))


def case(rows, text=b'', room=None, limit=LEVELS):
    """A line, with an output of exactly the size where no other room is asked."""
    words = table(rows)
    if room is None:
        try:
            room = len(encode(limit, words, text))
        except Refused:
            room = REFUSED_ROOM
    return ' '.join([str(limit), words_field(words), bytes_field(text), str(room), write(limit, words, text, room)])


def good(kind):
    """A value of a kind: its rows and its text."""
    if kind in PARENTS:
        return PARENTS[kind], b''
    if kind in BLOBS:
        return f'{kind:02x}:0', bytes(range(16))
    if kind in TEXTS:
        return f'{kind:02x}:3', b'abc'
    return f'{kind:02x}:{0 if kind == NULL else 1}', b''


def parent(kind, count, child):
    return ','.join([f'{kind}:{count}', *[child] * count])


def long_parent(kind, count, child):
    """The same as a run, where the child is one row."""
    return f'{kind}:{count},{child}*{count}'


def worked():
    """FORMAT.md, section 10."""
    yield from map(case, ['70:255', '70:256', '71:4294967168', '71:4294967167', 'd0:1,40:0', 'd1:0', 'f0.70:0', 'f0.70:2,70:0,70:1',
                          '00:2,80:36,d0:0', 'd0:1*31,d0:0', 'd0:1*32,d0:0'])
    yield case('d1:2,b3:1,70:2', b'v')
    yield case('f0.b1:1,b1:5', 'Ø1.2'.encode())
    yield case('f0.b0:1,b0:249', b'a' * 249)
    yield case('f0.b0:1,b0:250', b'a' * 250)


def worked_nested():
    """FORMAT.md, section 10: arrays of lists, maps and arrays."""
    yield from map(case, ['f0.d0:2,d0:1,70:1,d0:2,70:2,70:0', 'f0.d0:3,d0:0,d0:1,40:0,d0:0', 'f0.f0:2,f0.50:1,50:5,f0.56:2,56:1,56:0',
                          'f0.f0:2,f0.70:0,f0.b1:0', 'f0.d0:1,d0:1,d0:1,40:0', 'f0.f0:1*31,f0.70:0', 'f0.f0:1*32,f0.70:0'])
    yield case('f0.d1:2,d1:2,b3:1,70:2,d1:0', b'v')


def example():
    """The order of examples/order.amqp."""
    yield case('00:2,b3:19,d0:7,80:4711,83:1763164800000,b3:9,b1:5,f0.b1:3,b1:5*2,b1:2,d1:4,b3:4,70:2,b3:5,70:1,'
               'd1:4,b3:4,f0.d0:2,d0:3,b1:5,71:35,71:4294967284,d0:3,b1:5,71:48,71:7,b3:5,f0.d0:1,d0:3,b1:5,71:4294967261,71:4294967284',
               'afsungar:order:listear-shellØ1.2Ø1.2Ø1.3M4leftrightleftØ1.2Ø1.3rightØ1.2'.encode())


def rows_amiss():
    yield from map(case, ['-', '+40', '40:0,+40', '+ff', 'd0:2,40:0,+40'])
    yield from map(case, ['d0:1', 'd1:2,40:0', 'f0.50:1', 'f0.50:2,50:1', '00:2', '00:2,40:0', 'd0:2,d0:1'])
    yield from map(case, ['40:0,40:0', '40:0,ff:0', 'd0:0,40:0', 'd0:1,40:0,40:0', 'f0.50:0,50:1', 'f0.50:1,50:1,50:1', '00:2,40:0*3', 'd1:0,40:0*2'])


def kinds_unknown():
    for kind in range(256):
        if kind not in KINDS:
            yield case(f'{kind:02x}:0')
    for kind in sorted(KINDS):
        yield case(f'{kind + 256:02x}:0')
    yield from map(case, ['100000040:0', '8000000000000040:0', 'ffffffffffffffff:0'])
    yield from map(case, ['d0:2,40:0,ff:0', 'd1:2,ff:0,40:0', 'f0.50:1,ff:0', 'f0.50:2,50:0,ff:0', '00:2,ff:0,40:0', '00:2,80:1,ff:0'])


def levels(limit=LEVELS):
    """Values above a limit's last level, at it and beyond it."""
    for depth in (limit - 2, limit - 1, limit):
        for inner in ['40:0', '70:256', 'b1:0', 'd0:0', 'd1:0', 'f0.50:0', 'd0:1', 'f0.50:1,50:7', 'f0.50:1,40:0', 'f0.50:1', 'f0.50:1,ff:0',
                      '00:2,40:0,40:0', 'ff:0', '40:1']:
            yield case(f'd0:1*{depth},{inner}', limit=limit)
        for rows in [f'd0:1*{depth}', f'd0:2,40:0,d0:1*{depth - 1},40:0', f'00:2*{depth},40:0*{depth + 1}', '00:2,40:0,' * depth + '40:0',
                     f'd1:2*{depth},40:0*{depth + 1}', 'd1:2,40:0,' * depth + '40:0']:
            yield case(rows, limit=limit)
        yield case(f'd0:1*{depth},b1:1', b'\xff', limit=limit)


def elements_unfit():
    for kind in sorted(KINDS):
        rows, text = good(kind)
        own = f'{kind if kind in ELEMENTS else 0x50:02x}'
        yield case(f'f0.{own}:1,{rows}', text)
        yield case(f'f0.50:1,{rows}', text)
        yield case(f'f0.50:2,50:1,{rows}', text)
        yield case(f'f0.{own}:2,{rows},50:1', text)
        yield case(f'f0.{own}:1,50:1')
    members = sorted(ELEMENTS)
    for first, second in zip(members, members[1:]):
        (one, text), (other, more) = good(first), good(second)
        yield case(f'f0.{first:02x}:2,{one},{other}', text + more)
        yield case(f'f0.{second:02x}:2,{one},{other}', text + more)
        yield case(f'f0.{second:02x}:3,{other},{other},{one}', more * 2 + text)
    for row in ('d0:0', 'd1:0', 'f0.50:0'):
        for other in ('40:0', '00:2,40:0,40:0', '50:1', 'd0:0', 'd1:0', 'f0.50:0'):
            if other != row:
                yield case(f'd0:2,40:0,f0.{row[:2]}:2,{row},{other}')
    yield from map(case, ['f0.50:2,40:0*2', 'd0:2,f0.50:1,50:1,60:1', 'f0.50:1,00:3', 'f0.50:1,40:1', 'f0.50:1,00:2,40:1', 'f0.f0:1,f0.50:1,40:0',
                          'f0.f0:2,f0.50:0,f0.50:1,40:0', 'f0.f0:1,f0.50:1,00:2,40:0*2', 'f0.d0:1,d0:1,f0.50:1,40:0', 'f0.d1:1,d1:2,40:0,f0.50:2,50:1,51:1',
                          'f0.f0:1,f0.d0:2,d0:0,d1:0', 'f0.f0:1,f0.f0:1,f0.50:2,50:1,60:1', 'f0.d0:1,d0:2,00:2,40:0*2,f0.d0:1,00:2,40:0*2',
                          'f0.d0:2,d0:1,f0.50:2,50:1,d0:0,d0:0'])


def elements():
    for kind in sorted(ELEMENTS):
        rows, text = good(kind)
        for count in (1, 2, 3):
            yield case(parent(f'f0.{kind:02x}', count, rows), text * count)
    for kind in [kind for kind in SCALARS if kind in WIDTHS]:
        for number in EDGES:
            yield case(f'f0.{kind:02x}:2,{kind:02x}:1,{kind:02x}:{number}')
    for kind in TEXTS:
        for length in (0, 1, 254, 255, 256):
            yield case(f'f0.{kind:02x}:2,{kind:02x}:{length},{kind:02x}:1', b'z' * (length + 1))


def numbers():
    for kind, width in sorted(WIDTHS.items()):
        negative = {256 ** width - n for n in (1, 127, 128, 129)} if width else set()
        for number in sorted(negative | set(EDGES)):
            yield case(f'{kind:02x}:{number}')
    for number in (0xd7ff, 0xd800, 0xdbff, 0xdc00, 0xdfff, 0xe000, 0xffff, 0x10000, 0x10ffff, 0x110000):
        yield case(f'73:{number}')
        yield case(f'f0.73:1,73:{number}')
    yield from map(case, ['56:2', 'f0.56:1,56:2', '94:1', '98:1'])
    yield from map(case, ['00:0', '00:1', '00:3', '00:0,40:0*2', '00:3,40:0*3', 'd1:1', 'd1:1,40:0', 'd1:3,40:0*3'])
    for kind in [*TEXTS, *COMPOUNDS]:
        for number in (MOST - 1, MOST, MOST + 1, MOST + 2, 2 ** 32, 2 ** 63, 2 ** 64 - 1):
            yield case(f'{kind:02x}:{number}')


def texts():
    for kind in TEXTS:
        for length in (0, 1, 2, 253, 254, 255, 256, 257):
            for given in sorted({max(length - 1, 0), length, length + 1}):
                yield case(f'{kind:02x}:{length}', b'a' * given)
    for kind in BLOBS:
        for given in (0, 15, 16, 17):
            yield case(f'{kind:02x}:0', (bytes(range(240, 256)) + b'z')[:given])
    for length in (252, 253, 254, 255, 256):
        for letter in ('\u00d8', '\u20ac', '\U0001f600'):
            bs = letter.encode()
            yield case(f'b1:{length}', bs * (length // len(bs)) + b'a' * (length % len(bs)))
    yield case('40:0', b'a')
    for text in (b'a', b'ab', b'abc'):
        yield case('d0:2,b1:1,b3:1', text)


# Each edge of the table of 4.6, and sequences that are cut off.
SEQUENCES = '''00 7f 80 bf c0 c1 c2 df ff fe c080 c0af c180 c1bf c27f c280 c2bf c2c0 df7f df80 dfbf dfc0 e080 e09f e09f80 e09fbf
e0a0 e0a07f e0a080 e0a0bf e0a0c0 e0bfbf e0c080 e17f80 e18080 e180 e1bfbf e1c080 ec8080 ecbfbf ecbfc0 ed7f80 ed8080 ed807f ed9fbf
ed9fc0 eda080 edbfbf ee7f80 ee8080 eebfbf ef8080 efbfbf efbfbd efbfc0 efbf f07f8080 f0808080 f08f8080 f08fbfbf f0908080 f0907f80
f090807f f09080c0 f090c080 f09080 f090 f0 f0bfbfbf f0c08080 f17f8080 f1808080 f1bfbfbf f1c08080 f3808080 f3bfbfbf f47f8080
f4808080 f48fbfbf f4908080 f48f7fbf f48fbf7f f48fbfc0 f4bfbfbf f48fbf f48f f5808080 f6808080 f7bfbfbf f888808080 fc8480808080'''


def sequences():
    for text in map(bytes.fromhex, SEQUENCES.split()):
        for whole in (text, b'x' + text + b'y', b'12345678' + text):
            yield case(f'b1:{len(whole)}', whole)
        yield case(f'f0.b1:2,b1:1,b1:{len(text)}', b'a' + text)
    for text in map(bytes.fromhex, ['00', '7f', '80', 'ff', 'c3', 'c398']):
        yield case(f'b3:{len(text)}', text)
        yield case(f'b0:{len(text)}', text)
        yield case(f'f0.b3:1,b3:{len(text)}', text)
    for at in (0, 1, 7, 8, 9, 30):
        for byte in (b'\x7f', b'\x80'):
            yield case('b3:31', b's' * at + byte + b's' * (30 - at))
    # a sequence over two rows is a fault of the first
    yield case('d0:2,b1:1,b1:1', b'\xc3\x98')
    yield case('d0:2,b1:2,b1:2', b'a\xc3\x98b')
    yield case('d0:2,b0:1,b1:1', b'\xc3\x98')


def bodies():
    for count in (0, 1, 2, 127, 128, 253, 254, 255, 256, 257):
        for kind, child in (('d0', '40:0'), ('d1', '40:0'), ('f0.50', '50:7'), ('f0.56', '56:1')):
            yield case(parent(kind, count, child))
    for length in range(247, 258):
        for rows in ('d0:1', 'd1:2,40:0', 'f0.b0:1', 'd0:1*2', 'd0:2,d0:1,40:0'):
            yield case(f'{rows},b0:{length}', b'q' * length)
    for count in (31, 32, 63, 64):
        yield case(parent('f0.80', count, '80:1'))
        yield case(parent('f0.70', count, '70:1'))
    for count in (1, 62, 63, 64, 65, 66):
        yield case(parent('d0', count, 'd0:1,40:0'))
        yield case(parent('d0', count, 'f0.50:1,50:1'), b'', 1000)
    yield case('d1:4,40:0,f0.50:2,50:1,50:2,b3:1,d0:0', b'k')


# Lists, maps and arrays as elements: what each may hold, with its text.
CONTENTS = {
    'd0': [('d0:0', b''), ('d0:1,40:0', b''), ('d0:2,70:1,b1:2', 'Ø'.encode()), ('d0:1,d0:0', b''), ('d0:1,d0:1,40:0', b''),
           ('d0:2,d1:0,f0.d0:0', b''), ('d0:1,00:2,80:1,d0:0', b'')],
    'd1': [('d1:0', b''), ('d1:2,40:0*2', b''), ('d1:2,b3:1,56:1', b'k'), ('d1:2,f0.50:1,50:1,d0:0', b''), ('d1:4,40:0*4', b'')],
    'f0': [('f0.70:0', b''), ('f0.50:1,50:7', b''), ('f0.70:2,70:0,70:1', b''), ('f0.b1:1,b1:2', 'Ø'.encode()), ('f0.d0:2,d0:0,d0:1,40:0', b''),
           ('f0.d1:1,d1:0', b''), ('f0.f0:2,f0.51:0,f0.51:1,51:1', b'')]}


def compounds():
    """Each as the only element, and beside another of its kind."""
    for kind, contents in CONTENTS.items():
        for rows, text in contents:
            yield case(f'f0.{kind}:1,{rows}', text)
        for (rows, text), (other, more) in zip(contents, contents[1:] + contents[:1]):
            yield case(f'f0.{kind}:2,{rows},{other}', text + more)
            yield case(f'd0:2,f0.{kind}:3,{other},{rows},{other},40:0', more + text + more)
    # each kind of row in an element, in its shortest form
    for kind in sorted(KINDS):
        rows, text = good(kind)
        yield case(f'f0.d0:1,d0:1,{rows}', text)
    for rows in ('70:0', '70:255', '70:256', '71:4294967168', '80:0', '80:256', '81:18446744073709551488'):
        yield case(f'f0.d1:2,d1:2,40:0,{rows},d1:0')
    # arrays in arrays, three and more deep; inner arrays of different kinds
    yield from map(case, ['f0.f0:1*2,f0.50:1,50:1', 'f0.f0:1*2,f0.50:0', 'f0.f0:2*2,f0.50:1,50:1,f0.60:0,f0.f0:1,f0.70:2,70:1,70:2',
                          'f0.f0:3,f0.80:0*3', 'f0.f0:1*3,f0.d0:1,d0:0', 'd0:3,40:0,f0.f0:5,f0.b3:0*5,40:0',
                          'f0.f0:4,f0.50:1,50:1,f0.60:1,60:1,f0.d0:1,d0:0,f0.f0:1,f0.98:0', 'f0.f0:2,f0.d1:1,d1:0,f0.d0:1,d0:0',
                          'f0.f0:1,f0.d0:2,d0:1,f0.f0:1,f0.d1:0,d0:0', 'd1:2,f0.d0:1,d0:0,f0.d1:1,d1:0', '00:2,f0.d0:1,d0:0,f0.f0:1,f0.56:0',
                          'f0.d0:1,d0:1,00:2,f0.d0:1,d0:0,f0.d1:1,d1:0'])


def compound_bodies():
    """Bodies of about 254 bytes, of the array and of what it holds: only the array's own width, and those within elements, go by them."""
    for length in (242, 243, 244):
        yield case(f'f0.d0:1,d0:1,b0:{length}', b'q' * length)
    for length in (249, 250, 252, 253, 255):
        for rows in ('d0:1', 'f0.b0:1', 'd0:1,d0:1', 'd0:1,f0.b0:1', 'd1:2,40:0,d1:2,40:0', 'f0.d0:1,d0:1'):
            yield case(f'f0.{rows[:2]}:1,{rows},b0:{length}', b'q' * length)
    for count in (254, 256):
        for kind, child in (('d0', '40:0'), ('d1', '40:0'), ('f0.50', '50:7')):
            yield case(f'f0.{kind[:2]}:1,' + long_parent(kind, count, child))
    for count in (28, 29, 31, 32):
        for row in ('d0:0', 'd1:0', 'f0.71:0'):
            yield case(long_parent(f'f0.{row[:2]}', count, row))
    for count in (25, 26, 28, 29):
        yield case(parent('f0.d0', count, 'd0:1,40:0'))
        yield case(parent('f0.f0', count, 'f0.50:1,50:1'))


def compound_levels(limit=LEVELS):
    for depth in (limit - 2, limit - 1, limit):
        for inner in ['50:7', '40:0', 'd0:0', 'f0.50:0', 'd0:1', 'd1:1', 'd1:2', 'f0.50:1', 'f0.50:1,40:0', 'ff:0', '50:256', 'f0:0', 'f0.40:0']:
            kind = inner[:2] if int(inner[:2], 16) in ELEMENTS else '50'
            yield case(f'f0.f0:1*{depth - 1},f0.{kind}:1,{inner}', limit=limit)
        for rows in [f'd0:1*{depth - 1},f0.d0:1,d0:1,40:0', f'f0.d0:1,d0:1*{depth - 1},40:0', 'f0.d1:1,d1:2,40:0,' * (depth // 2) + '40:0']:
            yield case(rows, limit=limit)
        yield case(f'f0.f0:2,f0.b1:0,f0.f0:1*{depth - 2},f0.b1:1,b1:1', b'\xff', limit=limit)


# A table with lists, maps and arrays in arrays, and its text.
NESTED = 'f0.d0:2,d0:3,70:1,b1:2,d1:2,b3:1,f0.50:2,50:1,50:2,d0:2,f0.f0:2,f0.60:1,60:1,f0.70:0,00:2,80:1,d0:0', 'Øk'.encode()


def compound_faults():
    """Each refusal at each row of that table."""
    rows, text = NESTED[0].split(','), NESTED[1]
    for i, row in enumerate(rows):
        yield case(','.join(['d0:2', '40:0'] + rows[:i]), text)
        for fault in ['ff:0', f'{row[:2]}:{2 ** 32}', '40:1', 'd1:1'] + ['f0:0', 'f0.40:2', f'f0.50:{MOST + 1}', 'f0.71:2'] * row.startswith('f0'):
            yield case(','.join(rows[:i] + [fault] + rows[i + 1:]), text)
    whole = ','.join(rows)
    for given in (text, b'', text[:1], text[:2], text[:1] + b'kk', b'\xff' + text[1:], text[:2] + b'\x80', text + b'x'):
        yield case(whole, given)
    yield case(whole + ',40:0', text)
    yield case(whole + ',+40', text)
    # what fails twice
    yield from map(case, ['f0.d0:2,d0:1,ff:0,d1:0', 'f0.d0:2,d0:1,40:1,d1:0', 'f0.d0:2,d0:2,40:0,d1:0', 'f0.d1:1,d1:1,ff:0', 'f0.f0:2,f0.50:1,40:0,50:1',
                          'f0.d0:3,d0:0,d0:1', 'f0.d0:2,d0:254', 'f0.d1:1,d1:1', 'f0.d0:1,d0:1,50:1*2', 'f0.f0:1,f0.50:0,50:1*2', f'f0.d0:1,d0:{MOST + 1}',
                          f'f0.d1:1,d1:{MOST},50:1*2', f'f0.f0:1,f0.50:{MOST}', 'f0.f0:1,f0:18446744073709551615,50:1*2'])


def compound_rooms():
    tables = [NESTED, ('f0.d0:1,d0:0', b''), ('f0.f0:1,f0.50:1,50:1', b''), ('f0.d1:3,d1:0*3', b''), ('f0.d0:1,d0:1,b0:255', b'r' * 255),
              ('f0.f0:2,f0.70:0*2', b'')]
    for rows, text in tables:
        size = len(encode(LEVELS, table(rows), text))
        for room in (0, size - 1, size + 1):
            yield case(rows, text, room)


# What an array's row cannot tell: nothing, a code that is no kind, more than a byte.
UNTOLD = (0x00, 0x01, 0x41, 0x45, 0x52, 0xa1, 0xc0, 0xe0, 0xff, 0x100, 0x150, 0x170, 0x1f0, 0x7000, 2 ** 31, 2 ** 32 - 1)


def told_kinds():
    """Every byte as an element kind, and every kind with a bit above; then what cannot be told, and null, by count and by what is behind."""
    for kind in range(256):
        yield case(f'f0.{kind:02x}:0')
    for kind in sorted(KINDS):
        yield case(f'f0.{kind + 256:x}:0')
    for kind in (NULL, *UNTOLD):
        yield from (case(f'f0.{kind:x}:{count}') for count in (0, 1, MOST, MOST + 1, TOLD - 1))
        yield from map(case, [f'f0.{kind:x}:1,50:1', f'f0.{kind:x}:2,70:1*2', f'f0.{kind:x}:1,{kind:02x}:0', f'f0.{kind:x}:1,f0.50:0',
                              f'd0:2,40:0,f0.{kind:x}:0', f'f0.f0:2,f0.50:0,f0.{kind:x}:0', f'f0.f0:1,f0.{kind:x}:1,50:1'])
    for kind in (0x50, 0x70, 0x98, 0xb1, 0xd0, 0xd1, 0xf0):
        for count in (MOST - 1, MOST, MOST + 1, 2 ** 31, TOLD - 1):
            yield case(f'f0.{kind:02x}:{count}')
            yield case(f'd0:1,f0.f0:1,f0.{kind:02x}:{count}')


def told_empty():
    """The empty array of each kind, in each sort of parent, and beside arrays of other kinds; arrays of each kind at the last level."""
    members = sorted(ELEMENTS)
    for kind in members:
        row, (rows, text) = f'f0.{kind:02x}:0', good(kind)
        for parents in (f'd0:2,{row},40:0', f'd1:2,{row},00:2,80:1,{row}', f'f0.f0:1,{row}', f'f0.f0:2,f0.50:1,50:1,{row}', f'f0.d0:1,d0:1,{row}'):
            yield case(parents)
        yield case(f'f0.f0:2,{row},f0.{kind:02x}:1,{rows}', text)
        yield case(f'd0:1*{LEVELS - 1},{row}')
        yield case(f'd0:1*{LEVELS - 1},f0.{kind:02x}:1,{rows}', text)
    for kind, other in zip(members, members[1:] + members[:1]):
        rows, text = good(kind)
        yield case(f'f0.f0:3,f0.{other:02x}:0,f0.{kind:02x}:1,{rows},f0.{kind:02x}:0', text)
    every = [f'f0.{kind:02x}:0' for kind in members]
    yield case(','.join([f'd0:{len(every)}', *every]))
    yield case(','.join([f'f0.f0:{len(every)}', *every]))
    yield case(','.join([f'f0.f0:{len(every)}', *[f'f0.{kind:02x}:1,{good(kind)[0]}' for kind in members]]), b''.join(good(kind)[1] for kind in members))
    for depth in (LEVELS - 2, LEVELS - 1, LEVELS):
        for inner in ('f0.b1:0', 'f0.d1:0', 'f0.f0:0', 'f0.b1:1,b1:0', 'f0.d1:1,d1:0', 'f0.f0:1,f0.50:0', 'f0.f0:1', 'f0.40:1', 'f0:1', 'f0.52:0',
                      f'f0.50:{MOST + 1}'):
            yield case(f'd0:1*{depth},{inner}')
            yield case(f'f0.f0:1*{depth},{inner}')


def told_bodies():
    """Empty arrays in bodies of about 254 bytes: four bytes each in a list or map, nine each in an array."""
    for ones in (0, 1, 2, 3):
        yield case(','.join(['f0.f0:28', f'f0.80:0*{28 - ones}', *['f0.50:1,50:1'] * ones]))
    for nulls in (1, 2, 3):
        yield case(f'd0:{63 + nulls},f0.d0:0*63,40:0*{nulls}')
    for nulls in (4, 5, 6):
        yield case(f'f0.d0:1,d0:{60 + nulls},f0.d0:0*60,40:0*{nulls}')
    for empty, nulls in ((62, 6), (61, 11), (61, 13)):
        yield case(f'd1:{empty + nulls},f0.f0:0*{empty},40:0*{nulls}')


def told_order():
    """Two faults: of the array's row; of it and of one behind it, before it or in it; of it and of the whole table."""
    for row in ('f0:0', 'f0.40:0', 'f0.52:0', f'f0.50:{MOST + 1}', f'f0.40:{MOST + 1}'):
        for rows in (f'{row},+40', f'{row},40:0', f'{row},ff:0', f'f0.50:1,{row}', f'f0.50:2,50:1,{row}', f'f0.d0:1,{row}', f'f0.f0:1,{row}',
                     f'd0:2,ff:0,{row}', f'd0:2,40:1,{row}', f'd0:2,{row},ff:0', f'd0:2,{row}', f'f0.f0:2,f0.50:1,60:1,{row}', f'f0.f0:2,{row},ff:0',
                     f'00:2,{row},{row}'):
            yield case(rows)
        yield case(row, b'a')
        yield case(row, b'', 0)
        yield case(f'd0:2,b1:1,{row}', b'\xff')
        yield case(f'd0:2,{row},b1:1', b'\xff')
    # at an element's row 1, 2 and 3 come before 4, which comes before 5 and 6
    yield from map(case, ['f0.70:1', 'f0.70:1,ff:0', 'f0.70:1,170:0', 'f0.70:1,71:0', 'f0.70:1,71:4294967296', 'f0.70:1,70:4294967296', 'f0.70:1,00:3',
                          'f0.70:3,71:1,70:1*2', 'f0.70:3,70:1,71:1,70:1', 'f0.70:3,70:1*2,71:1', 'f0.70:2,70:1', 'f0.70:1,70:1*2', 'f0.70:0,70:1',
                          f'd0:1*{LEVELS - 1},f0.70:1', f'd0:1*{LEVELS - 1},f0.70:1,ff:0', f'd0:1*{LEVELS - 1},f0.70:1,71:0'])
    for rows in ('f0.b3:1,b1:1', 'f0.b1:1,b3:1', 'f0.b1:1,b1:1', 'f0.b3:1,b3:1', 'f0.b0:2,b0:0,b1:1', 'f0.b1:0', 'f0.b1:1,b1:0'):
        yield case(rows, b'\xff')


def described():
    yield from map(case, ['00:2,80:36,d0:0', '00:2,40:0,40:0', '00:2,00:2,40:0*3', '00:2,40:0,00:2,40:0*2', 'd0:1,00:2,80:255,70:256',
                          'd1:2,00:2,80:1,40:0,56:1', '00:2,f0.50:1,50:1,f0.50:0', '00:2,d1:0,d0:1,d0:0'])
    yield case('00:2,b3:4,d0:1,b1:1', b'nameX')


def order():
    """What fails twice: two checks of one row, of two rows, or of a row and the whole table."""
    yield from map(case, ['ff:0,+40', '40:1,+40', 'd0:2,ff:0', 'd0:2,40:1', 'd0:2,40:0*2,40:1', '40:1,40:0', '40:0,b1:5', 'f0.50:1,ff:2',
                          'f0.50:2,50:1,60:65536', 'f0.50:2,50:256,60:1'])
    for rows, text in [('f0.50:2,50:1,b1:1', b'\xff'), ('d0:2,b1:1,ff:0', b'\xff'), ('d0:2,b1:9,ff:0', b'a'), ('d0:2,ff:0,b1:1', b'\xff'),
                       (f'b1:{MOST + 1}', b'a'), ('b1:1,40:0', b'\xff'), ('b1:1,40:0', b'ab'), ('40:0,40:0', b'a'), ('b1:1', b'a\xff')]:
        yield case(rows, text)
    for room in (0, 1):
        for rows, text in [('40:1', b''), ('b1:1', b'\xff'), ('b1:1', b'ab'), ('70:256,40:0', b'')]:
            yield case(rows, text, room)


def rooms():
    tables = [good(kind) for kind in sorted(KINDS)] + [
        ('70:256', b''), ('b1:0', b''), ('b0:255', b'r' * 255), ('d0:0', b''), ('d1:0', b''), ('f0.50:0', b''), ('d0:255,40:0*255', b''),
        ('f0.50:254,50:9*254', b''), ('d0:1*31,d0:0', b'')]
    for rows, text in tables:
        size = len(encode(LEVELS, table(rows), text))
        for room in sorted({0, size - 1, size, size + 1, size + 40}):
            yield case(rows, text, room)


# Tables from outside, with what their arrays tell put in (data/README.md): rows and text.
OUTSIDE = '''00:2,b3:1,f0.b3:2,b3:0,b3:14 3b4b18086d1821514f6040503c470e
d0:3,d1:0,f0.50:0,d1:2,00:2,83:18446744073709551487,b0:5,d1:0 0de777ef78
d1:2*31,f0.b3:2,b3:1*2,40:0*31 6162
d0:2,40:0,d0:1*28,f0.50:1,50:256 -
d0:3,40:0,f0.56:4,56:1*3,82:0,40:0 -
d0:3,40:0,f0.50:4,50:1*3,60:254,40:0 -
d0:3,40:0,f0.50:4,50:1*3,81:9223372036854775809,40:0 -
d0:3,40:0,f0.61:4,61:1*3,70:4294967168,40:0 -
d0:3,40:0,f0.61:4,61:1*3,74:4294967295,40:0 -
d0:3,40:0,f0.61:4,61:1*3,83:128,40:0 -
d0:3,40:0,f0.70:4,70:4294967168*3,56:1,40:0 -
d1:2,f0.94:3,94:0*2,94:18446744073709551615,d1:0 3eb5d94328033fdb0d44521da56f0a3692a35f0908102133e1b70ba1d20b0c519c280f88b887ddac6d811126718762c7
d0:1,d0:4,d0:0,94:0,d1:2,84:2,84:129,f0.71:2,71:18446744073709551615,71:127 50833368b1045fd1f597a85955ef9aa9
d1:2,84:1,d0:4,00:2,51:255,74:2147483647,f0.b0:3,b0:0,b0:8,b0:5,d0:2,f0.51:0,b1:18446744073709551615,b1:2 67bd93ee16d33b0bfcd786c085ecbfbfc398ed9fbf7f78
00:2,f0.74:2,74:2147483647,74:128,f0.98:3,98:0*3 7a01053ac3739aa2aa8b1dd4809bba95823512
d0:3,d0:0,f0.b0:4,b0:5,b0:17,b0:3,b0:1,d0:1,00:2,b1:4,70:4294967169 afa6e5828f807622
f0.82:2,82:0,82:128,47:9 -
d0:1,00:2*2,b3:3,81:129,f0.72:4,72:2297836246,49:3342357576,72:257,72:2331028581 1f3328
d0:5,40:0*4,f0.98:2,98:0*2 75*31
d0:3,51:255,f0.56:0,d0:0 -
f0.94:65408,94:0 f8edff101e5f416361bd67bc3feee4d4
d1:2,d1:4,d1:0,f0.60:0,f0.82:4,82:18446744073709551614,82:254,82:15575464539327449855,82:127,72:2147483647,d0:2,d0:1,d0:0,b1:0 -
d1:2,61:10374,f0.74:3,74:3891590565,74:4294967295,74:4294967168 78
d0:1,d0:4,d1:2,94:0,83:1,82:254,d1:2,f0.56:4,56:0,56:1*3,00:2,b3:1,d1:0*2,d1:2 e65a14532cbcbf231a58030af8826afb36
00:2,b3:2,f0.84:3,84:254,84:0,84:127 4f11
00:2,f0.82:2,82:257,82:9223372036854775807,72:0 0e1c34b97ab0eebf37cafdc20f4ffdf0
d0:2,f0.51:4,51:254*2,51:1,51:0,d1:2,80:129 -
d0:1*31,f0.50:1,00:2 -
f0.d0:2,d0:1,d1:4,d1:2,73:57344,98:0,d0:4,d1:0,b3:0,b0:1,d1:0,d0:2,84:2,60:65409,f0.61:0,d0:0 a5d35625e1e76ba2c65d790c3aeb1a339d
f0.d1:2,d1:2,50:256,40:0,d1:0 -
f0.d1:2,d1:2,50:1,40:1,d1:0 -
f0.d0:1,d0:2,b1:2,b3:1,d0:1,98:0 61626330313233343536373839616263646566
f0.d0:2,d0:2,b1:2,b3:1,d0:1,98:1 61626330313233343536373839616263646566
d0:3,40:0,f0.d0:1,d0:1048577,73:65,40:0 -
f0.f0:2,f0.d0:2,d0:0,d0:1,40:0,f0.d1:2,d1:0,d0:0 -
f0.d0:1,d0:1,80:36,f0.b1:1,b1:1 78
f0.d0:1,d0:1,00:2,80:36,00:1,b1:1 78
d1:2,b3:1,f0.d1:1,d1:2,45:1,f0.f0:1,f0.70:0 6b6b
00:2,b3:1,f0.50:1,00:1,f0.71:1,71:5 64
d1:2*31,f0.50:1,50:1,40:0*31 -
d1:2*30,f0.b3:2,b3:1*2,40:0*30 6162
d1:2*31,f0.d0:1,d0:1,40:0*32 -
f0.f0:1*28,f0.d0:1,d0:1048577 7a
f0.f0:1*30,f0.d1:1,d1:2,b1:3 7a
f0.d1:4,d1:2,d1:0,f0.82:1,f0.71:0,d1:0*3 -
d1:4,00:2,84:129,f0.83:3,83:0,83:255,83:1,61:65535,50:129,f0.84:3,84:1,84:8375120640443242807,84:9223372036854775807 -
00:2,f0.f0:4,f0.40:1,98:0,f0.f0:3,f0.72:0,f0.73:0,f0.74:0,f0.d0:4,d0:0*4,f0.d0:3,d0:0*2,83:18446744073709551489 031085eb05cffe67821ac718292eab02
f0.d1:4,d1:0*2,d1:2,b0:1,81:18446744073709551615,d1:2,d0:2,d0:0,d1:0,84:9223372036854775807 49
00:2*24,f0.56:4,56:1,56:0,56:1*2,40:0*9,40:2,40:0*14 -
f0.83:1,83:128,40:0 21
f0.98:3,98:0*3 e0f4a058f736576e72e8aa9686e97a70e0f4a058f736576e72e8aa9686e97a70e0f4a058f736576e72e8aa9686e97a
d0:2,d0:3,f0.50:4,50:128,50:129*3,d0:2,83:17814289153695980905,84:254,83:9223372036854775807 -
d1:2,f0.94:3,94:0*3,d1:0 3eb5d94328033fdb0d44521da56f0a3692a35f
d1:4,f0.56:2,56:0,56:18446744073709551615,d1:2,d0:0,40:0,b1:8,d1:0 efbfbfc3a961dfbf
d0:1,f0.56:4,56:18446744073709551615,56:0,56:1,56:0 -
d0:4,b0:1,d1:0,f0.b3:3,b3:1,b3:5,b3:0,60:32767 8f7a18412812
d0:1,00:2,f0.71:3,71:2147483649,71:256,71:4294967295,72:0,b1:2 -
d0:1*29,d1:4,d1:0,f0.60:1,60:32767,00:2,d0:2,f0.80:0,94:0,98:0,60:129 2cecf958d78086cfeda8ff9e04668d93aed2c4f4f8fa55402c5e7dd8dec0085e78
f0.b1:3,b1:3 7a7f78efbfbfdfbf
d1:2*2,51:255,d1:0,d0:4,f0.81:0,d0:0,b3:0,72:0 -
d1:2,f0.82:0,00:2,80:18446744073709551487,d0:3,d1:0,60:2,b0:4,80:129,00:2,50:129,d1:0 3b4080c3
d0:3,00:2,80:18446744073709551615,f0.94:2,94:0*2,d1:0*2 abc3f2cc6e86b82ff15e2e5931ec1db46dc652ac3afb5bbac1bbb5455062efe7
00:2,d0:0,d0:3,d0:2,f0.84:1,84:9223372036854775808,94:0,d1:126,00:2,d1:0,d0:1,d0:3,82:0,d0:0,51:129 f401159336cdd2a5490ae307b2508cba
f0.61:3,61:128*2,61:127,51:2 -
d1:2,d1:4,60:254,51:129,d0:0,50:1,f0.50:3,50:254,60:129,50:129,98:2 -
d1:4,f0.81:2,81:2,81:5641762444094944274,f0.61:3,61:127,61:32769,61:65535,d1:2,60:21064,d1:0*2 -
f0.b0:1,b0:2147483648 -
00:2*2,80:129,f0.51:4,51:127*2,51:255,51:128,d0:0 -
f0.f0:1,f0.f0:2,f0.50:1,50:7,61:129 -
f0.d0:2,d0:2,b1:2,d0:1,98:0 61626330313233343536373839616263646566
f0.d0:1,d0:1,00:2,80:36,f0.b1:1,b1:256 78
d1:2,b3:1,f0.d1:1,d1:1,b3:1,f0.f0:1,f0.83:0 6b6b
d1:2,b3:1,f0.d1:1,d1:2,b3:256,f0.f0:1,f0.84:0 6b6b
00:2,b3:1,f0.f0:1,f0.ffffffff:4294967295,f0.71:1,71:5 64
f0.f0:1*31,f0.51:1,51:0 7a
d0:3,b3:2,d1:4,00:2,80:1,f0.73:6,73:1114111,73:0,73:31469,73:1,b3:8,70:271949609,83:8601814336378872718,83:9223372036854775808 5d6a0a1b6a75383b0179
d1:4,d0:2,61:1,f0.d1:2,d1:2,b3:1,81:254,d1:0,d0:2,f0.f0:1*2,f0.94:0,00:2,80:15229241026779420994,d1:4,f0.98:0,84:255,40:0,61:65407,74:2147483647,72:2147483649 09'''


def outside():
    for line in OUTSIDE.split('\n'):
        rows, text = line.split(' ')
        yield case(rows, bytes_of(text))


def named_levels():
    for limit in NAMED:
        yield from levels(limit)
        yield from compound_levels(limit)


# Every refusal but 3, 7 and 8: rows and text.
FAULTS = [('-', b''), ('+40', b''), ('40:0,+40', b''), ('d0:1', b''), ('d0:2,40:0', b''), ('40:0*2', b''),
          ('ff:0', b''), ('140:0', b''), ('d0:2,40:0,ff:0', b''),
          ('f0.40:0', b''), ('f0.50:1,60:1', b''), ('f0.d0:2,d0:0,d1:0', b''), ('d0:1,f0.50:1,00:2', b''),
          ('40:1', b''), ('f0:0', b''), (f'f0.50:{MOST + 1}', b''), ('d0:2,40:0,d1:1', b''),
          ('b1:2', b'a'), ('b1:1', b'\xff'), ('d0:2,b3:1,b3:1', b'a\x80'), ('40:0', b'a'), ('98:0', b'')]
# Tables that can be written, of up to three levels.
GOOD = [('40:0', b''), ('70:256', b''), ('d0:1,40:0', b''), ('f0.50:1,50:7', b''), ('00:2,40:0,b1:2', 'Ø'.encode()), ('d0:1,f0.70:0', b''), ('f0.d0:1,d0:1,40:0', b'')]


def faults(limit):
    """They are at the same place within each limit; those of an output that is too short too."""
    for rows, text in FAULTS:
        yield case(rows, text, limit=limit)
    for rows, text in GOOD:
        size = len(encode(LEVELS, table(rows), text))
        for room in (0, size - 1, size):
            yield case(rows, text, room, limit)


def named_faults():
    for limit in (3, 16):
        yield from faults(limit)


def nests(depth):
    """Tables of so many levels."""
    inside = depth - 1
    yield from [f'd0:1*{inside},40:0', f'd1:2*{inside},40:0*{depth}', f'00:2*{inside},40:0*{depth}', f'd0:1*{inside},f0.50:0', f'f0.f0:1*{inside},f0.50:0']
    if inside:
        yield from [f'd0:1*{inside - 1},f0.50:1,50:7', f'f0.f0:1*{inside - 1},f0.50:1,50:7', f'd0:1*{inside - 1},f0.d0:1,d0:0']


def not_named():
    """Tables that each limit that may be named takes, those that only 32 takes, and those that none does; each refusal."""
    for limit in NOT_NAMED:
        for depth in (1, LEVELS, LEVELS + 1, LEVELS + 2):
            yield from (case(rows, limit=limit) for rows in nests(depth))
        yield from faults(limit)


def too_long():
    for kind in TEXTS:
        for length in (MOST - 5, MOST - 4, MOST):
            for room in (MOST - 1, MOST, MOST + 10):
                yield case(f'{kind:02x}:{length}', b'a' * length, room)
    for count in (MOST - 10, MOST - 9, MOST - 8, MOST):
        yield case(long_parent('d0', count, '40:0'), b'', MOST)
        yield case(long_parent('f0.50', count, '50:7'), b'', MOST)
    for count in (MOST - 10, MOST - 8):
        yield case(long_parent('d1', count, '40:0'), b'', MOST)
    # elements have a head of eight bytes, the array one of nine and the element code
    for count in (MOST - 19, MOST - 18, MOST - 17):
        yield case('f0.d0:1,' + long_parent('d0', count, '40:0'), b'', MOST)
        yield case('f0.f0:1,' + long_parent('f0.50', count - 1, '50:7'), b'', MOST)
        yield case(f'f0.d0:1,d0:1,b0:{count - 5}', b'a' * (count - 5), MOST)
    for length in (MOST - 14, MOST - 13):
        yield case(f'f0.b0:1,b0:{length}', b'a' * length, MOST)
    for kind, width in (('70', 4), ('80', 8)):
        for count in ((MOST - 10) // width, (MOST - 10) // width + 1):
            yield case(long_parent(f'f0.{kind}', count, f'{kind}:0'), b'', MOST)
    # an empty array among them also has its element code
    for row, length in (('d0:0', 8), ('d1:0', 8), ('f0.60:0', 9)):
        for count in ((MOST - 10) // length, (MOST - 10) // length + 1):
            yield case(long_parent(f'f0.{row[:2]}', count, row), b'', length * count)
    # all else comes before 7, and 7 before 8
    two = 'd0:2,b0:700000,b1:700000'
    yield case(two, b'a' * 1400000, 0)
    yield case(two, b'a' * 1399999 + b'\xff', MOST)
    yield case(two, b'a' * 1399999, MOST)
    yield case(two, b'a' * 1400001, MOST)
    yield case(two + ',40:0', b'a' * 1400000, MOST)
    yield case('d0:3,b0:700000*2,ff:0', b'a' * 1400000, MOST)
    yield case('d0:3,b0:700000*2,40:1', b'a' * 1400000, MOST)


def chains(root, outer, inner, count):
    """A table with so many compounds that are not empty: the root, and chains of two in it."""
    pairs, one = divmod(count - 1, 2)
    parts = [f'{outer},{inner}'] * pairs + [inner] * one
    return ','.join([f'{root}:{len(parts)}', *parts])


# Root, outer and inner of chains.
CHAINS = [('d0', 'd0:1', 'd0:1,40:0'), ('f0.d0', 'd0:1', 'd0:1,40:0'), ('d0', 'f0.f0:1', 'f0.50:1,50:1'), ('f0.f0', 'f0.f0:1', 'f0.50:1,50:1')]


def marks():
    """The writer keeps the sizes of up to 256 compounds beside the output."""
    for count in (255, 256, 257):
        for links in CHAINS:
            yield case(chains(*links, count))
    yield case(parent('f0.d1', 150, 'd1:2,40:0,d0:1,b0:2'), b'ab' * 150)
    yield case(parent('f0.d0', 100, 'd0:2,f0.50:2,50:1,50:2,f0.d0:1,d0:0'))
    yield case(','.join(['d0:10', *[f'f0.f0:1*{LEVELS - 3},f0.50:1,50:1'] * 10]))
    # empty arrays, alone and behind others
    for count in (255, 256, 257):
        yield case(long_parent('d0', count, 'f0.70:0'))
        yield case(long_parent('f0.f0', count, 'f0.70:0'))
        yield case(f"d0:2,{chains('d0', 'd0:1', 'd0:1,40:0', count - 2)},f0.b1:0")
        yield case(f"f0.f0:2,{chains('f0.f0', 'f0.f0:1', 'f0.50:1,50:1', count - 2)},f0.b1:0")


def big_limits():
    """The longest values, those that are too long, and more compounds than are kept, within other limits and such as may not be named."""
    for limit in (1, 16, *NOT_NAMED):
        for length, room in ((MOST - 5, MOST), (MOST - 5, MOST - 1), (MOST - 4, MOST)):
            yield case(f'b0:{length}', b'a' * length, room, limit)
    for limit in (3, 4, 16, 33):
        for links in CHAINS:
            yield case(chains(*links, 257), limit=limit)


def spoiled():
    """For each row of the table of 4.6 sequences that are cut off, and such as have a wrong byte in each place behind the first; then bytes that begin none."""
    for first, last, low, high, length in FORMS[1:]:
        for at in range(1, length):
            yield bytes([last, high, 0xbf][:at])
            for byte in (low - 1, high + 1) if at == 1 else (0x7f, 0xc0):
                yield bytes([first, low, 0x80][:at] + [byte] + [0x80] * (length - at - 1))
    yield from map(bytes.fromhex, ['80', 'bf', '8080', 'c080', 'c1bf', *[f'{first:02x}808080' for first in range(0xf5, 0x100)]])


SPOILED = list(spoiled())
# What may stand before a fault: nothing, sequences of each length, and as many bytes as are checked at once, more and fewer.
BEFORE = [b'', b'a', 'Ø'.encode(), '€'.encode(), '\U0001f600'.encode(), 'aØ€\U0001f600'.encode(), b'a' * 15 + 'Ø'.encode(), b'a' * 16, b'a' * 32 + '€'.encode()]
LENGTHS = (1, 15, 16, 17, 31, 32, 33, 100, 254, 255, 256, 300)
FEW = [bytes.fromhex(text) for text in ('80', 'c328', 'e28241', 'f09f98')]
UUID = bytes(range(0xf0, 0x100))


def fault_bytes():
    """Each of them alone, with good text behind it, and behind good text."""
    for i, bad in enumerate(SPOILED):
        before = BEFORE[i % len(BEFORE)]
        for text in (bad, before + bad + b'z'):
            yield case(f'b1:{len(text)}', text)
        # what is wrong in a string is not in the binary before it; an array's string is held to the same
        yield case(f'd0:2,b0:{len(bad)},f0.b1:2,b1:{len(before)},b1:{len(bad)}', bad + before + bad)


def fault_places():
    """The same faults behind more and more bytes, and good sequences of each length; the first, a middle and the last byte."""
    for bad in FEW:
        for before in [b'a' * length for length in LENGTHS] + [letter.encode() * times for letter in 'Ø€\U0001f600' for times in (1, 5, 20)]:
            yield case(f'b1:{len(before + bad)}', before + bad)
    for length in LENGTHS:
        for text in (b's' * length + b'\x80', b's' * length + b'\xc3\x98' + b's' * 20):
            yield case(f'b3:{len(text)}', text)
    for at in (0, 20, 39):
        for byte in (b'\x80', b'\xc3', b'\xff'):
            text = b't' * at + byte + b't' * (39 - at)
            yield from (case(f'{kind}:40', text) for kind in ('b0', 'b1', 'b3'))
            yield case('d0:2,b1:40,b3:40', text.replace(byte, b't') + text)


def fault_before():
    """All bytes of the rows before count: those of every kind of row that has text, empty ones too; rows without text count for nothing."""
    behind = [('98:0', UUID), ('94:0', UUID), ('b0:3', b'\xff\x80a'), ('b1:2', 'Ø'.encode()), ('b3:2', b'sy'), ('b1:0', b''), ('b0:0', b''), ('40:0', b'')]
    for (row, text), (other, more) in zip(behind, behind[1:] + behind[:1]):
        for kind, bad in (('b1', b'a\xe2\x82'), ('b3', b'a\x80')):
            last = f'{kind}:{len(bad)}'
            yield case(f'd0:2,{row},{last}', text + bad)
            yield case(f'd0:4,{row},{other},{last},40:0', text + more + bad)
            yield case(f'd1:4,{row},{last},{other},{last}', text + b'abc'[:len(bad)] + more + bad)
    yield case('f0.98:2,98:0*2', UUID * 2)
    yield case('d0:4,f0.98:2,98:0*2,f0.94:1,94:0,b1:0,f0.b1:2,b1:1*2', UUID * 3 + b'a\xbf')
    yield case('d0:9,b1:0*8,b1:1', b'\x80')
    yield case('d0:9,b1:1*8,b1:1', b'a' * 8 + b'\x80')


def fault_split():
    """A sequence over two rows: of two strings it is the first that is bad, at the sequence's first byte."""
    for letter in 'Ø€\U0001f600':
        text = letter.encode()
        for at in range(1, len(text)):
            one, other = at + 1, len(text) - at
            for rows in (f'd0:2,b1:{one},b1:{other}', f'd0:2,b0:{one},b1:{other}', f'd0:2,b3:{one},b1:{other}', f'd0:2,b1:{one},b0:{other}',
                         f'f0.b1:2,b1:{one},b1:{other}', f'd0:3,b1:1,b1:{at},b1:{other}'):
                yield case(rows, b'a' + text)


def fault_short():
    """Too short comes before bad and has the row as its place; bad before what is too short, or left, behind it."""
    for rows, text in [('b1:3', b'\xff'), ('b1:3', b'a\xff'), ('b3:3', b's\x80'), ('b1:2', b'\xe2'), ('d0:2,b1:1,b1:3', b'a\xff'), ('d0:2,b1:1,b1:3', b'\xffab'),
                       ('d0:2,b1:3,b1:3', b'aa\xffab'), ('d0:2,b1:3,98:0', b'aa\xffab'), ('d0:2,b3:3,b0:9', b'aa\xffab'), ('d0:3,b1:0,b1:0,b1:2', b'\xff'),
                       ('f0.b1:3,b1:1*2,b1:4', b'ab\xff'), ('f0.b1:3,b1:1,b1:2,b1:4', b'aa\xff'), ('f0.d0:1,d0:2,b1:4,b1:9', b'aaa\xc3\x98'),
                       ('b1:3', b'aa\xffab'), ('b1:3', b'aab\xff'), ('d0:2,b1:3,40:0', b'aa\xff\xff'), ('d0:2,b1:3,b1:0', b'aab\xff'), ('d0:1,b3:0', b'\xff')]:
        yield case(rows, text)
        yield case(rows, text, 0)


# Where a text may stand, behind four bytes of text: `@` is its row. They have up to six levels.
SPOTS = ['d0:2,b0:4,@', 'd0:3,b0:4,@,40:0', 'd1:2,b3:4,@', 'd1:4,b3:4,40:0,@,40:0', '00:2,b0:4,@', 'd0:2,b0:4,00:2,@,40:0', 'd0:2,b0:4,00:2,80:1,@', 'd0:2,b0:4,f0.@:1,@',
         'd0:3,40:0,b0:4,f0.@:1,@', 'f0.@:2,@4,@', 'f0.@:4,@4,@0,@0,@', 'f0.f0:2,f0.@:1,@4,f0.@:1,@', 'f0.f0:1,f0.@:2,@4,@', 'f0.d0:1,d0:2,@4,@', 'f0.d0:2,d0:1,@4,d0:1,@',
         'f0.d1:1,d1:2,@4,@', 'f0.d1:2,d1:2,@4,40:0,d1:2,@,40:0', 'f0.f0:1,f0.d0:1,d0:2,@4,@', 'f0.d0:1,d0:2,@4,00:2,40:0,@', 'f0.d0:1,d0:2,@4,f0.d1:1,d1:2,40:0,@']


def placed(spot, kind, length):
    """The rows of a spot, with a text of that kind and length."""
    return re.sub(r'@(\d?)', lambda found: f'{kind}:{found[1] or length}', spot.replace('.@', f'.{kind}'))


def fault_spots():
    for i, spot in enumerate(SPOTS):
        for kind, bad in (('b1', b'\xc3'), ('b1', b'ab\xf0\x90\x80'), ('b3', b'abc\x80d')):
            text = b'good' + bad
            yield case(placed(spot, kind, len(bad)), text, limit=(LEVELS, 16)[i % 2])
    for spot in SPOTS:
        yield case(placed(spot, 'b1', 4), b'good' + '\U0001f600'.encode())


def fault_order():
    """A bad text and another refusal, before it and behind it."""
    for other in ('ff:0', '40:1', 'f0.40:0', 'f0.50:1,60:1', 'f0:0', 'd1:1', 'b1:1048577', '98:1', 'd0:9'):
        for rows in (f'd0:3,b1:2,{other},b1:3', f'd0:3,b1:2,b1:3,{other}', f'f0.d0:2,d0:2,b1:2,{other},d0:1,b1:3', f'f0.d0:2,d0:2,b1:2,b1:3,d0:1,{other}'):
            yield case(rows, b'okab\x80')
    for rows, text in [('d0:2,b1:2,b3:2', b'a\xffb\xff'), ('d0:2,b3:2,b1:2', b'a\xffb\xff'), ('f0.b1:2,b1:2*2', b'a\xff\xffb'), ('d0:2,b1:2,b1:2', b'ab\xff\xff'),
                       ('b1:3,40:0', b'aa\xff'), ('d0:2,b1:3', b'aa\xff'), ('b1:3,+40', b'aa\xff'), ('f0.b1:2,b1:3,b3:1', b'aa\xffa'), ('f0.b1:2,b3:3,b1:1', b'aa\xffa'),
                       ('f0.50:1,b1:3', b'aa\xff')]:
        yield case(rows, text)
    for room in (0, 6, 7, 8):
        yield case('b1:5', b'abc\xc3\x98', room)
        yield case('b1:5', b'abc\xc3x', room)


def fault_levels():
    """A bad text at a limit's last level, and one beyond it."""
    for limit in (1, 2, 16, LEVELS):
        for depth in (limit - 1, limit):
            yield case(','.join(['d0:2'] * depth + ['b1:3'] + ['40:0'] * depth), b'aa\x80', limit=limit)
            yield case(','.join(['d0:2,b0:2'] * depth + ['b3:1']), b'aa' * depth + b'\x80', limit=limit)
            if depth:
                yield case(f'f0.f0:1*{depth - 1},f0.b1:2,b1:3*2', b'abcab\xc3', limit=limit)
                yield case(','.join(['f0.d0:1,d0:1'] * (depth // 2) + ['d0:1'] * (depth % 2) + ['b1:3']), b'ab\xc3', limit=limit)
    for limit in NOT_NAMED:
        yield case('b1:3', b'ab\xc3', limit=limit)


def fault_far():
    """Behind as much text as a table may have, and more."""
    for kind, bad in (('b1', b'\xe2\x82'), ('b3', b'\x80')):
        for length in (MOST, MOST - 5):
            yield case(f'{kind}:{length}', b'a' * (length - len(bad)) + bad, MOST)
            yield case(f'{kind}:{length}', bad + b'a' * (length - len(bad)), MOST)
        yield case(f'd0:4,b0:1000000*3,{kind}:3', b'\xff' * 3000000 + b'aaa'[len(bad):] + bad, MOST)


SMALL = [
    ('worked examples', worked), ('examples/order.amqp', example), ('1: rows amiss', rows_amiss), ('2: kinds unknown', kinds_unknown),
    ('3: levels', levels),
    ('4: elements unfit', elements_unfit), ('arrays of every kind', elements), ('5: numbers and their short forms', numbers),
    ('6: texts and their lengths', texts), ('6: sequences of UTF-8', sequences), ('bodies and counts', bodies),
    ('arrays of lists, maps and arrays', compounds), ('their bodies and counts', compound_bodies), ('their levels', compound_levels),
    ('their refusals', compound_faults), ('their rooms', compound_rooms),
    ('described values', described), ('the order of refusals', order), ('8: rooms', rooms), ('worked examples of arrays of lists, maps and arrays', worked_nested),
    ('4 and 5: what an array tells', told_kinds), ('empty arrays of every kind', told_empty), ('their bodies', told_bodies),
    ('the order of refusals at what an array tells', told_order), ('tables from outside', outside),
    ('3: levels within other limits', named_levels), ('other refusals within other limits', named_faults),
    ('15: limits that may not be named', not_named),
    ('6: the byte of a fault', fault_bytes), ('behind more and more bytes', fault_places), ('behind rows of every kind with text', fault_before),
    ('a sequence over two rows', fault_split), ('too short and bad', fault_short), ('wherever a text may stand', fault_spots),
    ('bad text and other refusals', fault_order), ('bad text at the last levels', fault_levels)]
BIG = [('7: too long', too_long), ('more compounds than are kept beside the output', marks), ('7, 15 and more compounds within other limits', big_limits), ('6: far behind', fault_far)]

if __name__ == '__main__':
    store('own_write.txt', SMALL)
    store('own_write_big.txt', BIG)
