#!/usr/bin/env python3
"""own_read.py: writes data/own_read.txt and data/own_walk.txt, cases for every refusal and limit of the reader, and of the walker.

The bytes are chosen here, by docs/FORMAT.md, sections 4, 5 and 7; some are from outside. The answers are those of read_model.py.
Where nothing else is said a case names the level limit 32.
"""
import sys

sys.dont_write_bytecode = True
from form import bytes_field, bytes_of, store
from model import LEVELS, Refused
from own import BEFORE, FEW, LENGTHS, NAMED, NOT_NAMED, SPOILED
from read_model import CODES, ELEMENT_CODES, measure, read, step, walk

REFUSED_ROOM = 4        # words and bytes of text lent where the bytes are refused


def case(data, words=None, letters=None, limit=LEVELS):
    """A line, with exactly enough room where no other is asked."""
    try:
        v = measure(limit, data)
        exact = 2 * len(v.rows), len(v.text)
    except Refused:
        exact = REFUSED_ROOM, REFUSED_ROOM
    words, letters = exact[0] if words is None else words, exact[1] if letters is None else letters
    return ' '.join([str(limit), bytes_field(data), str(words), str(letters), read(limit, data, words, letters)])


def hexes(*lines):
    return map(case, map(bytes.fromhex, lines))


def fields(width, count, body):
    """Size and count, and the body behind them."""
    return (width + len(body)).to_bytes(width, 'big') + count.to_bytes(width, 'big') + body


def payload(code):
    """A good payload of a code."""
    kind, layout, n = CODES[code]
    if layout == 'described':
        return b'\x40\x45'
    if layout == 'compound':
        return fields(n, 2, b'\x40\x41')
    if layout == 'array':
        return fields(n, 2, b'\x50\x01\x02')
    if layout == 'constant':
        return b''
    if layout == 'small':
        return b'\x80'
    if layout == 'sized':
        return (3).to_bytes(n, 'big') + b'abc'
    return (0).to_bytes(n, 'big') if kind in (0x56, 0x73) else bytes(range(n))


def good(code):
    return bytes([code]) + payload(code)


def listed(*values):
    """A list of those values, in the short form."""
    return b'\xc0' + fields(1, len(values), b''.join(values))


def arrayed(code, *payloads):
    """An array of those payloads of a code, in the short form."""
    return b'\xe0' + fields(1, len(payloads), bytes([code]) + b''.join(payloads))


def every_code():
    """All 256 first bytes; each good value whole, cut short at every place, and with a byte behind it."""
    for code in range(256):
        if code not in CODES:
            yield case(bytes([code]))
            continue
        for length in range(len(good(code)) + 1):
            yield case(good(code)[:length])
        yield case(good(code) + b'\xff')


def numbers():
    for byte in (0x00, 0x7f, 0x80, 0xff):
        yield from map(case, (bytes([0x54, byte]), bytes([0x55, byte]), bytes([0x56, byte]), bytes([0x52, byte]), bytes([0x53, byte])))
    yield from hexes('5600', '5601', '5602')
    for n in (0, 0x41, 0xd7ff, 0xd800, 0xdfff, 0xe000, 0x10ffff, 0x110000, 0xffffffff):
        yield case(b'\x73' + n.to_bytes(4, 'big'))


def texts():
    for text in ('7f', '80', 'bf', 'c0af', 'c1bf', 'c27f', 'c280', 'c2bf', 'dfbf', 'e09fbf', 'e0a080', 'e18080', 'ecbfbf', 'ed9fbf', 'eda080',
                 'ee8080', 'efbfbf', 'f08fbfbf', 'f0908080', 'f1808080', 'f3bfbfbf', 'f48fbfbf', 'f4908080', 'f5808080', 'ff',
                 'c2', 'e0a0', 'f09080', '78c3c398', '61c3986261'):
        b = bytes.fromhex(text)
        for code in (0xa0, 0xa1, 0xa3):
            yield case(bytes([code, len(b)]) + b)
    for length in (0, 1, 15, 16, 17, 31, 32, 33, 254, 255):
        yield case(bytes([0xa1, length]) + b'a' * length)
        yield case(bytes([0xa3, length]) + b'a' * length)
        yield case(b'\xb1' + length.to_bytes(4, 'big') + b'a' * length)
        if length:
            yield case(bytes([0xa1, length]) + b'a' * (length - 1) + b'\x80')
            yield case(bytes([0xa1, length]) + b'a' * (length - 1))


def sizes():
    yield from hexes('c000', 'c001', 'c00100', 'c0010040', 'c00101', 'c0020140', 'c0020040', 'c0030140', 'c003014040', 'c1020140', 'c103024040',
                     'c10101', 'c10102', 'd000000003', 'd000000004', 'd00000000300000000', 'd00000000400000000', 'd000000005000000', 'd10000000400000001',
                     'd0ffffffff00000000', 'd000000006ffffffff4040', 'c006ff4040404040', 'c006c0020140', 'c00601c0020240')


def arrays():
    for code in CODES:
        for count in (0, 1, 2):
            items = payload(code) * count
            body = bytes([code]) + items
            yield case(b'\xe0' + fields(1, count, body))
            yield case(b'\xf0' + fields(4, count, body))
            if items:
                yield case(b'\xe0' + fields(1, count, body[:-1]))
                yield case(b'\xe0' + fields(1, count, body + b'\x00'))
    yield from hexes('e0', 'e000', 'e001', 'e00100', 'e00101', 'e0020146', 'e0020140', 'e003004640', 'e003004040', 'e003007046', 'e00403560201', 'e00401560201',
                     'e00200a1', 'e006ff5001020304', 'f00000000600ffffff5001')


# The codes of lists, maps and arrays.
COMPOUNDS = [code for code, (kind, layout, n) in CODES.items() if layout in ('compound', 'array')]
# An array of maps: an array of lists is in the first, an array of arrays and a described value are in the second.
NESTED = arrayed(0xc1, fields(1, 2, b'\x43' + arrayed(0xc0, fields(1, 0, b''), fields(1, 2, b'\xa1\x01k\x56\x01'))),
                 fields(1, 4, b'\x00\x44\x45' + arrayed(0xe0, fields(1, 1, b'\x73\x00\x00\x00A'), fields(1, 0, b'')) + b'\x40\x45'))


def compounds():
    """Arrays of every code of a list, map or array: empty elements, and elements that hold something."""
    for code in COMPOUNDS:
        kind, layout, n = CODES[code]
        empty, full = fields(n, 0, b''), payload(code)
        yield from (case(arrayed(code, *items)) for items in ((empty,), (empty, full), (full, empty), (empty, full, empty)))
        yield case(b'\xf0' + fields(4, 2, bytes([code]) + empty + full))
        yield case(listed(b'\x40', arrayed(code, full, full), b'\x40'))
        # a size below its field, one beyond the array's body, a count with no values, bytes left in an element, half a field
        zeros = bytes(n)
        for item in (zeros, (n - 1).to_bytes(n, 'big') + zeros, (n + 1).to_bytes(n, 'big') + zeros, fields(n, 1, b''), fields(n, 0, b'\x40'),
                     fields(n, 2, b'\x50\x01'), fields(n, 3, b'\x50\x01'), empty[:-1], full + b'\x00'):
            yield case(listed(b'\x40', arrayed(code, item)) + b'\x00\x00\x00\x00')
            yield case(arrayed(code, full, item))
    # arrays in arrays, three deep, with elements of different codes; an element code alone
    for inner in (0x50, 0x52, 0x56, 0xa1, 0xb1, 0x94, 0xc0, 0xd1, 0xe0, 0xf0, 0x40, 0x00, 0x45, 0x46):
        items = payload(inner) if inner in CODES else b''
        yield case(arrayed(0xe0, fields(1, 0, b''), fields(1, 1, bytes([inner]) + items), fields(1, 0, bytes([inner]))))
        yield case(listed(b'\x40', arrayed(0xf0, fields(4, 1, b'\xe0' + fields(1, 1, bytes([inner]) + items)))))
    yield from hexes('e00702c00201460501', 'e00200c0', 'e00300c000', 'e00300d1d1', 'c0090240e00501c0020146', 'e00a01c0070240e003015602', 'e006ffc001000100',
                     'f00000000600ffffffc00100', 'e00402c00102', 'e00402f00102', 'c00a0240e00601d000000000', 'e00a01f0' + '00' * 8, 'e01301f0' + '00' * 17,
                     'f00000001500000002c0' + '00' * 16, 'f00000002700000002c0' + '00' * 34, 'f00000000700000002c10101', 'f00000000700000002c10100',
                     'f00000001500000002c1' + 'ff' * 16, 'f00000000d00000002d0' + '00' * 8, 'f00000001700000002d0' + '00' * 18, 'f00000000700000002d10000',
                     'f00000000900000002d101610161', 'f00000000900000002e000000000', 'f00000000f00000002e0' + '00' * 10, 'f00000000500000000e0')
    yield case(b'\xf0' + fields(4, 300, b'\xc0' + b'\x01\x00' * 300))
    yield case(b'\xf0' + fields(4, 2, b'\xd0' + fields(4, 300, b'\x40' * 300) + fields(4, 0, b'')))


def compound_faults():
    """Each byte of an array of compounds changed, and the array cut short, behind a null in a list: the place is the array's."""
    for i in range(len(NESTED)):
        for byte in (0x00, 0x46, NESTED[i] ^ 1):
            data = NESTED[:i] + bytes([byte]) + NESTED[i + 1:]
            if data != NESTED:
                yield case(listed(b'\x40', data))
    for length in range(0, len(NESTED), 4):
        yield case(listed(b'\x40', NESTED)[:4 + length])
        yield case(listed(b'\x40', NESTED[:length]))
    yield case(NESTED)
    yield case(b'\x00\x40' + NESTED)
    yield case(b'\xc1' + fields(1, 2, NESTED + NESTED))


def compound_levels(limit=LEVELS):
    """Arrays in arrays, and lists in arrays in lists, to the last level of a limit."""
    ends = [(0x50, b'\x07'), (0xc0, fields(1, 0, b'')), (0xc0, fields(1, 1, b'\x40')), (0xc0, b'\x01\x01'), (0xc1, b'\x01\x01'), (0xc1, b'\x01\x02'),
            (0xe0, fields(1, 0, b'')), (0xe0, fields(1, 0, b'\x50')), (0xe0, b'\x01\x01'),
            (0xe0, fields(1, 1, b'\x50\x07')), (0xe0, fields(1, 1, b'\x46')), (0x46, b''), (0x40, b'')]
    for depth in (limit - 2, limit - 1, limit):
        for code, items in ends:
            for _ in range(depth - 1):
                code, items = 0xe0, fields(1, 1, bytes([code]) + items)
            yield case(arrayed(code, items), limit=limit)
            if depth == limit - 2:
                yield case(listed(b'\x40', arrayed(code, items)), limit=limit)
    for depth in (limit // 2 - 1, limit // 2, limit // 2 + 1):
        data = b'\x40'
        for _ in range(depth):
            data = arrayed(0xc0, fields(1, 1, data))
        yield case(data, limit=limit)
        yield case(listed(data), limit=limit)


def levels(limit=LEVELS):
    """A limit's last level and the one beyond it, by described values and by lists."""
    for n in (limit - 2, limit - 1, limit, limit + 1):
        for data in (b'\x00' * n, b'\x00' * n + b'\x40\x40', b'\x00' * n + b'\x40' * (n + 1)):
            yield case(data, limit=limit)
    for depth in (limit - 2, limit - 1):
        inner = (b'\x40', b'\x45', b'\xc0\x01\x00', b'\xc0\x02\x01\x40', b'\xc1\x01\x01', b'\xc1\x01\x02', b'\xe0\x01\x00', b'\xe0\x02\x00\x50',
                 b'\xe0\x03\x01\x50\x07', b'\xe0\x01\x01', b'\x46', b'')
        for data in inner:
            for _ in range(depth):
                data = bytes([0xc0, len(data) + 1, 1]) + data
            yield case(data, limit=limit)


def told():
    """What an array tells, and what it does not: each element code in arrays that stand alone and in arrays in arrays, with and without elements."""
    for code in ELEMENT_CODES:
        alone, one = bytes([code]), bytes([code]) + payload(code)
        for width, inner in ((1, 0xe0), (4, 0xf0)):
            empty, full = fields(width, 0, alone), fields(width, 1, one)
            yield case(bytes([inner]) + empty)
            yield case(arrayed(inner, empty))
            yield case(arrayed(inner, full, empty, fields(width, 0, b'')))
            yield case(b'\xf0' + fields(4, 2, bytes([inner]) + empty + full))
        yield case(listed(b'\x40', arrayed(code), b'\x00' + arrayed(code) + arrayed(code, payload(code))))
        yield case(arrayed(0xc1, fields(1, 2, b'\xf0' + fields(4, 0, alone) + arrayed(code))))
    yield case(b'\xf0' + fields(4, 1, b'\xf0' + fields(4, 300, b'\x50' + b'\x07' * 300)))
    for width, inner in ((1, 0xe0), (4, 0xf0)):
        untold = fields(width, 0, b'')
        row = bytes([inner]) + untold
        for data in (row, listed(row), listed(b'\x40', row, b'\x40'), b'\xc1' + fields(1, 2, row + b'\x40'), b'\xc1' + fields(1, 2, b'\x40' + row),
                     b'\x00' + row + b'\x40', b'\x00\x40' + row, b'\x00' + row + row, arrayed(inner, untold), arrayed(inner, untold, untold),
                     arrayed(inner, untold, fields(width, 0, b'\x70')), arrayed(inner, fields(width, 0, b'\x52'), untold),
                     arrayed(inner, fields(width, 1, b'\x52\x01'), untold, fields(width, 2, b'\xa1\x00\x00')), arrayed(0xc0, fields(1, 1, row)),
                     arrayed(0xd1, fields(4, 2, row + row)), arrayed(0xe0, fields(1, 1, bytes([inner]) + untold)),
                     arrayed(0xf0, fields(4, 1, bytes([inner]) + untold))):
            yield case(data)
            yield case(data[:-1])


def told_levels(limit=LEVELS):
    """Empty arrays at the last levels of a limit: in lists, and in arrays of both widths."""
    for depth in (limit - 2, limit - 1, limit):
        for width, inner in ((1, 0xe0), (4, 0xf0)):
            for body in (b'', b'\x52', b'\xf0', b'\xc1', b'\x40', b'\x46', b'\x52\x52'):
                data = bytes([inner]) + fields(width, 0, body)
                code, items = inner, fields(width, 0, body)
                for _ in range(depth):
                    data, code, items = listed(data), 0xe0, fields(1, 1, bytes([code]) + items)
                yield case(data, limit=limit)
                yield case(bytes([code]) + items, limit=limit)


def rooms():
    """13 before 14; a lone last word is room for no row."""
    data = bytes([0xc0, 1 + 4 + 3, 2]) + bytes.fromhex('a1026162') + bytes.fromhex('a30163')
    for words in (0, 1, 4, 5, 6, 7, 8):
        for letters in (0, 2, 3, 4):
            yield case(data, words, letters)
    yield case(b'\x40', 0, 0)
    yield case(b'\x40', 1, 0)
    v = measure(LEVELS, NESTED)
    for words in (0, 2 * len(v.rows) - 1, 2 * len(v.rows), 2 * len(v.rows) + 3):
        for letters in (0, len(v.text), len(v.text) + 3):
            yield case(NESTED, words, letters)


# Bytes from outside (data/README.md).
OUTSIDE = '''c00a0240e006017100000000 e0050351fe01fe e0050354ff00ff 0040e00e03730000007f0000e0000000e0000040e00e03730000007f0000e0000000e000
c0290200a30123f00000000d0000000272ffffff8180000000f00000000d0000000460000000817fff800140 e0120472ffffff7f000000000000007f000000fe40 e0080361737fffff007f
f00000002800000004b00000000282060000000833c3a1e22d1bb0d600000004e8a00e93000000053e8eea2886 c01403e00a027400000100fffffffe72fffffffe5601
c12102e01502a10178107f00e18080e0a080e282acf48080807881,ff*8,0000
c14904c11302a002f4fd00b3000000036d687c71000000fff00000000800000003560101018200000000000000ff00a306024c71220e44c11204c00100a30129c00100a3067c297f4c743e
e00e037100500001fffffffe80440000 f00000000f00000003a005bc98f0b83b02eb2200
00a3054763007a0dc02f01c12c02c11e02820000000000000002e01202830000000000000080ffffffffff99fffe00005301e0020072c10100
d00000002100000002007100000080e00601748000000000a303430d0480ffffffffffffffc0
f0000000350000000394ccc2430f42d11da5c4da9564e48194071a0fbd03367b0e1552d41cf6cebd44401df715f7b8eb6235ae4493ac89ffb691 c00a0240e006017400000000
e005035302fd02 e0050355807f80 00e006045600010000f00000000700000002507db3
00800000000000000024f00000001d00000003d0000000040000000000000004000000000000000400000000 e00e01e00b01e00803c0010001000100
f00000003c00000001d1000000330000000240f00000002900000003d0000000040000000000000010000000027000000000b100000002c3a90000000400000000
d10000003a0000000240f00000003000000003d000000004000000000000001700000002d00000000400000000d00000000500000001400000000400000000
d1000000170000000240f00000000d00000001d10000000400000000 00f00000001d00000003d100000004000000000000000400000000000000040000000040
f00000003100000001f00000002800000001f00000001f00000003d10000000400000000000000060000000240400000000400000000 c00f0340e00901c10602a3017652025601
f00000002100000001f00000001800000001d10000000f00000002b300000001767000000002
00f00000002300000001d10000001a000000045001d100000004000000005002d0000000040000000040 e01501c1120240e00e01c10b045001c101005002c00100 c1090240e00501e0020052
00e00b03e002005202007002005240 c0190340e01303e00200520a0270000000010000012c0200705601
f00000003b00000001d1000000320000000240f00000002800000003f00000000500000000520000000d0000000270000000010000012c000000050000000070
d00000003c0000000340f00000003100000003f00000000500000000520000001600000002d0000000040000000000000005000000014000000005000000005241
f00000001e00000001f000000015000000028400000000000000800000000000000080 e02701e02402e01002e006026054a054a006026054a054a01002e006026054a054a006026054a054a0
e01002e00200f00a01e00701e00402520101
e04303e01a02e00b03e00200820200820200820b03e002008202008202008222029863cf26af38d64fe910c7b9fb08352d2063cf26af38d64fe910c7b9fb08352d200200e0
e01802e00a01e00701a304155e62070a01e00701e00402560101 00*30,f0000000050000000050,40*30 00*29,f000000006000000015001,40*29 00*29,e00602a301610162,40*29
0043f00000000500000000e0 c00e0240e00a01d00000000400000000 f00000002400000001d00000001b0000000240e01402d0000000040000000000000006000000015001
f00000001c00000001d0000000130000000240e00c01c00905404540a302617f40
f00000002900000001d0000000200000000240f00000001600000002d00000000400000000000000050000000145 e01b02f00000000d0000000274000000ff800000010000000400000000
e01e02c1150472000000a174800000004083ffffffffffffff81050251815101 e02704b00000000000000002a95a00000009e0fec1ed869b9e95a20000000a64e57cfca162ae3eeb17
e03c03e02b01d10000002500000002f00000001300000001f00000000a00000002e001000200838000000000000000020200610a018000000000000000fe f0000000080000000351028081
00d10000004100000004f00000000d00000004c00100010001000100c11e04945cdd0b650d033ea9f28ffd308e85f93ed0000000040000000040508051fed1000000040000000000b3000000012d42
f00000002600000002d100000004000000000000001500000002b00000000542dec3366be00503507ffe01
f0000000250000000483800000000000000701,ff*8,6d29ced16759d50a00000000000000ff
f00000003600000003e01402f00000000500000000f00000000500000000551202d1000000040000000000000004000000000803c0010001000100
c03803e00503510000fff00000002200000001c01c02a30808144f5a3f1e63589463107b803ec55cb085efcb708bf88fecd10000000400000000
d00000002c00000004807fffffffffffffff5000e012028000000000000000018000000000000000840000000000000100
d0000000380000000381000000000000c300f00000001d00000003d10000000400000000000000040000000000000004000000000061ffff70ffffff80
00a3015d000080,ff*8,e0060261ff81ffff94ab72bd3de3dd8d4091994a354769d402
e04501c04201e03f01c03c01e03901c03601e03301c03001e02d01c02a01e02701c02401f00000001e00000001c01801e01501c01201e00f01c00c01f0000000060000000151ed
e00e0370350ff5c080000000000000fe f0000000110000000374000000fe000000ff00000001 c01303d10000000400000000b100000000e0020084
c02904d10000000400000000a0029b20b000000000f00000001100000003a105e0a0807878017803787a78
d00000003800000004941c65b06c94a5cdf979a7c770c294a621c10c0250fff00000000400000000c10100c01004e00100f00000000500000000944541c940
d10000003800000004507ff0000000250000000484ffffffffffffff7f0000000000000101fffffffffffffffe0000000000000080c00100e003015002
c01e028000000000000000fee0120283ffffffffffffff7f0000000000000080 e01801c01504810000000000000002600101747fffffffc00100'''


def outside():
    yield from map(case, map(bytes_of, OUTSIDE.split()))


def named_levels():
    for limit in NAMED:
        yield from levels(limit)
        yield from compound_levels(limit)
    for limit in (1, 16):
        yield from told_levels(limit)


# Every refusal but 3, 13 and 14.
FAULTS = [bytes.fromhex(data) for data in (
    '', 'c0', 'c0020252', 'c00101', 'e0020150', '0040', '50', '46', 'c0020146', 'e0020146', 'e0030146ff', '5602', '730000d800', 'a101ff', 'a30180',
    'e003015602', 'c00601a103c398c3', 'c000', 'c0030140', 'c003014040', 'c1020140', 'd000000003', 'e00402500102ff', 'e0020140', 'e0020045', 'e003010040')]
TEXT = b'\xa1\x02ab'


def faults(limit):
    """They are at the same place within each limit; those of rooms that are too small too."""
    for data in FAULTS:
        yield case(data, limit=limit)
    for words, letters in ((0, 0), (1, 2), (2, 1), (2, 2), (3, 3)):
        yield case(TEXT, words, letters, limit)


def named_faults():
    for limit in (3, 16):
        yield from faults(limit)


def mapped(value):
    return b'\xc1' + fields(1, 2, value + b'\x40')


def described(value):
    return b'\x00' + value + b'\x40'


def below(parent, depth, value):
    """A value below so many parents."""
    for _ in range(depth):
        value = parent(value)
    return value


def nests(depth):
    """Values of so many levels."""
    for parent in (listed, mapped, described):
        for value in (b'\x40', b'\x45', b'\xe0\x01\x00', b'\xe0\x02\x00\x50'):
            yield below(parent, depth - 1, value)
    for value in (arrayed(0x50, b'\x07'), arrayed(0xc0, b'\x01\x00'), arrayed(0xe0, b'\x02\x00\x70')) if depth > 1 else ():
        yield below(listed, depth - 2, value)


def not_named():
    """Values that each limit that may be named takes, those that only 32 takes, and those that none does; each refusal."""
    for limit in NOT_NAMED:
        for depth in (1, LEVELS, LEVELS + 1, LEVELS + 2):
            yield from (case(data, limit=limit) for data in nests(depth))
        yield from faults(limit)


def sized(width, text):
    """A text with its length, as it stands behind a code."""
    return len(text).to_bytes(width, 'big') + text


def string(text):
    """A string in the form that the writer would choose."""
    return b'\xa1' + sized(1, text) if len(text) < 255 else b'\xb1' + sized(4, text)


def symbol(text):
    return b'\xa3' + sized(1, text) if len(text) < 255 else b'\xb3' + sized(4, text)


def fault_bytes():
    """Each spoiled sequence alone, with good text behind it, and behind good text; in arrays as the first string and as the third."""
    for i, bad in enumerate(SPOILED):
        before = BEFORE[i % len(BEFORE)]
        yield case(string(bad))
        yield case(string(before + bad + b'z'))
        code, width = (0xa1, 1) if i % 2 else (0xb1, 4)
        yield case(arrayed(code, *[sized(width, text) for text in ((bad, before), (before, b'', before + bad))[i % 4 // 2]]))


def fault_places():
    """The same faults behind more and more bytes, and good sequences of each length; the first, a middle and the last byte."""
    for bad in FEW:
        for before in [b'a' * length for length in LENGTHS] + [letter.encode() * times for letter in 'Ø€\U0001f600' for times in (1, 5, 20)]:
            yield case(string(before + bad))
    for length in LENGTHS:
        for text in (b's' * length + b'\x80', b's' * length + b'\xc3\x98' + b's' * 20):
            yield case(symbol(text))
        for code in (0xb1, 0xb3):
            yield case(b'\x00\x40' + bytes([code]) + sized(4, b't' * length + b'\xff'))
            yield case(b'\xf0' + fields(4, 2, bytes([code]) + sized(4, b'good') + sized(4, b't' * length + b'\xff')))
    for code in (0xa1, 0xa3):
        yield case(bytes([code, 255]) + b't' * 254 + b'\x80')
        for at in (0, 20, 39):
            for byte in (b'\x80', b'\xc3', b'\xff'):
                text = b't' * at + byte + b't' * (39 - at)
                yield case(bytes([code]) + sized(1, text))
                yield case(arrayed(code, sized(1, b'good'), sized(1, text)))


def fault_ends():
    """A sequence that its text cuts off is a fault at its first byte, though the bytes behind the text would end it."""
    for letter in 'Ø€\U0001f600':
        text = letter.encode()
        for at in range(1, len(text)):
            cut, rest = b'ab' + text[:at], text[at:]
            yield case(string(cut) + rest)
            yield case(arrayed(0xa1, sized(1, cut), sized(1, b'')) + rest)
            yield case(listed(string(cut), b'\xa0' + sized(1, rest)))
            yield case(string(cut)[:-1] + rest)
            yield case(bytes([0xa1, len(text) + 3]) + cut)
            yield case(listed(b'\x40', arrayed(0xa1, bytes([len(text) + 3]) + cut)))


def of_list(width, *values):
    """An element that is a list, behind the code of that width."""
    return fields(width, len(values), b''.join(values))


def spots(code, text):
    """Where a text may stand. They have up to six levels."""
    width = 1 if code < 0xb0 else 4
    bad, good = sized(width, text), sized(width, b'good')
    value, other = bytes([code]) + bad, bytes([code]) + good
    inner = fields(1, 2, bytes([code]) + good + bad)
    yield from (value, listed(value), listed(b'\x40', other, value, b'\x40'), b'\xc1' + fields(1, 2, value + b'\x40'), b'\xc1' + fields(1, 4, b'\x40' + other + b'\x40' + value),
                b'\x00' + value + b'\x40', b'\x00' + other + value, listed(b'\x40', b'\x00\x40\x00' + other + value),
                arrayed(code, bad), arrayed(code, good, sized(width, b''), bad, good), b'\xf0' + fields(4, 2, bytes([code]) + good + bad), listed(b'\x40', arrayed(code, good, bad)),
                arrayed(0xe0, inner), listed(b'\x40', arrayed(0xe0, fields(1, 0, b''), fields(1, 1, b'\x50\x07'), inner)), arrayed(0xf0, fields(4, 1, b'\xe0' + inner)),
                arrayed(0xc0, of_list(1, other, value)), arrayed(0xd0, of_list(4, other), of_list(4, b'\x40', value)), listed(b'\x40', arrayed(0xe0, fields(1, 1, b'\xc0' + of_list(1, other, value)))),
                arrayed(0xc1, of_list(1, value, b'\x40')), arrayed(0xd1, of_list(4), of_list(4, b'\x40', value)), arrayed(0xc0, of_list(1, b'\x00' + other + value)),
                arrayed(0xc0, of_list(1, b'\x40', arrayed(0xc1, of_list(1, b'\x40', arrayed(code, good, bad))))))


def fault_spots():
    for code in (0xa1, 0xb1):
        for text in (b'\xc3', b'ab\xf0\x90\x80'):
            yield from (case(data, limit=(LEVELS, 16)[i % 2]) for i, data in enumerate(spots(code, text)))
    for code in (0xa3, 0xb3):
        yield from map(case, spots(code, b'abc\x80d'))
    yield from map(case, spots(0xa0, b'\xff'))
    yield from map(case, spots(0xa1, 'aØ'.encode()))


def fault_order():
    """A bad text and another refusal in one array, before it and behind it; a boolean or char there has the array's place."""
    bad = b'\xa1\x02a\xff'
    others = [bytes.fromhex(data) for data in ('5602', '730000d800', '730000', '46', 'c00101', 'c000', 'c1020140', 'c0030140', 'a105aa', 'e0020140', 'e003015602', '')]
    for other in others:
        for data in (arrayed(0xc0, of_list(1, bad, other)), arrayed(0xc0, of_list(1, other, bad)), arrayed(0xc0, of_list(1, bad), of_list(1, other)),
                     arrayed(0xc0, of_list(1, other), of_list(1, bad))):
            yield case(listed(b'\x40', data))
        yield case(listed(bad, other))
        yield case(listed(other, bad))
        yield case(listed(arrayed(0xa1, bad[1:]), other))
        yield case(listed(other, arrayed(0xa1, bad[1:])))
    # two bad texts; bytes left in the array, a text too long for it, a count that is too high
    yield from hexes('e00702a102ff6102ff61', 'e00702a10261ff01ff', 'e00601a10261ff00', 'e00603a10261ff05', 'e00602a10261ff05', 'e00602a10561ff05', 'e00503a10161ff', 'e00402a101ff',
                     'c00601a101ffa105', 'e00501b10000', 'e00801b100000002ff', 'c10501a101ff40', 'c10402a101ff', 'c00402a101ff', 'c00501a101ff40', 'e10401a101ff', '46a101ff')
    for words, letters in ((0, 0), (1, 2), (2, 1)):
        yield case(bad, words, letters)
        yield case(arrayed(0xa1, bad[1:]), words, letters)


def fault_levels():
    """A bad text at a limit's last level, and one beyond it, in lists, and in arrays and lists by turns; a bad char beside it."""
    bad = b'\xa1\x02a\xff'
    for limit in (1, 2, 16, LEVELS):
        for depth in (limit - 1, limit):
            for data in (bad, b'\xa3\x01\x80', b'\x73\x00\x00\xd8\x00'):
                yield case(below(lambda value: listed(b'\x40', value), depth, data), limit=limit)
            if depth:
                for code, items in ((0xa1, bad[1:]), (0x56, b'\x02'), (0xc0, of_list(1, bad))):
                    for _ in range(depth - 1):
                        code, items = 0xe0, fields(1, 1, bytes([code]) + items)
                    yield case(arrayed(code, items), limit=limit)
                yield case(below(lambda value: arrayed(0xc0, of_list(1, value)), depth // 2, listed(bad) if depth % 2 else bad), limit=limit)
    for limit in NOT_NAMED:
        yield case(bad, limit=limit)


def steps(data, at=0, limit=LEVELS):
    """A line: the walker's steps from a place on, to its end or to a refusal, and one more, which says the same."""
    count, place, answer = 1, at, None
    while answer is None or answer[0] == '=' and answer != '=0':
        answer, place = step(limit, data, place)
        count += 1
    return ' '.join([str(limit), str(at), bytes_field(data), walk(limit, at, data, count)])


# Three values, which only the lowest limit does not take.
THREE = b'\x40' + listed(b'\x43') + arrayed(0x50, b'\x07')


def places(limit):
    """From every place on: those of values, those within them, the end and beyond it; and on no bytes."""
    for at in (*range(len(THREE) + 3), 2 ** 32, 2 ** 63, 2 ** 64 - 1):
        yield steps(THREE, at, limit)
    for at in (0, 1, 2 ** 64 - 1):
        yield steps(b'', at, limit)


def named_places():
    for limit in (1, 2, 16, LEVELS):
        yield from places(limit)


def walked_levels():
    """Values to the last level of a limit, and then one beyond it."""
    for limit in (*NAMED, LEVELS):
        for fits, deeper in zip(nests(limit), nests(limit + 1)):
            yield steps(b'\x40' + fits + deeper, 0, limit)


def walked_faults():
    """Each refusal in front of the walker and behind a value: the place counts from the walker's own."""
    for limit in (3, 16):
        for data in FAULTS:
            yield steps(data, 0, limit)
            yield steps(TEXT + data, 0, limit)
            yield steps(TEXT + data, len(TEXT), limit)


def walked_not_named():
    for limit in NOT_NAMED:
        yield from places(limit)
        yield from (steps(data, 0, limit) for data in FAULTS)
        yield from (steps(b'\x40' + data, 1, limit) for data in nests(LEVELS + 1))


def walked_texts():
    """A bad text in the first, the second and the third value: the place counts from that value's start."""
    texts = [string(b'ab\xe2\x82'), symbol(b'a\x80'), listed(b'\x40', string(b'\xc3')), arrayed(0xb1, sized(4, b'good'), sized(4, b'ab\xff')),
             arrayed(0xc0, of_list(1, b'\x40', string(b'\x80'))), b'\x00' + string(b'\xf0\x90') + b'\x40', arrayed(0xc0, of_list(1, b'\x56\x02', string(b'\xff'))), b'\xa1\x03\xff']
    for limit in (2, 16, LEVELS):
        for data in texts:
            for before in (b'', TEXT, THREE):
                yield steps(before + data + b'\x80', 0, limit)
    for data in texts:
        yield steps(THREE + data, len(THREE), 16)
        yield steps(data, 1, 16)
    for limit in (0, 1, 33):
        yield steps(TEXT + texts[0], 0, limit)


SECTIONS = [('every code', every_code), ('numbers', numbers), ('texts', texts), ('sizes and counts', sizes), ('arrays', arrays),
            ('arrays of lists, maps and arrays', compounds), ('their refusals', compound_faults), ('their levels', compound_levels),
            ('levels', levels), ('rooms', rooms), ('what an array tells', told), ('empty arrays at the last levels', told_levels),
            ('bytes from outside', outside), ('levels within other limits', named_levels),
            ('other refusals within other limits', named_faults), ('15: limits that may not be named', not_named),
            ('11: the byte of a fault', fault_bytes), ('behind more and more bytes', fault_places), ('sequences that a text cuts off', fault_ends),
            ('wherever a text may stand', fault_spots), ('bad text and other refusals', fault_order), ('bad text at the last levels', fault_levels)]
WALKS = [('every place', named_places), ('levels', walked_levels), ('other refusals', walked_faults), ('15: limits that may not be named', walked_not_named),
         ('bad texts', walked_texts)]

if __name__ == '__main__':
    store('own_read.txt', SECTIONS)
    store('own_walk.txt', WALKS)
