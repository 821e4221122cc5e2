#!/usr/bin/env python3
"""Makes the stored runs, NAME.in or NAME.batch, NAME.out, and NAME.err where
something is said, and the rows of examples/.

Inputs come from the second program's writer. The expected lines and places are
typed here, from the document; the second program's card must say the same.
"""

import os

import second
from batches import framing
from layouts import content
from long_rows import SHARED, shared_row
from schemas import Null, judge

HERE = os.path.dirname(os.path.abspath(__file__))
EXAMPLES = os.path.join(HERE, '..', '..', 'examples')

JUNK = bytes.fromhex('DEADBEEFFFFFFFFF')


def n(value, width):
    return (value % 256 ** width).to_bytes(width, 'little')


def i4(value):
    return n(value, 4)


def row_of(schema, cells):
    return content(judge(schema), cells)


def whole(schema, row):
    return n(len(schema), 2) + schema + row


def write(folder, name, data):
    with open(os.path.join(folder, name), 'wb') as file:
        file.write(data)


def store(folder, name, data, lines, said=''):
    """Writes the input, and answers its card."""
    want = ''.join(line + '\n' for line in lines)
    assert second.card(data) == (want, said), name
    write(folder, name, data)
    return want


def run(name, data, *lines, said=''):
    want = store(HERE, name + '.in', data, lines, said)
    write(HERE, name + '.out', want.encode())
    if said:
        write(HERE, name + '.err', said.encode())


def broken(place):
    """What is said of a row whose first fault is at this byte."""
    return 'the row is broken at byte %d\n' % place


def broken_run(name, schema, row, place):
    run(name, whole(schema, row), 'refused 7', said=broken(place))


def row(name, schema, cells, *lines):
    run(name, whole(schema, row_of(schema, cells)), *lines)


# --- Every type ---------------------------------------------------------------

row('case_b', b'ro\x02i4i8', [i4(-2), Null(bytes(8))],
    '0 i4 -2',
    '1 i8 null')

row('numbers', b'ro\x0Dbobo' b'i1i1i1' b'i2i2' b'i4i4' b'i8i8i8i8',
    [n(0, 1), n(1, 1), n(-128, 1), n(127, 1), n(0, 1), n(-32768, 2), n(32767, 2), i4(-2 ** 31), i4(2 ** 31 - 1),
     n(-2 ** 63, 8), n(2 ** 63 - 1, 8), n(-1, 8), n(1000, 8)],
    '0 bo 0', '1 bo 1',
    '2 i1 -128', '3 i1 127', '4 i1 0',
    '5 i2 -32768', '6 i2 32767',
    '7 i4 -2147483648', '8 i4 2147483647',
    '9 i8 -9223372036854775808', '10 i8 9223372036854775807', '11 i8 -1', '12 i8 1000')

# One, minus zero, infinity, and NaNs with a payload and a sign of their own.
row('floats', b'ro\x08f4f4f4f4' b'f8f8f8f8',
    [n(0x3F800000, 4), n(0x80000000, 4), n(0x7F800001, 4), n(0xFFABCDEF, 4),
     n(0x3FF0000000000000, 8), n(0x7FF0000000000000, 8), n(0x7FF0000000000001, 8), n(0xFFF123456789ABCD, 8)],
    '0 f4 3f800000', '1 f4 80000000', '2 f4 7f800001', '3 f4 ffabcdef',
    '4 f8 3ff0000000000000', '5 f8 7ff0000000000000', '6 f8 7ff0000000000001', '7 f8 fff123456789abcd')

row('texts', b'ro\x04stbistbi', [b'STK', bytes([0, 1, 0x7F, 0x80, 0xFF]), b'', b''],
    '0 st 53544b',
    '1 bi 00017f80ff',
    '2 st -',
    '3 bi -')

# Characters of one to four bytes, a NUL, a byte order mark, noncharacters, the first and the last of each length: all of it is text, in hex as any.
row('texts_of_all_lengths', b'ro\x05ststststli' b'st',
    ['S\0K'.encode(), '\x80\u07FF'.encode(), '\u0800\uD7FF\uE000\uFFFF'.encode(), '\U00010000\U0010FFFF'.encode(), ['\uFEFF'.encode(), 'é—😀'.encode()]],
    '0 st 53004b',
    '1 st c280dfbf',
    '2 st e0a080ed9fbfee8080efbfbf',
    '3 st f0908080f48fbfbf',
    '4.0 st efbbbf', '4.1 st c3a9e28094f09f9880')

# --- Containers ---------------------------------------------------------------

row('lists', b'ro\x04lii2listlii8liro\x02bost',
    [[n(1, 2), n(-1, 2), n(300, 2)], [b'A', b'', b'BC'], [], [[n(1, 1), b'z'], [n(0, 1), b'']]],
    '0.0 i2 1', '0.1 i2 -1', '0.2 i2 300',
    '1.0 st 41', '1.1 st -', '1.2 st 4243',
    '3.0.0 bo 1', '3.0.1 st 7a', '3.1.0 bo 0', '3.1.1 st -')

row('map', b'ro\x02mai4stmai8i8', [[[i4(7), i4(-7)], [b'S', b'TK']], [[], []]],
    '0.0.0 i4 7', '0.0.1 i4 -7',
    '0.1.0 st 53', '0.1.1 st 544b')

# A map whose keys are maps and whose values are lists of maps.
row('maps_in_maps', b'ro\x01' b'ma' b'mai1i1' b'limastbo',
    [[[[[n(1, 1), n(2, 1)], [n(3, 1), n(4, 1)]], [[], []]],
      [[], [[[b'k'], [n(1, 1)]], [[b''], [n(0, 1)]]]]]],
    '0.0.0.0.0 i1 1', '0.0.0.0.1 i1 2', '0.0.0.1.0 i1 3', '0.0.0.1.1 i1 4',
    '0.1.1.0.0.0 st 6b', '0.1.1.0.1.0 bo 1', '0.1.1.1.0.0 st -', '0.1.1.1.1.0 bo 0')


def deep(cell, levels):
    """Maps of one entry around a cell: a null key, and the rest as its value."""
    for _ in range(levels):
        cell = [[Null(bytes(1))], [cell]]
    return cell


# Eight levels, six of them maps: a path has thirteen steps.
row('deepest', b'ro\x01' + b'mai1' * 6 + b'i2', [deep(n(-5, 2), 6)],
    '0.0.0 i1 null',
    '0.1.0.0.0 i1 null',
    '0.1.0.1.0.0.0 i1 null',
    '0.1.0.1.0.1.0.0.0 i1 null',
    '0.1.0.1.0.1.0.1.0.0.0 i1 null',
    '0.1.0.1.0.1.0.1.0.1.0.0.0 i1 null',
    '0.1.0.1.0.1.0.1.0.1.0.1.0 i2 -5')

row('nothing_to_say', b'ro\x02list' b'mai1i1', [[], [[], []]])

# --- Nulls, with junk under them -----------------------------------------------

row('nulls', b'ro\x0Cboi1i2i4i8f4f8stbi' b'lii4' b'mastst' b'ro\x01i8', [Null(JUNK)] * 12,
    '0 bo null', '1 i1 null', '2 i2 null', '3 i4 null', '4 i8 null', '5 f4 null', '6 f8 null', '7 st null', '8 bi null',
    '9 li null', '10 ma null', '11 ro null')

row('nulls_inside', b'ro\x02li' b'lii1' b'ma' b'bo' b'ro\x02i2st',
    [[Null(JUNK), [n(9, 1), Null(b'\xFF')], [Null(b'\x80')]],
     [[Null(b'\x02'), n(1, 1)], [Null(JUNK), [Null(JUNK), b'x']]]],
    '0.0 li null', '0.1.0 i1 9', '0.1.1 i1 null', '0.2.0 i1 null',
    '1.0.0 bo null', '1.0.1 bo 1', '1.1.0 ro null', '1.1.1.0 i2 null', '1.1.1.1 st 78')

# --- Values in any order ----------------------------------------------------------

# The second string stands first, the empty one between the two; the lines keep field order.
run('texts_reversed', whole(b'ro\x03ststst',
                            bytes(8) + n(40 << 32 | 3, 8) + n(40 << 32, 8) + n(32 << 32 | 3, 8)
                            + b'PWR' + bytes(5) + b'STK' + bytes(5)),
    '0 st 53544b',
    '1 st -',
    '2 st 505752')

# A list of structs, a map and a string, each level in reversed order.
run('every_level_reversed',
    whole(b'ro\x03' b'liro\x02stst' b'mastst' b'st',
          content(judge(b'ro\x03' b'liro\x02stst' b'mastst' b'st'),
                  [[[b'A', b'BC'], [b'D', b'']], [[b'k', b'', b'kk'], [b'v', Null(JUNK), b'']], b'STKPWRTPH'],
                  (), lambda path: -path[-1])),
    '0.0.0 st 41', '0.0.1 st 4243', '0.1.0 st 44', '0.1.1 st -',
    '1.0.0 st 6b', '1.0.1 st -', '1.0.2 st 6b6b',
    '1.1.0 st 76', '1.1.1 st null', '1.1.2 st -',
    '2 st 53544b505752545048')

# The second string, of nine bytes, stands first; the other leaves eight bytes free behind it, or stands in its last eight.
# The gap is the row's, told at 0; of the two that cross the later field is wrong, though it stands first.
for name, first_at, behind, place in (('reversed_with_a_gap', 48, bytes(8) + b'STK' + bytes(5), 0), ('reversed_and_crossed', 32, b'', 16)):
    broken_run(name, b'ro\x02stst', bytes(8) + n(first_at << 32 | 3, 8) + n(24 << 32 | 9, 8) + b'PWRPWRPWR' + bytes(7) + behind, place)

# --- Refusals -------------------------------------------------------------------

run('no_input', b'', 'refused 1')
run('one_byte', b'\x07', 'refused 1')
run('no_schema', b'\x00\x00', 'refused 1')
run('short_of_schema', b'\x07\x00ro\x02i4i', 'refused 1')
run('bad_schema', whole(b'ro\x02i4', bytes(24)), 'refused 1')
run('root_not_struct', whole(b'lii4', bytes(8)), 'refused 1')
broken_run('no_row', b'ro\x02i4i8', b'', 0)
broken_run('bool_two', b'ro\x01bo', bytes(8) + n(2, 8), 8)

TWO_TEXTS = row_of(b'ro\x02stst', [b'STK', b'PWR'])
broken_run('case_h', b'ro\x02stst', TWO_TEXTS[:16] + n(24 << 32 | 3, 8) + TWO_TEXTS[24:], 16)

# The first field is sound, and no line of it is printed before the second is found broken.
broken_run('late_fault', b'ro\x02i8st', bytes(8) + n(1, 8) + n(24 << 32 | 3, 8) + b'STK\0\0\0\0\x01', 31)

# The map has no byte for its values array, which would stand where the row ends.
broken_run('no_values', b'ro\x01mai8i8', bytes(8) + n(16 << 32 | 16, 8) + n(8, 8) + n(0, 8), 32)

# The bool that is deep in field 0 is told, and not the slot of field 1 before it, which points nowhere.
broken_run('deep_fault', b'ro\x02liro\x01bost',
           bytes(8) + n(24 << 32 | 40, 8) + n(0, 8) + n(1, 8) + bytes(8) + n(24 << 32 | 16, 8) + bytes(8) + n(2, 8), 56)

# A string that is no text, told at its slot: between others; before its padding; a character that is cut, though its rest stands behind it; a map's value.
broken_run('bad_text', b'ro\x03ststst', row_of(b'ro\x03ststst', [b'STK', b'P\xFFR', b'TPH']), 16)
broken_run('bad_text_and_padding', b'ro\x01st', bytes(8) + n(16 << 32 | 3, 8) + b'\xED\xA0\x80\0\0\0\0\x01', 8)
broken_run('cut_text', b'ro\x02stst', row_of(b'ro\x02stst', [b'STKPWR\xE2\x80', b'\x94TPH']), 8)
broken_run('bad_text_in_a_map', b'ro\x01mai8st', row_of(b'ro\x01mai8st', [[[n(7, 8)], [b'\xC0\x80']]]), 64)

# Under the null the slot leads to the binary's bytes, which are no text.
run('bad_text_under_a_null', whole(b'ro\x02stbi', b'\1' + bytes(7) + n(24 << 32 | 2, 8) * 2 + b'\xFF\xFE' + bytes(6)),
    '0 st null',
    '1 bi fffe')

# --- Pictures ---------------------------------------------------------------------

def picture(name, *lines):
    """The picture of the row that is stored under this name."""
    want = ''.join(line + '\n' for line in lines)
    with open(os.path.join(HERE, name + '.in'), 'rb') as file:
        got = second.where(file.read())
    assert got[0] == want, '%s:\n%s' % (name, got[0])
    write(HERE, name + '.where', want.encode())


picture('no_input', 'refused 1')
picture('short_of_schema', 'refused 1')
picture('bad_schema', 'refused 1')

picture('case_b',
        '    0  02 00 00 00 00 00 00 00  bitmap',
        '    8  fe ff ff ff 00 00 00 00  slot of 0',
        '   16  00 00 00 00 00 00 00 00  slot of 1')

picture('texts',
        '    0  00 00 00 00 00 00 00 00  bitmap',
        '    8  03 00 00 00 28 00 00 00  slot of 0',
        '   16  05 00 00 00 30 00 00 00  slot of 1',
        '   24  00 00 00 00 38 00 00 00  slot of 2',
        '   32  00 00 00 00 38 00 00 00  slot of 3',
        '   40  53 54 4b 00 00 00 00 00  text and padding of 0',
        '   48  00 01 7f 80 ff 00 00 00  binary and padding of 1')

picture('map',
        '    0  00 00 00 00 00 00 00 00  bitmap',
        '    8  50 00 00 00 18 00 00 00  slot of 0',
        '   16  18 00 00 00 68 00 00 00  slot of 1',
        '   24  18 00 00 00 00 00 00 00  size of keys of 0',
        '   32  02 00 00 00 00 00 00 00  count of 0.0',
        '   40  00 00 00 00 00 00 00 00  bitmap of 0.0',
        '   48  07 00 00 00 f9 ff ff ff  slots from 0.0.0',
        '   56  02 00 00 00 00 00 00 00  count of 0.1',
        '   64  00 00 00 00 00 00 00 00  bitmap of 0.1',
        '   72  01 00 00 00 20 00 00 00  slot of 0.1.0',
        '   80  02 00 00 00 28 00 00 00  slot of 0.1.1',
        '   88  53 00 00 00 00 00 00 00  text and padding of 0.1.0',
        '   96  54 4b 00 00 00 00 00 00  text and padding of 0.1.1',
        '  104  08 00 00 00 00 00 00 00  size of keys of 1',
        '  112  00 00 00 00 00 00 00 00  count of 1.0',
        '  120  00 00 00 00 00 00 00 00  count of 1.1')

# Nothing is followed behind a null; what stands under it is shown.
picture('nulls_inside',
        '    0  00 00 00 00 00 00 00 00  bitmap',
        '    8  58 00 00 00 18 00 00 00  slot of 0',
        '   16  60 00 00 00 70 00 00 00  slot of 1',
        '   24  03 00 00 00 00 00 00 00  count of 0',
        '   32  01 00 00 00 00 00 00 00  bitmap of 0',
        '   40  de ad be ef ff ff ff ff  slot of 0.0',
        '   48  18 00 00 00 28 00 00 00  slot of 0.1',
        '   56  18 00 00 00 40 00 00 00  slot of 0.2',
        '   64  02 00 00 00 00 00 00 00  count of 0.1',
        '   72  02 00 00 00 00 00 00 00  bitmap of 0.1',
        '   80  09 ff 00 00 00 00 00 00  slots and padding from 0.1.0',
        '   88  01 00 00 00 00 00 00 00  count of 0.2',
        '   96  01 00 00 00 00 00 00 00  bitmap of 0.2',
        '  104  80 00 00 00 00 00 00 00  slots and padding from 0.2.0',
        '  112  18 00 00 00 00 00 00 00  size of keys of 1',
        '  120  02 00 00 00 00 00 00 00  count of 1.0',
        '  128  01 00 00 00 00 00 00 00  bitmap of 1.0',
        '  136  02 01 00 00 00 00 00 00  slots and padding from 1.0.0',
        '  144  02 00 00 00 00 00 00 00  count of 1.1',
        '  152  01 00 00 00 00 00 00 00  bitmap of 1.1',
        '  160  de ad be ef ff ff ff ff  slot of 1.1.0',
        '  168  20 00 00 00 20 00 00 00  slot of 1.1.1',
        '  176  01 00 00 00 00 00 00 00  bitmap of 1.1.1',
        '  184  de ad be ef ff ff ff ff  slot of 1.1.1.0',
        '  192  01 00 00 00 18 00 00 00  slot of 1.1.1.1',
        '  200  78 00 00 00 00 00 00 00  text and padding of 1.1.1.1')

# A row of no bytes has the mark alone; a place where the row ends has it behind the last line.
picture('no_row',
        '       ^^')
picture('no_values',
        '    0  00 00 00 00 00 00 00 00  bitmap',
        '    8  10 00 00 00 10 00 00 00  slot of 0',
        '   16  08 00 00 00 00 00 00 00  size of keys of 0',
        '   24  00 00 00 00 00 00 00 00  count of 0.0',
        '       ^^')

# Of two values in one place the first has the name; a gap has none.
picture('case_h',
        '    0  00 00 00 00 00 00 00 00  bitmap',
        '    8  03 00 00 00 18 00 00 00  slot of 0',
        '   16  03 00 00 00 18 00 00 00  slot of 1',
        '       ^^',
        '   24  53 54 4b 00 00 00 00 00  text and padding of 0',
        '   32  50 57 52 00 00 00 00 00')
picture('reversed_with_a_gap',
        '    0  00 00 00 00 00 00 00 00  bitmap',
        '       ^^',
        '    8  03 00 00 00 30 00 00 00  slot of 0',
        '   16  09 00 00 00 18 00 00 00  slot of 1',
        '   24  50 57 52 50 57 52 50 57  text of 1',
        '   32  52 00 00 00 00 00 00 00  text and padding of 1',
        '   40  00 00 00 00 00 00 00 00',
        '   48  53 54 4b 00 00 00 00 00  text and padding of 0')
picture('late_fault',
        '    0  00 00 00 00 00 00 00 00  bitmap',
        '    8  01 00 00 00 00 00 00 00  slot of 0',
        '   16  03 00 00 00 18 00 00 00  slot of 1',
        '   24  53 54 4b 00 00 00 00 01  text and padding of 1',
        '                            ^^')

# A string that is no text is read nowhere, so its bytes have no name, and the mark is under its slot.
picture('bad_text',
        '    0  00 00 00 00 00 00 00 00  bitmap',
        '    8  03 00 00 00 20 00 00 00  slot of 0',
        '   16  03 00 00 00 28 00 00 00  slot of 1',
        '       ^^',
        '   24  03 00 00 00 30 00 00 00  slot of 2',
        '   32  53 54 4b 00 00 00 00 00  text and padding of 0',
        '   40  50 ff 52 00 00 00 00 00',
        '   48  54 50 48 00 00 00 00 00  text and padding of 2')
picture('bad_text_under_a_null',
        '    0  01 00 00 00 00 00 00 00  bitmap',
        '    8  02 00 00 00 18 00 00 00  slot of 0',
        '   16  02 00 00 00 18 00 00 00  slot of 1',
        '   24  ff fe 00 00 00 00 00 00  binary and padding of 1')

# The slot of field 1 points nowhere and has its name all the same.
picture('deep_fault',
        '    0  00 00 00 00 00 00 00 00  bitmap',
        '    8  28 00 00 00 18 00 00 00  slot of 0',
        '   16  00 00 00 00 00 00 00 00  slot of 1',
        '   24  01 00 00 00 00 00 00 00  count of 0',
        '   32  00 00 00 00 00 00 00 00  bitmap of 0',
        '   40  10 00 00 00 18 00 00 00  slot of 0.0',
        '   48  00 00 00 00 00 00 00 00  bitmap of 0.0',
        '   56  02 00 00 00 00 00 00 00  slot of 0.0.0',
        '       ^^')

# The list's count does not fit, so neither it nor what follows is named; the last line has four bytes.
broken_run('wrong_count', b'ro\x02lii8st', bytes(8) + n(24 << 32 | 16, 8) + n(40 << 32 | 2, 8) + n(1, 8) + bytes(8) + b'TK' + bytes(2), 0)
picture('wrong_count',
        '    0  00 00 00 00 00 00 00 00  bitmap',
        '       ^^',
        '    8  10 00 00 00 18 00 00 00  slot of 0',
        '   16  02 00 00 00 28 00 00 00  slot of 1',
        '   24  01 00 00 00 00 00 00 00',
        '   32  00 00 00 00 00 00 00 00',
        '   40  54 4b 00 00              text and padding of 1')

# Lists below each other, forty slots in each, all at one list: of every forty the first is followed, and no line is left for the others.
# The innermost list stands at 16 + 5 * 336, and its second slot, at 24 of it, is the first that lies over another.
broken_run('many_at_one', SHARED, shared_row(), 1720)
SHOWN = ['bitmap', 'slot of 0']
for level in range(6):
    path = '.'.join('0' * (level + 1))
    SHOWN += ['count of ' + path, 'bitmap of ' + path] + ['slot of %s.%d' % (path, i) for i in range(40)]
SHOWN = ['%5d  %s  %s' % (8 * i, shared_row()[8 * i:8 * i + 8].hex(' '), name) for i, name in enumerate(SHOWN + ['text of 0.0.0.0.0.0.0'])]
picture('many_at_one', *SHOWN[:216], '       ^^', *SHOWN[216:])

# --- Batches ----------------------------------------------------------------------

def batch(folder, name, data, *lines, said=''):
    want = ''.join(line + '\n' for line in lines)
    assert second.cards(data) == (want, said), name
    write(folder, name + '.batch', data)
    return want


def batch_run(name, schema, frames, *lines, said=''):
    want = batch(HERE, name, whole(schema, frames), *lines, said=said)
    write(HERE, name + '.out', want.encode())
    if said:
        write(HERE, name + '.err', said.encode())


PAIR = b'ro\x02i4i8'
FIRST = row_of(PAIR, [i4(-2), Null(bytes(8))])
OTHER = row_of(PAIR, [i4(7), n(1, 8)])
BROKEN = FIRST[:8] + b'\xFF' * 8 + FIRST[16:]


def frame(a_row):
    return framing([a_row])


batch_run('batch_no_rows', PAIR, b'')
batch_run('batch_one_row', PAIR, frame(FIRST), 'row 0', '0 i4 -2', '1 i8 null')
batch_run('batch_three_rows', PAIR, frame(FIRST) + frame(OTHER) + frame(FIRST),
          'row 0', '0 i4 -2', '1 i8 null',
          'row 1', '0 i4 7', '1 i8 1',
          'row 2', '0 i4 -2', '1 i8 null')
batch_run('batch_row_of_no_lines', b'ro\x01list', frame(row_of(b'ro\x01list', [[]])) * 2, 'row 0', 'row 1')
batch_run('batch_refused_row', PAIR, frame(FIRST) + frame(BROKEN) + frame(FIRST), 'refused 7',
          said='row 1 of the batch is broken at byte 12\n')

batch_run('batch_bad_text', b'ro\x01st', frame(row_of(b'ro\x01st', [b'STK'])) + frame(row_of(b'ro\x01st', [b'\x80'])), 'refused 7',
          said='row 1 of the batch is broken at byte 8\n')

# 10 is the whole batch's, and comes before a row's own refusal.
batch_run('batch_ends_in_a_row', PAIR, frame(BROKEN) + frame(FIRST)[:-1], 'refused 10')
batch_run('batch_ends_in_a_size', PAIR, frame(FIRST) + b'\0\0\0', 'refused 10')
batch_run('batch_size_little_endian', PAIR, n(24, 4) + FIRST, 'refused 10')
batch_run('batch_size_all_ones', PAIR, b'\xFF' * 4 + FIRST, 'refused 10')
batch_run('batch_row_of_no_bytes', PAIR, bytes(4), 'refused 7', said='row 0 of the batch is broken at byte 0\n')
batch_run('batch_bad_schema', b'ro\x02i4', frame(BROKEN)[:-1], 'refused 1')

for name, data in (('batch_no_input', b''), ('batch_one_byte', b'\x07'), ('batch_short_of_schema', b'\x07\x00ro\x02i4i')):
    write(HERE, name + '.out', batch(HERE, name, data, 'refused 1').encode())

# --- The rows of the examples ------------------------------------------------------

STROKES = b'ro\x02' + b'ro\x02i4i4' * 2
SOUND = row_of(STROKES, [[i4(1000), i4(5)], [i4(1001), i4(7)]])
store(EXAMPLES, 'sound.card', whole(STROKES, SOUND), ['0.0 i4 1000', '0.1 i4 5', '1.0 i4 1001', '1.1 i4 7'])

# The March accident: both slots point at the one stroke that there is, and the second slot, at 16, is told.
store(EXAMPLES, 'march.card', whole(STROKES, SOUND[:16] + SOUND[8:16] + SOUND[24:48]), ['refused 7'], broken(16))

# Three rows of the stroke log, in one batch.
SECOND = row_of(STROKES, [[i4(1250), i4(18)], Null(bytes(8))])
THIRD = row_of(STROKES, [[i4(1400), i4(3)], [i4(1402), i4(96)]])
batch(EXAMPLES, 'strokes', whole(STROKES, frame(SOUND) + frame(SECOND) + frame(THIRD)),
      'row 0', '0.0 i4 1000', '0.1 i4 5', '1.0 i4 1001', '1.1 i4 7',
      'row 1', '0.0 i4 1250', '0.1 i4 18', '1 ro null',
      'row 2', '0.0 i4 1400', '0.1 i4 3', '1.0 i4 1402', '1.1 i4 96')
