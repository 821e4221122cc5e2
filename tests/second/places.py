"""Rows that break the layout, with the place of the first fault, counted and written out by hand.

The rules stand in the order in which request Q-3 has them judged.  Rows are put
together here from their bytes alone; nothing of the other files lays them out.
"""

from answers import request
from batch_cases import frame
from table import C_ROW, C_SCHEMA, ZEROS, fill, u

ONES = b'\xff' * 8
TWO, THREE, FIVE = u(2, 8), u(3, 8), u(5, 8)


def slot(offset, size):
    return u(size, 4) + u(offset, 4)


def letters(text, padding=bytes(7)):
    return text + padding[:-len(text) % 8]


# --- One struct, wrong in one way ---------------------------------------------
#
# Each struct is tried in four rows: as the root; as field 1 of the root, with
# its slot at 16 and its first byte at 24; as element 1 of a list, slot at 40,
# first byte at 48; as a value of a map, slot at 64, first byte at 72.  What is
# wrong with its own size or end is told at these slots, and at 0 of the root.

AT_SLOT = (0, 16, 40, 64)

# A list or a map in them stands at 16, its slot at 8.
IN_STRUCT = (
    ('a struct shorter than its fixed part', b'ro\x02i8i8', ZEROS + FIVE, AT_SLOT),
    ('a struct of no byte', b'ro\x01i8', b'', AT_SLOT),
    ('a struct of 17 bytes', b'ro\x01i8', ZEROS + FIVE + b'\0', AT_SLOT),

    ('a list of 7 bytes', b'ro\x01lii8', ZEROS + slot(16, 7) + ZEROS, (8, 32, 56, 80)),
    ('a list of no byte', b'ro\x01lii8', ZEROS + slot(16, 0), (8, 32, 56, 80)),
    ('a list of 12 bytes', b'ro\x01lii8', ZEROS + slot(16, 12) + ZEROS + ZEROS, (8, 32, 56, 80)),

    ('two elements in the room of one', b'ro\x01lii8', ZEROS + slot(16, 24) + TWO + ZEROS + FIVE, (16, 40, 64, 88)),
    ('a bitmap that does not fit', b'ro\x01lii1', ZEROS + slot(16, 8) + u(1, 8), (16, 40, 64, 88)),
    ('a count that wraps', b'ro\x01lii8', ZEROS + slot(16, 16) + u(1 << 61, 8) + ZEROS, (16, 40, 64, 88)),

    ('a map of no byte', b'ro\x01mai8i8', ZEROS + slot(16, 0), (8, 32, 56, 80)),
    ('a map of 28 bytes', b'ro\x01mai8i8', ZEROS + slot(16, 28) + u(8, 8) + ZEROS * 3, (8, 32, 56, 80)),

    ('K is 4', b'ro\x01mai8i8', ZEROS + slot(16, 24) + u(4, 8) + ZEROS * 2, (16, 40, 64, 88)),
    ('8+K over the size', b'ro\x01mai8i8', ZEROS + slot(16, 24) + u(24, 8) + ZEROS * 2, (16, 40, 64, 88)),
    ('8+K wraps', b'ro\x01mai8i8', ZEROS + slot(16, 24) + u((1 << 64) - 8, 8) + ZEROS * 2, (16, 40, 64, 88)),

    ('bit 2 of two fields', b'ro\x02i8i8', b'\x04' + bytes(7) + FIVE + FIVE, (0, 24, 48, 72)),
    ('bits 20 and 63 of two fields', b'ro\x02i8i8', b'\0\0\x10\0\0\0\0\x80' + FIVE + FIVE, (2, 26, 50, 74)),
    ('bit 63 of a list', b'ro\x01lii8', ZEROS + slot(16, 24) + u(1, 8) + bytes(7) + b'\x80' + FIVE, (31, 55, 79, 103)),
    ('bit 8 of eight elements', b'ro\x01lii1', ZEROS + slot(16, 24) + u(8, 8) + b'\xff\x01' + bytes(6) + ONES, (25, 49, 73, 97)),

    ('a bool of 2', b'ro\x02i8bo', ZEROS + FIVE + TWO, (16, 40, 64, 88)),
    ('a bool of 2 in a list', b'ro\x01libo', ZEROS + slot(16, 24) + THREE + ZEROS + b'\0\1\2' + bytes(5), (34, 58, 82, 106)),
    ('the rest of a bool', b'ro\x01bo', ZEROS + b'\1\0\0\0\0\0\0\1', (15, 39, 63, 87)),
    ('the rest of an int16', b'ro\x02i8i2', ZEROS + FIVE + b'\xfe\xff\0\1\0\0\1\0', (19, 43, 67, 91)),

    ('an offset in the fixed part', b'ro\x02stst', ZEROS + slot(24, 3) + slot(16, 3) + letters(b'STK') * 2, (16, 40, 64, 88)),
    ('an offset of 28', b'ro\x02stst', ZEROS + slot(24, 3) + slot(28, 3) + letters(b'STK') * 2, (16, 40, 64, 88)),
    ('a range past the end', b'ro\x02stst', ZEROS + slot(24, 3) + slot(32, 9) + letters(b'STK') * 2, (16, 40, 64, 88)),
    ('a range that wraps', b'ro\x01st', ZEROS + slot(0xFFFFFFF8, 16) + letters(b'STK'), (8, 32, 56, 80)),
    ('an empty value past the end', b'ro\x02stst', ZEROS + slot(24, 3) + slot(40, 0) + letters(b'STK'), (16, 40, 64, 88)),
    ('two slots at one value', b'ro\x02stst', ZEROS + slot(24, 3) * 2 + letters(b'STK'), (16, 40, 64, 88)),
    ('the later one begins before', b'ro\x02stst', ZEROS + slot(32, 9) + slot(24, 9) + letters(b'STK') + letters(b'STKPWRTPH'),
     (16, 40, 64, 88)),
    ('an empty value inside an earlier one', b'ro\x02stst', ZEROS + slot(24, 9) + slot(32, 0) + letters(b'STKPWRTPH'), (16, 40, 64, 88)),
    ('a value around an earlier empty one', b'ro\x02stst', ZEROS + slot(32, 0) + slot(24, 9) + letters(b'STKPWRTPH'), (16, 40, 64, 88)),
    ('two slots of a list at one value', b'ro\x01list', ZEROS + slot(16, 40) + TWO + ZEROS + slot(32, 3) * 2 + letters(b'STK'),
     (40, 64, 88, 112)),

    ('padding', b'ro\x01st', ZEROS + slot(16, 3) + letters(b'STK', b'\0\0\1\0\1'), (21, 45, 69, 93)),
    ('padding of an element', b'ro\x01list', ZEROS + slot(16, 32) + u(1, 8) + ZEROS + slot(24, 7) + letters(b'STKPWRT', b'\1'),
     (47, 71, 95, 119)),

    ('zeros behind three int16', b'ro\x01lii2', ZEROS + slot(16, 24) + THREE + ZEROS + b'\5\0' * 3 + b'\0\1', (39, 63, 87, 111)),

    ('a gap between two values', b'ro\x02stst', ZEROS + slot(24, 3) + slot(40, 3) + letters(b'STK') * 3, AT_SLOT),
    ('a gap before the first value', b'ro\x01st', ZEROS + slot(24, 3) + ZEROS + letters(b'STK'), AT_SLOT),
    ('a null, and bytes left over', b'ro\x01st', b'\1' + bytes(7) + slot(16, 3) + letters(b'STK'), AT_SLOT),
    ('bytes left over in a list', b'ro\x01lii8', ZEROS + slot(16, 32) + u(1, 8) + ZEROS + FIVE * 2, (8, 32, 56, 80)),
    ('a gap in a list', b'ro\x01list', ZEROS + slot(16, 40) + u(1, 8) + ZEROS + slot(32, 3) + letters(b'STK') * 2, (8, 32, 56, 80)),

    # The keys array stands at 24; of one int64 it has 24 bytes, and the values array stands at 48.
    ('no byte for the keys', b'ro\x01mai8i8', ZEROS + slot(16, 16) + ZEROS + ZEROS, (24, 48, 72, 96)),
    ('no byte for the values', b'ro\x01mai8i8', ZEROS + slot(16, 32) + u(24, 8) + u(1, 8) + ZEROS + FIVE, (48, 72, 96, 120)),
    ('too many keys', b'ro\x01mai8i8', ZEROS + slot(16, 56) + u(24, 8) + TWO + ZEROS + FIVE + u(1, 8) + ZEROS + FIVE, (24, 48, 72, 96)),
    ('too many values', b'ro\x01mai8i8', ZEROS + slot(16, 56) + u(24, 8) + u(1, 8) + ZEROS + FIVE + TWO + ZEROS + FIVE, (48, 72, 96, 120)),
    ('fewer values than keys', b'ro\x01mai8i8', ZEROS + slot(16, 40) + u(24, 8) + u(1, 8) + ZEROS + FIVE + ZEROS, (48, 72, 96, 120)),
    ('fewer keys than values', b'ro\x01mai8i8', ZEROS + slot(16, 40) + u(8, 8) + ZEROS + u(1, 8) + ZEROS + FIVE, (32, 56, 80, 104)),
    ('a bit past the keys', b'ro\x01mai8i8', ZEROS + slot(16, 56) + u(24, 8) + u(1, 8) + TWO + FIVE + u(1, 8) + ZEROS + FIVE,
     (32, 56, 80, 104)),
    ('a bit past the values', b'ro\x01mai8i8', ZEROS + slot(16, 56) + u(24, 8) + u(1, 8) + ZEROS + FIVE + u(1, 8) + TWO + FIVE,
     (56, 80, 104, 128)),
    ('zeros behind the keys', b'ro\x01mai1i8', ZEROS + slot(16, 56) + u(24, 8) + u(1, 8) + ZEROS + b'\5\0\1' + bytes(5)
     + u(1, 8) + ZEROS + FIVE, (42, 66, 90, 114)),
    ('a value of the map past its end', b'ro\x01mai8st', ZEROS + slot(16, 56) + u(24, 8) + u(1, 8) + ZEROS + FIVE
     + u(1, 8) + ZEROS + slot(24, 1), (64, 88, 112, 136)),
    ('bytes left over behind the keys', b'ro\x01mai8i8', ZEROS + slot(16, 24) + u(16, 8) + ZEROS * 3, (24, 48, 72, 96)),
    ('bytes left over behind the values', b'ro\x01mai8i8', ZEROS + slot(16, 32) + u(8, 8) + ZEROS * 3, (32, 56, 80, 104)),

    # The inner struct stands at 16, its slot at 8: its faults are told as those of any struct.
    ('a struct within that is too short', b'ro\x01ro\x02i8i8', ZEROS + slot(16, 16) + ZEROS + FIVE, (8, 32, 56, 80)),
    ('a bool within', b'ro\x01ro\x01bo', ZEROS + slot(16, 16) + ZEROS + TWO, (24, 48, 72, 96)),
    ('a string within past its end', b'ro\x01ro\x01st', ZEROS + slot(16, 16) + ZEROS + slot(16, 1), (24, 48, 72, 96)),
    ('bytes left over within', b'ro\x01ro\x01i8', ZEROS + slot(16, 24) + ZEROS + FIVE + FIVE, (8, 32, 56, 80)),
)


def four_rows(schema, struct):
    """The struct as the root, as a field, as an element, as a map's value: schema and row."""
    held = struct + bytes(-len(struct) % 8)
    size = len(held)
    yield schema, struct
    yield b'ro\x02i8' + schema, ZEROS + FIVE + slot(24, len(struct)) + held
    yield b'ro\x01li' + schema, ZEROS + slot(16, 32 + size) + TWO + u(1, 8) + ONES + slot(32, len(struct)) + held
    yield (b'ro\x01mai1' + schema, ZEROS + slot(16, 56 + size) + u(24, 8) + u(1, 8) + ZEROS + u(5, 8)
           + u(1, 8) + ZEROS + slot(24, len(struct)) + held)


# --- Whole rows, wrong in two ways: the one that is judged first is told ----------

TEXT_AND_BOOL = ZEROS + slot(24, 3) + TWO + letters(b'STK', b'\0\0\0\0\1')

# Two nested strokes; in March field 1 pointed at the stroke of field 0.
STROKES = b'ro\x02' + b'ro\x02i4i4' * 2
MARCH = ZEROS + slot(24, 24) * 2 + ZEROS + u(1000, 8) + FIVE

WHOLE_ROWS = (
    ('March', STROKES, MARCH, 16),

    ('the size before the bitmap', b'ro\x01i8', ONES + FIVE + b'\0', 0),
    ('the bitmap before a bool', b'ro\x02bobo', bytes(7) + b'\x80' + TWO + ZEROS, 7),
    ('the bitmap before a slot', b'ro\x01st', bytes(5) + b'\1\0\0' + slot(0, 3) + letters(b'STK'), 5),
    ('a list\'s size before its count', b'ro\x01lii8', ZEROS + slot(16, 12) + ONES + ZEROS, 8),
    ('a list\'s count before its bitmap', b'ro\x01lii8', ZEROS + slot(16, 16) + TWO + ONES, 16),
    ('a map\'s size before its K', b'ro\x01mai8i8', ZEROS + slot(16, 9) + ONES + ZEROS, 8),
    ('field 0 to its padding before field 1', b'ro\x02stbo', TEXT_AND_BOOL, 31),
    ('field 0 to its bottom before the slot of field 1', b'ro\x02ro\x01bost',
     ZEROS + slot(24, 16) + slot(0, 3) + ZEROS + TWO, 32),
    ('an end within before the slot of field 1', b'ro\x02ro\x01i8st', ZEROS + slot(24, 24) + slot(0, 3) + ZEROS + FIVE + FIVE, 8),
    ('a slot before what stands there', b'ro\x02stro\x01bo', ZEROS + slot(24, 16) + slot(24, 16) + ZEROS + TWO, 16),
    ('a size within before its padding', b'ro\x01ro\x01i8', ZEROS + slot(16, 17) + ZEROS + FIVE + b'\0' + ONES[1:], 8),
    ('a bool byte before the rest of its slot', b'ro\x01bo', ZEROS + b'\2\0\1' + bytes(5), 8),
    ('by fields, not by bytes', b'ro\x02stst', ZEROS + slot(32, 3) + slot(24, 3) + letters(b'PWR', b'\0\0\1\0\0')
     + letters(b'STK', b'\0\0\0\0\1'), 39),
    ('a later field before a gap', b'ro\x02stbo', ZEROS + slot(32, 3) + TWO + ZEROS + letters(b'STK'), 16),
    ('padding before a gap', b'ro\x01st', ZEROS + slot(24, 3) + ZEROS + letters(b'STK', b'\0\1\0\0\0'), 28),
    ('an overlap before a gap', b'ro\x02stst', ZEROS + slot(32, 3) * 2 + ZEROS + letters(b'STK'), 16),
    ('of three the last lies over the first', b'ro\x03ststst', ZEROS + slot(40, 3) + slot(32, 3) + slot(40, 8)
     + letters(b'PWR') + letters(b'STK'), 24),
    ('a later sibling fills the gap, and is wrong itself', b'ro\x02stst', ZEROS + slot(32, 3) + slot(24, 3)
     + letters(b'PWR', b'\0\0\0\0\1') + letters(b'STK'), 31),
    ('a bool of a list before the zeros behind', b'ro\x01libo', ZEROS + slot(16, 24) + THREE + ZEROS + b'\0\0\2\1\0\0\0\0', 34),
    ('the zeros behind before the end', b'ro\x01lii1', ZEROS + slot(16, 32) + THREE + ZEROS + b'\5\5\5\0\0\0\1\0' + ZEROS, 38),
    ('the zeros behind before the next field', b'ro\x02lii1bo', ZEROS + slot(24, 24) + TWO + u(1, 8) + ZEROS + b'\5\1' + bytes(6), 41),
    ('an element to its bottom before the next slot', b'ro\x01liro\x01bo',
     ZEROS + slot(16, 48) + TWO + ZEROS + slot(32, 16) + slot(0, 0) + ZEROS + TWO, 56),
    ('the keys\' end before the counts', b'ro\x01mai8i8', ZEROS + slot(16, 48) + u(16, 8) + ZEROS * 2 + u(1, 8) + ZEROS + FIVE, 24),
    ('the counts before the values\' bitmap', b'ro\x01mai8i8', ZEROS + slot(16, 48) + u(8, 8) + ZEROS + u(1, 8) + ONES + FIVE + ZEROS, 32),
    ('K before the keys', b'ro\x01mai8i8', ZEROS + slot(16, 24) + u(12, 8) + ONES * 2, 16),

    # A map's arrays hold lists and maps too; the values array of the outer map stands at 48, its one slot at 64.
    ('a map\'s value is a list of 4 bytes', b'ro\x01mai1lii1', ZEROS + slot(16, 64) + u(24, 8) + u(1, 8) + ZEROS + b'\5' + bytes(7)
     + u(1, 8) + ZEROS + slot(24, 4) + ZEROS, 64),
    ('a map in a map has no byte for its values', b'ro\x01mai1mai1i1', ZEROS + slot(16, 72) + u(24, 8) + u(1, 8) + ZEROS
     + b'\5' + bytes(7) + u(1, 8) + ZEROS + slot(24, 16) + u(8, 8) + ZEROS, 88),
)


# --- Reads ----------------------------------------------------------------------
#
# A read is told the first fault on its path, and goes on where only a check
# would not.  Each line: schema, row, path, what is answered.

LIST_OF_12 = ZEROS + slot(16, 12) + ZEROS + ZEROS
TWO_IN_ONE = ZEROS + slot(16, 24) + TWO + ZEROS + FIVE
NO_VALUES = ZEROS + slot(16, 32) + u(24, 8) + u(1, 8) + ZEROS + FIVE
NO_KEYS = ZEROS + slot(16, 32) + ZEROS + u(1, 8) + ZEROS + FIVE
# A list at 16, its one struct at 40, and that one's string, whose slot at 48 runs past the struct.
FAR_DOWN = ZEROS + slot(16, 40) + u(1, 8) + ZEROS + slot(24, 16) + ZEROS + slot(16, 1)

READS = (
    (b'ro\x01i8', bytes(15), (), 'refused 7 0'),
    (b'ro\x01i8', bytes(15), (0,), 'refused 7 0'),
    (b'ro\x01list', bytes(15), (0, 3), 'refused 7 0'),
    # No multiple of 8 is asked of a read.
    (b'ro\x01i8', ZEROS + FIVE + b'\1', (0,), 'number 5'),
    (b'ro\x01lii8', LIST_OF_12, (0,), 'container 16 12 0'),

    (b'ro\x02stst', ZEROS + slot(16, 3) + slot(24, 3) + letters(b'STK'), (0,), 'refused 7 8'),
    (b'ro\x02stst', ZEROS + slot(16, 3) + slot(24, 3) + letters(b'STK'), (1,), 'bytes 24 3'),
    (b'ro\x02stst', ZEROS + slot(24, 3) + slot(28, 3) + letters(b'STK'), (1,), 'refused 7 16'),
    (b'ro\x02stst', ZEROS + slot(24, 3) + slot(24, 9) + letters(b'STK'), (1,), 'refused 7 16'),
    (b'ro\x02stst', ZEROS + slot(24, 3) + slot(24, 3) + letters(b'STK'), (1,), 'bytes 24 3'),
    (b'ro\x01st', ZEROS + slot(0xFFFFFFF8, 16) + letters(b'STK'), (0,), 'refused 7 8'),
    # Only a check asks for the padding, and for zeros there.
    (b'ro\x01st', ZEROS + slot(16, 3) + b'STK', (0,), 'bytes 16 3'),
    (b'ro\x01st', ZEROS + slot(16, 3) + letters(b'STK', b'\1' * 5), (0,), 'bytes 16 3'),

    (b'ro\x01ro\x02i8i8', ZEROS + slot(16, 16) + ZEROS + FIVE, (0,), 'refused 7 8'),
    (b'ro\x01ro\x02i8i8', ZEROS + slot(16, 16) + ZEROS + FIVE, (0, 0), 'refused 7 8'),
    (b'ro\x01lii8', ZEROS + slot(16, 7) + ZEROS, (0,), 'refused 7 8'),
    (b'ro\x01lii8', TWO_IN_ONE, (0,), 'refused 7 16'),
    # The list is judged before the number of its element.
    (b'ro\x01lii8', TWO_IN_ONE, (0, 9), 'refused 7 16'),
    (b'ro\x01mai8i8', ZEROS + slot(16, 7) + ZEROS, (0,), 'refused 7 8'),
    (b'ro\x01mai8i8', ZEROS + slot(16, 24) + u(4, 8) + ZEROS * 2, (0,), 'refused 7 16'),
    (b'ro\x01mai8i8', ZEROS + slot(16, 24) + u(24, 8) + ZEROS * 2, (0, 1, 0), 'refused 7 16'),

    # An array of a map has its first byte for a slot; it may stand where the row ends.
    (b'ro\x01mai8i8', NO_VALUES, (0, 1), 'refused 7 48'),
    (b'ro\x01mai8i8', NO_VALUES, (0, 0, 0), 'number 5'),
    (b'ro\x01mai8i8', NO_KEYS, (0, 0), 'refused 7 24'),
    (b'ro\x01mai8i8', NO_KEYS, (0, 1), 'container 24 24 1'),
    (b'ro\x01mai8i8', ZEROS + slot(16, 40) + u(16, 8) + u(1, 8) + ZEROS * 3, (0, 0), 'refused 7 24'),
    (b'ro\x01mai8i8', ZEROS + slot(16, 40) + u(16, 8) + ZEROS * 2 + FIVE + ZEROS, (0, 1, 4), 'refused 7 40'),
    # Unequal counts, and bytes left over, are no affair of the walk.
    (b'ro\x01mai8i8', ZEROS + slot(16, 40) + u(16, 8) + ZEROS * 2 + u(0, 8) + ZEROS, (0, 1), 'container 40 16 0'),

    (b'ro\x02boi8', ZEROS + TWO + FIVE, (0,), 'refused 7 8'),
    (b'ro\x02boi8', ZEROS + TWO + FIVE, (1,), 'number 5'),
    (b'ro\x01libo', ZEROS + slot(16, 24) + THREE + ZEROS + b'\0\1\2' + bytes(5), (0, 2), 'refused 7 34'),
    (b'ro\x01mai1bo', ZEROS + slot(16, 56) + u(24, 8) + u(1, 8) + ZEROS * 2 + u(1, 8) + ZEROS + TWO, (0, 1, 0), 'refused 7 64'),

    # Deep down the place counts from the row's first byte too.
    (b'ro\x01liro\x01st', FAR_DOWN, (0, 0, 0), 'refused 7 48'),
    (b'ro\x01liro\x01st', FAR_DOWN, (0, 0), 'container 40 16 1'),
    # Of two faults on the path the outer one is met first.
    (b'ro\x01liro\x01st', FAR_DOWN[:32] + slot(24, 9) + FAR_DOWN[40:], (0, 0, 0), 'refused 7 32'),
    (b'ro\x01liro\x01st', FAR_DOWN[:16] + FIVE + FAR_DOWN[24:], (0, 0, 0), 'refused 7 16'),
    # A check of this row is told the bool of field 0, a read of field 1 its slot.
    (b'ro\x02bost', ZEROS + TWO + slot(0, 3), (1,), 'refused 7 16'),
)


# --- As cases ---------------------------------------------------------------------

def broken_rows():
    """Name, schema, row and place of every row here that a check refuses."""
    for name, schema, struct, places in IN_STRUCT:
        for (whole, row), place in zip(four_rows(schema, struct), places, strict=True):
            yield name, whole, row, place
    yield from WHOLE_ROWS


def place_cases(cases):
    for name, schema, row, place in broken_rows():
        line = 'refused 7 %d' % place
        cases.state(name, request('c', schema, row), line)
        cases.state(name, request('l', schema, row, room=9), '%s %s' % (line, fill(b'', 9)))
        cases.state(name, request('s', schema, row, (77,), kind=9), '%s %s' % (line, row.hex() or '-'))
    for schema, row, path, line in READS:
        for op in 'ro':
            cases.state('read', request(op, schema, row, path), line)
    cases.state('read', request('c', b'ro\x02bost', ZEROS + TWO + slot(0, 3)), 'refused 7 8')
    batches_of_two(cases)


def batches_of_two(cases):
    """A row's place counts from its own first byte, wherever it stands in a batch."""
    wrong = ZEROS + slot(16, 3) + letters(b'STK', b'\0\0\0\1\0')
    cut = ZEROS + slot(16, 9) + letters(b'STK')
    for row, checked, read in ((wrong, 'refused 7 22', 'bytes 16 3'), (cut, 'refused 7 8', 'refused 7 8')):
        batch = frame(C_ROW) + frame(row)
        cases.state('in a batch', request('k', C_SCHEMA, batch), checked + ' row 1')
        cases.state('in a batch', request('k', C_SCHEMA, frame(row) + batch), checked + ' row 0')
        cases.state('in a batch', request('f', C_SCHEMA, batch, room=1), checked)
        cases.state('in a batch', request('z', C_SCHEMA, batch, (0,), room=1, kind=9), '%s %s' % (checked, batch.hex()))
        cases.state('in a batch', request('g', C_SCHEMA, batch, (0,), room=1), read)
        for room in (len(batch), 200):
            cases.state('in a batch', request('A', C_SCHEMA, batch, room=room, third=row), '%s %s' % (checked, fill(batch, room)))
