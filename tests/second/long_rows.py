"""Long rows in any order, and rows as deep as they go with every level in reversed order."""

import layouts
from making import Chooser, any_order
from order_rows import slots_of, with_slot
from schemas import LIST, judge

STRINGS = b'ro\x01list'

# Seven containers below each other, each with another value beside the next.
DEEP_SCHEMAS = (
    b'ro\x02' * 7 + b'st' * 8,
    b'ro\x02' + b'li' * 6 + b'stst',
    b'ro\x02' + b'mast' * 6 + b'stst',
    b'ro\x02liro\x02mastro\x02lilistststst',
)

# A list of lists, six deep.
SHARED = b'ro\x01' + b'li' * 6 + b'st'

# A few slots of each container are moved, not thousands.
SLOTS_EVERY = 13


def backwards(path):
    """The rank of a value in reversed order."""
    return -path[-1]


def strings(lengths):
    return [[b'STK PWR'[:length] for length in lengths]]


def deep_cells(t, number=0):
    """Two elements in each list and map; strings of several lengths."""
    if not t.parts:
        return b'PWR STK TPH'[:(3, 0, 8, 11)[number % 4]]
    parts = t.parts * 2 if t.kind == LIST else t.parts
    return [deep_cells(part, number + i) for i, part in enumerate(parts)]


def sound_contents():
    """Name, schema, contents and ranks of every long row that is accepted."""
    choose = Chooser('long rows')
    yield '2,000 empty strings', STRINGS, strings([0] * 2000), None
    yield '1,000 strings reversed', STRINGS, strings([3] * 1000), backwards
    lengths = [0 if i % 100 else 5 for i in range(1900)]
    yield '1,900 strings, 19 of them not empty, reversed', STRINGS, strings(lengths), backwards
    for _ in range(20):
        lengths = [choose.one((0, 0, 1, 5, 7)) for _ in range(1100)]
        yield '1,100 strings in some order', STRINGS, strings(lengths), any_order(choose)
    for schema in DEEP_SCHEMAS:
        yield 'eight deep, reversed', schema, deep_cells(judge(schema)), backwards


def sound_rows():
    for name, schema, cells, rank in sound_contents():
        root = judge(schema)
        yield name, schema, layouts.listing_of(root, cells), layouts.content(root, cells, (), rank)


def broken_rows():
    """Name, schema and row of long rows that are refused."""
    for name, schema, _, row in sound_rows():
        for broken in moved_by_eight(schema, row):
            yield name + ', one moved by 8', schema, broken
    for broken in moved_empties():
        yield 'empty strings beside their place', STRINGS, broken
    yield 'many slots at one value, at every level', SHARED, shared_row()


def moved_by_eight(schema, row):
    """A value with bytes moved: over another, or with a gap."""
    for slots in slots_of(judge(schema), row).values():
        for slot in slots[::SLOTS_EVERY]:
            if slot.size:
                for step in (8, -8):
                    yield with_slot(row, slot.at, slot.offset + step, slot.size)


def moved_empties():
    """2,000 empty strings of which one, or all, stand eight bytes from where the list ends."""
    row = layouts.content(judge(STRINGS), strings([0] * 2000))
    slots = range(len(row) - 8 * 2000, len(row), 8)
    end = len(row) - 16
    for step in (8, -8):
        for at in (slots[0], slots[999], slots[-1]):
            yield with_slot(row, at, end + step, 0)
        yield row[:slots[0]] + layouts.join_slot(end + step, 0) * 2000


def shared_row():
    """Lists below each other, forty slots in each, all at one list.

    Whoever looks into all values before their places are judged never ends.
    """
    value = b'STKPWRTP'
    for _ in range(6):
        slots = layouts.join_slot(16 + 8 * 40, len(value)) * 40
        value = (40).to_bytes(8, 'little') + bytes(8) + slots + value
    return bytes(8) + layouts.join_slot(16, len(value)) + value


def write_cards(folder):
    """The sound rows as inputs of the card tool."""
    folder.mkdir(parents=True, exist_ok=True)
    for number, (_, schema, _, row) in enumerate(sound_rows()):
        data = len(schema).to_bytes(2, 'little') + schema + row
        (folder / ('%02d.card' % number)).write_bytes(data)
