"""Rows in every order of their values, and rows broken at what the order rests on.

A shape is a schema with all contents of some few sizes.  Each contents gives
one row for each order of the values in each of its containers.
"""

import itertools
import math
from collections import namedtuple

import layouts
import rows
from damage import survey
from schemas import BYTES, LIST, MAP, STRUCT, Null, bitmap_size, number_at, pad
from table import u

ABSENT = Null(bytes(8))

# Lengths around the padding: none, one unit not full, one full, two not full.
LENGTHS = (None, 0, 3, 8, 9)
FEWER = (None, 0, 3, 9)

# `broken`: whether the rows are also broken, which makes fifty rows of one.
Shape = namedtuple('Shape', 'schema contents broken')


def text(length, letter):
    """A string of its own letter, so that no two values are alike; None for a null."""
    return ABSENT if length is None else letter.encode() * length


def texts(lengths, letters='ABCD'):
    return [text(length, letter) for length, letter in zip(lengths, letters)]


def each_of(lengths, count):
    return itertools.product(lengths, repeat=count)


def pair(length, letter):
    """A struct of an int64 and a string."""
    return ABSENT if length is None else [u(ord(letter), 8), text(length, letter)]


def mixed_contents():
    structs = [ABSENT, [u(7, 4), b''], [ABSENT, b'abc']]
    lists = [ABSENT, [], [u(n, 2) for n in (1, 2, 3, 4, 5)]]
    maps = [ABSENT, [[], []], [[b'', b'k'], [u(1, 1), Null(b'\0')]]]
    return [list(cells) for cells in itertools.product(structs, lists, maps, texts(FEWER, 'STUV'))]


def strokes():
    """Two nested strokes of two int32 each; two slots at one of them make the March row."""
    first, second = ([u(tick, 4), u(keys, 4)] for tick, keys in ((1000, 5), (1001, 7)))
    contents = [[a, b] for a in (ABSENT, first) for b in (ABSENT, second)]
    return Shape(b'ro\x02' + b'ro\x02i4i4' * 2, contents, True)


def nested_contents():
    """Two lists of two pairs, and a string: three levels that each have an order."""
    halves = [[pair(a, 'P'), pair(b, 'Q')] for a, b in ((0, 3), (9, 0), (3, None))]
    return [[first, text(length, 'T'), second]
            for first in halves for second in halves for length in (None, 0, 9)]


def structs_of_strings():
    for count in (1, 2, 3, 4):
        schema = b'ro' + bytes([count]) + b'st' * count
        yield Shape(schema, [texts(lengths) for lengths in each_of(LENGTHS, count)], count < 4)
    yield Shape(schema, [texts(lengths) for lengths in each_of((None, 0, 9), 4)], True)


def lists_of_strings():
    schema = b'ro\x01list'
    for count in (0, 1, 2, 3, 4):
        yield Shape(schema, [[texts(lengths)] for lengths in each_of(FEWER, count)], count < 4)
    yield Shape(schema, [[texts(lengths)] for lengths in each_of((0, 9), 4)], True)


def lists_of_structs():
    for count in (1, 2, 3):
        yield Shape(b'ro\x01liro\x02i8st',
                    [[[pair(length, letter) for length, letter in zip(lengths, 'PQR')]]
                     for lengths in each_of(FEWER, count)], True)


def maps():
    for lengths, count in ((FEWER, 2), ((0, 9), 3)):
        halves = list(each_of(lengths, count))
        yield Shape(b'ro\x01mastst',
                    [[[texts(keys, 'KLM'), texts(values, 'VWX')]]
                     for keys in halves for values in halves], count < 3)


def shapes():
    yield from structs_of_strings()
    yield from lists_of_strings()
    yield from lists_of_structs()
    yield from maps()
    yield strokes()
    yield Shape(b'ro\x04ro\x02i4stlii2mastbost', mixed_contents(), True)
    yield Shape(b'ro\x03liro\x02i8ststliro\x02i8st', nested_contents(), True)


# --- Every order -------------------------------------------------------------

def value_groups(t, cell, path=()):
    """For each container its present variable values, by their paths."""
    if isinstance(cell, Null) or t.kind not in (STRUCT, LIST, MAP):
        return
    parts = t.parts * len(cell) if t.kind == LIST else t.parts
    if t.kind != MAP:
        yield {path + (i,): part for i, part in enumerate(cell)
               if parts[i].varying and not isinstance(part, Null)}
    for i, part in enumerate(cell):
        yield from value_groups(parts[i], part, path + (i,))


def all_ranks(root, cells):
    """The rank of each value by its path, for every choice of an order in every container."""
    for orders in itertools.product(*map(itertools.permutations, value_groups(root, cells))):
        yield {path: rank for order in orders for rank, path in enumerate(order)}


def row_count(root, cells):
    """How many rows all orders give: orders of the values with bytes, empty ones on any bound."""
    count = 1
    for group in value_groups(root, cells):
        empty = sum(value == b'' for value in group.values())
        full = len(group) - empty
        count *= math.factorial(full) * (full + 1) ** empty
    return count


def rows_in_all_orders(root, cells):
    """Every row of these contents once, with ranks that give it; field order is the first."""
    made = {}
    for ranks in all_ranks(root, cells):
        made.setdefault(layouts.content(root, cells, (), ranks.get), ranks)
    return made


# --- Broken at one place -----------------------------------------------------

class Slot:
    """The slot of a present value: what it says, its container's fixed part and size.

    `ends` tells whether the value stands last in the whole row.
    """

    def __init__(self, root, row, spot, type_of):
        holder = rows.walk(root, row, spot.path[:-1])
        self.at, self.path, self.type = spot.at, spot.path, type_of[spot.path]
        self.size, self.offset = number_at(row, spot.at, 4), number_at(row, spot.at + 4, 4)
        self.holder_size = holder.size
        head, room = (8, holder.type.parts[0].room) if holder.type.kind == LIST else (0, 8)
        self.fixed = head + bitmap_size(holder.count) + pad(holder.count * room)
        self.ends = holder.start + self.offset + pad(self.size) == len(row)


def slots_of(root, row):
    """The slots of a sound row, by their containers."""
    places, spots = survey(root, row)
    type_of = {path: t for path, t, _ in places}
    slots = [Slot(root, row, spot, type_of) for spot in spots if spot.what == 'slot']
    groups = {}
    for slot in slots:
        groups.setdefault(slot.path[:-1], []).append(slot)
    return groups


def with_slot(row, at, offset, size):
    slot = layouts.join_slot(offset % (1 << 32), size % (1 << 32))
    return row[:at] + slot + row[at + 8:]


def broken_rows(root, row):
    """Rows broken at one place, each with whether it is sound all the same.

    None where that is left to the judges: values that exchange their places may
    fit there or not.
    """
    groups = slots_of(root, row)
    yield row + bytes(8), False
    yield row[:-8], False
    for slots in groups.values():
        for slot in slots:
            yield from moved(row, slot, slots)
            yield from resized(row, slot)
            for other in slots:
                if other is not slot:
                    yield from exchanged(row, slot, other)
    yield from gaps_within(row, groups)


def moved(row, slot, slots):
    """A value elsewhere: an empty one is sound on every bound of the others, and nowhere else."""
    if slot.size == 0:
        bounds = [slot.fixed]
        bounds += [other.offset + pad(other.size) for other in slots if other is not slot]
        for offset in range(0, slot.holder_size + 24, 8):
            yield with_slot(row, slot.at, offset, 0), offset in bounds
        steps = (1, 4, -4, -8 - slot.offset)
    else:
        steps = (8, -8, 1, 4, -4)
    for step in steps:
        yield with_slot(row, slot.at, slot.offset + step, slot.size), False


def resized(row, slot):
    yield with_slot(row, slot.at, slot.offset, slot.size + 8), False
    if slot.size >= 8:
        yield with_slot(row, slot.at, slot.offset, slot.size - 8), False


def exchanged(row, slot, other):
    """Two slots at one value, as in the March row; two values that have exchanged their places."""
    both_empty = slot.size == other.size == 0
    yield with_slot(row, slot.at, other.offset, other.size), both_empty
    if slot.at < other.at:
        changed = with_slot(row, slot.at, other.offset, slot.size)
        yield with_slot(changed, other.at, slot.offset, other.size), None


def gaps_within(row, groups):
    """Eight bytes more, which only a container within the row takes in: a gap at its own end."""
    by_path = {slot.path: slot for slots in groups.values() for slot in slots}
    for slot in by_path.values():
        paths = [slot.path[:n] for n in range(1, len(slot.path) + 1)]
        # A map's two arrays have no slot.
        around = [by_path[path] for path in paths if path in by_path]
        if slot.type.kind != BYTES and all(holder.ends for holder in around):
            longer = row + bytes(8)
            for holder in around:
                longer = with_slot(longer, holder.at, holder.offset, holder.size + 8)
            yield longer, False
