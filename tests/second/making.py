"""Seeded random schemas that keep their rules, and contents for them."""

import collections
import random

import schemas
from schemas import BOOL, BYTES, FLOAT, LIST, STRUCT, Null
from text_making import string_bytes

LEAF_MARKS = sorted(schemas.LEAVES)

NAN32 = (0x7FC00000, 0xFFC00000, 0x7F800001, 0x7FFFFFFF, 0xFFABCDEF)
NAN64 = (0x7FF8000000000000, 0xFFF8000000000000, 0x7FF0000000000001,
         0x7FFFFFFFFFFFFFFF, 0xFFF123456789ABCD)
FLOATS32 = NAN32 + (0, 0x80000000, 0x3F800000, 0x7F800000, 0xFF800000, 1)
FLOATS64 = NAN64 + (0, 1 << 63, 0x3FF0000000000000, 0x7FF0000000000000, 1)


class Chooser(random.Random):
    """A seed's stream of small choices."""

    def chance(self, p):
        return self.random() < p

    def below(self, n):
        return int(self.random() * n)

    def one(self, choices):
        return choices[int(self.random() * len(choices))]

    def junk(self, n):
        return self.randbytes(n)


# --- Schemas, as trees of nested tuples --------------------------------------

def mark_bytes(tree):
    """A schema from a nested tuple: (mark,), ('li', t), ('ma', k, v), ('ro', t..)."""
    mark = tree[0]
    if mark == b'ro':
        head = mark + bytes([len(tree) - 1])
    else:
        head = mark
    return head + b''.join(mark_bytes(part) for part in tree[1:])


def leaf(choose):
    # A string more often than others: it has a rule of its own about what it holds.
    return (b'st' if choose.chance(0.15) else choose.one(LEAF_MARKS),)


def type_tree(choose, depth, deepest, spread):
    """A type at this depth, with nothing deeper than `deepest`."""
    if depth >= deepest or choose.chance(0.45):
        return leaf(choose)
    mark = choose.one((b'li', b'li', b'ma', b'ro'))
    if mark == b'li':
        return (mark, type_tree(choose, depth + 1, deepest, spread))
    if mark == b'ma':
        return (mark, type_tree(choose, depth + 1, deepest, 1),
                type_tree(choose, depth + 1, deepest, spread))
    return struct_tree(choose, depth, deepest, spread)


def struct_tree(choose, depth, deepest, spread):
    count = 1 + choose.below(spread)
    return (b'ro',) + tuple(type_tree(choose, depth + 1, deepest, spread) for _ in range(count))


def tower_tree(choose, depth):
    """One branch that reaches exactly `depth`, with a few leaves beside it."""
    t = leaf(choose)
    for level in range(depth - 1, 0, -1):
        mark = b'ro' if level == 1 else choose.one((b'li', b'ma', b'ro'))
        if mark == b'li':
            t = (mark, t)
        elif mark == b'ma':
            t = (mark, leaf(choose), t) if choose.chance(0.5) else (mark, t, leaf(choose))
        else:
            fields = [leaf(choose) for _ in range(choose.below(3))]
            fields.insert(choose.below(len(fields) + 1), t)
            t = (mark,) + tuple(fields)
    return t


def wide_tree(choose, count):
    """A struct of exactly `count` fields, at the root or one below."""
    palette = [leaf(choose) for _ in range(1 + choose.below(4))]
    if choose.chance(0.3):
        palette.append((b'li', leaf(choose)))
    t = (b'ro',) + tuple(choose.one(palette) for _ in range(count))
    return (b'ro', t) if choose.chance(0.2) else t


def long_tree(choose, size):
    """A schema of exactly `size` bytes, about 1,024 of them."""
    # Every struct has three bytes and every leaf two: the structs' number
    # decides whether the size is even.
    structs = 9 if size % 2 == 0 else 8
    leaves = (size - 3 * (structs + 1)) // 2
    groups = [(leaves + i) // structs for i in range(structs)]
    return (b'ro',) + tuple((b'ro',) + tuple(leaf(choose) for _ in range(n)) for n in groups)


def sound_tree(choose):
    p = choose.random()
    if p < 0.80:
        return struct_tree(choose, 1, 2 + choose.below(4), 2 + choose.below(4))
    if p < 0.92:
        return tower_tree(choose, 5 + choose.below(4))
    if p < 0.985:
        return wide_tree(choose, choose.one((8, 9, 63, 64, 65, 127, 128)))
    return long_tree(choose, choose.one((1020, 1023, 1024)))


def sound_schema(choose):
    """A schema that keeps its rules, most of them with a short row."""
    while True:
        tree = sound_tree(choose)
        schema = mark_bytes(tree)
        if len(schema) <= schemas.SCHEMA_LIMIT:
            return schema


# --- Contents ----------------------------------------------------------------

def number_bytes(choose, width):
    if choose.chance(0.5):
        return choose.junk(width)
    half = 1 << (8 * width - 1)
    value = choose.one((0, 1, 2, half - 1, half, half + 1, 2 * half - 1, 2 * half - 2))
    return (value % (2 * half)).to_bytes(width, 'little')


class Contents:
    """Makes contents of about `budget` cells; `nulls` is the chance that one is null."""

    def __init__(self, choose, budget, nulls):
        self.choose = choose
        self.budget = budget
        self.nulls = nulls

    def cell(self, t, room):
        """Contents for a place; junk of the place's size under a null."""
        choose = self.choose
        self.budget -= 1
        nulls = self.nulls
        if self.budget < 0 and t.varying:
            nulls = 0.9
        if choose.chance(nulls):
            return Null(choose.junk(room) if choose.chance(0.7) else bytes(room))
        kind = t.kind
        if kind == BOOL:
            return bytes([choose.below(2)])
        if kind == FLOAT and choose.chance(0.3):
            return choose.one(FLOATS32 if t.width == 4 else FLOATS64).to_bytes(t.width, 'little')
        if not t.varying:
            return number_bytes(choose, t.width)
        if kind == BYTES:
            # Empty ones most often: in any order they have a rule of their own.
            sizes = (0, 0, 0, 1, 3, 7, 8, 9, 15, 16, 17)
            size = choose.one(sizes) if choose.chance(0.6) else choose.below(41) if choose.chance(0.97) else 41 + choose.below(160)
            return string_bytes(choose, t, size, 0)
        if kind == STRUCT:
            return self.fields(t)
        if kind == LIST:
            return self.array(t, self.list_count())
        count = self.list_count()
        return [self.array(t.parts[0], count), self.array(t.parts[1], count)]

    def fields(self, t):
        return [self.cell(field, 8) for field in t.parts]

    def list_count(self):
        if self.budget <= 0:
            return 0
        p = self.choose.random()
        if p < 0.9:
            return self.choose.below(5)
        if p < 0.97:
            return self.choose.one((7, 8, 9, 10, 15, 16, 17))
        return self.choose.one((63, 64, 65)) if self.budget > 65 else 5

    def array(self, t, count):
        element = t.parts[0]
        return [self.cell(element, element.room) for _ in range(count)]


def root_cell(choose, root, budget):
    return Contents(choose, budget, choose.one((0, 0.1, 0.1, 0.25, 0.5))).fields(root)


def any_order(choose):
    """Ranks of values by their paths, each drawn when it is first asked for, and kept."""
    return collections.defaultdict(choose.random).__getitem__
