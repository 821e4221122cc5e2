"""Scenes that requests are made about: a schema, contents for it, their listing and row; and what to ask there."""

import answers
import layouts
import rows
import schemas
from damage import survey
from making import FLOATS32, FLOATS64, any_order, mark_bytes, root_cell, struct_tree
from schemas import BOOL, FLOAT, INT, LIST, MAP, STRUCT
from text_making import string_bytes


class Scene:
    """The row has its values in field order, or by their ranks where there are some."""

    def __init__(self, schema, root, cells, rank=None):
        self.schema = schema
        self.root = root
        self.cells = cells
        self.rank = rank
        self.listing = layouts.listing_of(root, cells)
        self.row = layouts.content(root, cells, (), rank)
        self.places, self.spots = survey(root, self.row)

    def size_at(self, path):
        """The length of a present string or binary, None elsewhere."""
        try:
            value = rows.value_at(self.row, rows.walk(self.root, self.row, path))
        except schemas.Refused:
            return None
        return value[2] if value[0] == 'bytes' else None


def some_rank(choose):
    """Field order, or as often some other."""
    return any_order(choose) if choose.chance(0.5) else None


def some_scene(choose, schema, budget):
    root = schemas.judge(schema)
    return Scene(schema, root, root_cell(choose, root, budget), some_rank(choose))


def full_scene(choose):
    """Any small row, and a last string that fills it up to the limit or just over."""
    tree = struct_tree(choose, 1, 4, 3) + ((choose.one((b'st', b'bi')),),)
    schema = mark_bytes(tree)
    root = schemas.judge(schema)
    cells = root_cell(choose, root, 60)
    cells[-1] = b''
    short = len(layouts.content(root, cells))
    cells[-1] = string_bytes(choose, root.parts[-1], rows.ROW_LIMIT - short - choose.one((0, 1, 7, 8, 0, -1, -8)), 0)
    return Scene(schema, root, cells, some_rank(choose))


# --- Paths, settings and rooms -----------------------------------------------

def sound_path(choose, scene, near=()):
    places = scene.places
    if near and choose.chance(0.8):
        under = [place for place in places if place[0][:len(near)] == near]
        if under:
            return choose.one(under)[0]
    return choose.one(places)[0]


def descend(choose, t, path, length):
    """Go on from a type by steps that the schema allows, for at most `length`."""
    for _ in range(length):
        if not t.parts:
            break
        step = choose.below(4) if t.kind == LIST else choose.below(len(t.parts))
        t = t.parts[0] if t.kind == LIST else t.parts[step]
        path += (step,)
    return path


def path_for(choose, scene, near=()):
    path = sound_path(choose, scene, near)
    p = choose.random()
    if p < 0.70:
        return path
    if p < 0.75:
        # Below a null, where the schema still goes on.
        nulls = [place for place in scene.places if place[2] and place[1].parts]
        if nulls:
            null = choose.one(nulls)
            return descend(choose, null[1], null[0], 1 + choose.below(6))
    if p < 0.80:
        return descend(choose, scene.root, (), 1 + choose.below(14))
    if p < 0.86 and path:
        # A last step near or past its end.
        last = path[-1]
        return path[:-1] + (choose.one((last + 1, last + 2, 2, 63, 64, 128, 0xFFFFFFFF, 1 << 31)),)
    if p < 0.90 and path:
        k = choose.below(len(path))
        return path[:k] + (choose.below(4),) + path[k + 1:]
    if p < 0.96:
        return path + tuple(choose.below(3) for _ in range(1 + choose.below(3)))
    length = choose.one((13, 14, 15, 16, 16, 17, 17, 18, 63, 64))
    return (path + (0,) * length)[:length]


def mostly_leaf(choose, scene, path):
    """A leaf's path more often than this one: settings are for leaves."""
    if choose.chance(0.6):
        leaves = [place[0] for place in scene.places if not place[1].parts]
        if leaves:
            return choose.one(leaves)
    return path


def setting_for(choose, scene, path):
    """Kind, value and bytes: mostly one that fits the place, or just does not."""
    try:
        t = rows.type_at(scene.root, path)
    except schemas.Refused:
        t = None
    p = choose.random()
    if p < 0.12:
        return 0, choose.one((0, 0, 1, (1 << 64) - 1)), b''
    if p < 0.20 or t is None or t.kind in (LIST, MAP, STRUCT):
        kind = choose.one((0, 1, 2, 3, 4, 5, 5, 6, 7, 127))
        value = choose.one((0, 1, 2, 127, 128, 255, (1 << 32) - 1, 1 << 32, (1 << 64) - 1, 1 << 63,
                            0x3F800000, choose.getrandbits(64)))
        return kind, value, choose.junk(choose.one((0, 1, 3, 8)))
    if t.kind == BOOL:
        return 1, choose.one((0, 1, 0, 1, 0, 1, 2, 256, 1 << 32, (1 << 64) - 1)), b''
    if t.kind == INT:
        half = 1 << (8 * t.width - 1)
        if choose.chance(0.3):
            value = choose.below(2 * half) - half
        else:
            value = choose.one((0, 1, -1, half - 1, -half, half, -half - 1, 2 * half - 1, 2 * half,
                                1 << 32, -(1 << 63), (1 << 63) - 1))
        return 2, value % (1 << 64), b'' if choose.chance(0.9) else choose.junk(3)
    if t.kind == FLOAT:
        if t.width == 4:
            if choose.chance(0.1):
                return 3, choose.one((1 << 32, (1 << 32) + 1, (1 << 64) - 1, 1 << 63)), b''
            value = choose.one(FLOATS32) if choose.chance(0.6) else choose.getrandbits(32)
            return (3 if choose.chance(0.9) else 4), value, b''
        value = choose.one(FLOATS64) if choose.chance(0.6) else choose.getrandbits(64)
        return (4 if choose.chance(0.9) else 3), value, b''
    size = scene.size_at(path)
    if size is None:
        size = choose.one((0, 1, 8))
    elif choose.chance(0.3):
        size = choose.one((size + 1, max(0, size - 1), 0, size + 8, schemas.pad(size)))
    # Bad text comes also where the length is another or the string is null: 8 is before 9.
    return 5, choose.one((0, 0, 7, (1 << 64) - 1)), string_bytes(choose, t, min(size, answers.THIRD_ROOM), 0.2)


def room_for(choose, needed):
    p = choose.random()
    if p < 0.45:
        room = needed
    elif p < 0.60:
        room = needed - 1
    elif p < 0.68:
        room = 0
    elif p < 0.76:
        room = choose.below(needed + 1)
    elif p < 0.80:
        room = needed - 8
    else:
        room = needed + 1 + choose.below(20)
    return max(0, min(room, answers.OUT_ROOM))
