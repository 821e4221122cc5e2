"""The row document, in plain Python: reading, setting, and the entries with their orders of refusals.

With schemas.py, layouts.py and texts.py this is a second reading of the
document, written from its text alone, so that two programs that share nothing
can be compared.  The four are meant to be read beside the document: each
section here carries a section's rules in the same order.

Every entry takes any bytes.  It answers, or it raises Refused with the
document's number, and with the place of the first fault where that is 7; it
raises nothing else.
"""

import texts
from layouts import content, decode, listing_of, parse_listing
from schemas import (BOOL, BYTES, FLOAT, INT, LIST, MAP, STRUCT, Refused, bitmap_size, broken_at, judge,
                     number_at, pad, signed_at)

ROW_LIMIT = 16384
PATH_LIMIT = 16


# --- Reading one place -------------------------------------------------------

class Place:
    """Where a path ends.

    `null` only for a place whose bit is set.  `slot` and `room` are the bytes
    of its own slot or element, and `bit` its number in the bitmap at `bitmap`;
    the root and a map's arrays have none of these.  `start` and `size` are a
    varying value's extent, `count` a container's.
    """

    __slots__ = ('type', 'null', 'bitmap', 'bit', 'slot', 'room', 'start', 'size', 'count')

    def __init__(self, t):
        self.type = t
        self.null = False
        self.slot = None
        self.count = None


def type_at(root, path):
    """What the schema alone shows of a path: its place's type, or no place."""
    if len(path) > PATH_LIMIT:
        raise Refused(5)
    t = root
    for step in path:
        if t.kind == LIST:
            t = t.parts[0]
        elif step < len(t.parts):
            t = t.parts[step]
        else:
            # A field or a map step out of range; a leaf has no parts at all.
            raise Refused(5)
    return t


def own_rules(t, row, start, size, slot):
    """A varying value's own rules in its extent; a container's count.

    A wrong size, and a string that is no text, is a fault of the slot that gives
    it, a wrong count or K one of the value's own first byte.
    """
    if t.kind == BYTES:
        # A leaf ends the path, so no string is judged on the way.
        if not texts.may_hold(t, row[start:start + size]):
            raise broken_at(slot)
        return None
    if t.kind == STRUCT:
        n = len(t.parts)
        if size < bitmap_size(n) + 8 * n:
            raise broken_at(slot)
        return n
    if size < 8:
        raise broken_at(slot)
    head = number_at(row, start, 8)
    if t.kind == LIST:
        if 8 + bitmap_size(head) + pad(head * t.parts[0].room) > size:
            raise broken_at(start)
        return head
    if head % 8 != 0 or 8 + head > size:
        raise broken_at(start)
    return 2


def walk(root, row, path):
    """Follow a path that the schema allows; nothing off the path is judged."""
    t = root
    start, size = 0, len(row)
    place = Place(t)
    count = own_rules(t, row, start, size, 0)
    last = len(path) - 1
    for k, step in enumerate(path):
        if t.kind == MAP:
            keys_size = number_at(row, start, 8)
            if step == 0:
                start, size = start + 8, keys_size
            else:
                start, size = start + 8 + keys_size, size - 8 - keys_size
            t = t.parts[step]
            place = Place(t)
            # A map's array has no slot: its first byte stands for one.
            count = own_rules(t, row, start, size, start)
            continue
        if step >= count:
            raise Refused(5)
        if t.kind == STRUCT:
            head, room, child = 0, 8, t.parts[step]
        else:
            child = t.parts[0]
            head, room = 8, child.room
        t = child
        place = Place(t)
        place.bitmap = start + head
        place.bit = step
        place.slot = start + head + bitmap_size(count) + room * step
        place.room = room
        if row[place.bitmap + step // 8] >> step % 8 & 1:
            if k != last:
                raise Refused(6)
            place.null = True
            return place
        if t.varying:
            slot = number_at(row, place.slot, 8)
            offset, length = slot >> 32, slot & 0xFFFFFFFF
            fixed = head + bitmap_size(count) + pad(count * room)
            if offset < fixed or offset % 8 != 0 or offset + length > size:
                raise broken_at(place.slot)
            start, size = start + offset, length
            count = own_rules(t, row, start, size, place.slot)
        elif t.kind == BOOL and row[place.slot] > 1:
            raise broken_at(place.slot)
    place.start, place.size, place.count = start, size, count
    return place


def value_at(row, place):
    """The answer that a place gives, as a tuple with its name first."""
    t = place.type
    if place.null:
        return ('null',)
    if t.kind == BOOL:
        return ('bool', row[place.slot])
    if t.kind == INT:
        return ('number', signed_at(row, place.slot, t.width))
    if t.kind == FLOAT:
        return ('float%d' % (8 * t.width), number_at(row, place.slot, t.width))
    if t.kind == BYTES:
        return ('bytes', place.start, place.size)
    return ('container', place.start, place.size, place.count)


# --- Setting one leaf --------------------------------------------------------

def fits(t, setting):
    """Whether a setting fits a leaf of this type.

    A setting is a tuple with its name first: ('null',), ('bool', 0 or 1),
    ('number', n), ('float32', bits), ('float64', bits), ('bytes', bytes); None
    stands for a setting that is none, which fits nowhere.
    """
    if setting is None or t.kind in (LIST, MAP, STRUCT):
        return False
    name = setting[0]
    if name == 'null':
        return True
    if t.kind == BOOL:
        return name == 'bool'
    if t.kind == INT:
        half = 1 << (8 * t.width - 1)
        return name == 'number' and -half <= setting[1] < half
    if t.kind == FLOAT:
        return name == 'float%d' % (8 * t.width)
    return name == 'bytes' and texts.may_hold(t, setting[1])


def apply(row, place, setting):
    """The row after a setting that fits the place's type."""
    t = place.type
    name = setting[0]
    row = bytearray(row)
    byte, mask = place.bitmap + place.bit // 8, 1 << place.bit % 8
    slot = slice(place.slot, place.slot + place.room)
    if t.kind == BYTES:
        if place.null and name == 'null':
            row[slot] = bytes(8)
        elif place.null or name == 'null' or len(setting[1]) != place.size:
            raise Refused(9)
        else:
            row[place.start:place.start + place.size] = setting[1]
    elif name == 'null':
        row[byte] |= mask
        row[slot] = bytes(place.room)
    else:
        row[byte] &= ~mask
        value = setting[1] % (1 << 8 * t.width)
        row[slot] = value.to_bytes(place.room, 'little')
    return bytes(row)


# --- The entries, each with its order of refusals ----------------------------

def within_limit(row):
    if len(row) > ROW_LIMIT:
        raise Refused(3)


def within_room(answer, room):
    if len(answer) > room:
        raise Refused(4, len(answer))


def check(schema, row):
    root = judge(schema)                          # 1
    within_limit(row)                             # 3
    decode(root, row, 0, len(row))                # 7


def write(schema, listing, room):
    """The row; the caller's output has `room` bytes."""
    root = judge(schema)                          # 1
    cell = parse_listing(root, listing)           # 2
    row = content(root, cell)
    within_limit(row)                             # 3
    within_room(row, room)                        # 4
    return row


def list_back(schema, row, room):
    """The listing; the caller's output has `room` bytes."""
    root = judge(schema)                          # 1
    within_limit(row)                             # 3
    cell = decode(root, row, 0, len(row))         # 7
    listing = listing_of(root, cell)
    within_room(listing, room)                    # 4
    return listing


def read(schema, row, path):
    root = judge(schema)                          # 1
    within_limit(row)                             # 3
    type_at(root, path)                           # 5, by the schema alone
    return value_at(row, walk(root, row, path))   # the walk: 7, 5, 6


def text_or(schema, row, path, stand_in):
    """The part of the row for a present string or binary, else the stand-in."""
    try:
        value = read(schema, row, path)
    except Refused:
        return stand_in
    if value[0] != 'bytes':
        return stand_in
    return row[value[1]:value[1] + value[2]]


def set_leaf(schema, row, path, setting):
    """The row after the setting; the lent row itself stays as it is."""
    root = judge(schema)                          # 1
    within_limit(row)                             # 3
    decode(root, row, 0, len(row))                # 7
    type_at(root, path)                           # 5, by the schema alone
    place = walk(root, row, path)                 # 5 for an element; 6
    if not fits(place.type, setting):
        raise Refused(8)                          # 8
    return apply(row, place, setting)             # 9
