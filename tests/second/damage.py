"""Wrong schemas, listings and rows, and the survey of a sound row that shows where its rules stand."""

import layouts
import rows
import schemas
from making import long_tree, mark_bytes, tower_tree, wide_tree
from schemas import BOOL, BYTES, MAP, STRUCT
from text_making import bad_text_of
from texts import STRING_MARK

ALL_MARKS = [mark for mark, _, _ in schemas.TABLE]


# --- What stands where in a row ----------------------------------------------

class Spot:
    """A byte position of the row that says something, and the path it belongs to.

    `size` is how many bytes it has; of a bitmap, how many bits are in use; of a
    count, how many bytes an element takes.
    """

    __slots__ = ('what', 'at', 'size', 'path')

    def __init__(self, what, at, size, path):
        self.what, self.at, self.size, self.path = what, at, size, path


def survey(root, row):
    """Places (path, type, null) and spots of a sound row.

    Of a long list only the first and the last elements are kept: the others are
    like them, and there may be many thousands.
    """
    places = [((), root, False)]
    spots = []

    def children(t, start, end, path):
        if t.kind == MAP:
            keys = schemas.number_at(row, start, 8)
            spots.append(Spot('keys size', start, 8, path))
            for step, low, high in ((0, start + 8, start + 8 + keys), (1, start + 8 + keys, end)):
                places.append((path + (step,), t.parts[step], False))
                children(t.parts[step], low, high, path + (step,))
            return
        if t.kind == STRUCT:
            head, n, room = 0, len(t.parts), 8
            shown = range(n)
        else:
            head, n, room = 8, schemas.number_at(row, start, 8), t.parts[0].room
            spots.append(Spot('count', start, room, path))
            shown = range(n) if n <= 40 else list(range(36)) + list(range(n - 4, n))
        bitmap = start + head
        slots = bitmap + schemas.bitmap_size(n)
        if n:
            spots.append(Spot('bitmap', bitmap, n, path))
        if n * room % 8:
            spots.append(Spot('zeros', slots + n * room, -(n * room) % 8, path))
        for i in shown:
            child = t.parts[i] if head == 0 else t.parts[0]
            here = path + (i,)
            at = slots + i * room
            if row[bitmap + i // 8] >> i % 8 & 1:
                places.append((here, child, True))
                spots.append(Spot('null slot', at, room, here))
                continue
            places.append((here, child, False))
            if not child.varying:
                spots.append(Spot('bool' if child.kind == BOOL else 'fixed', at, room, here))
                continue
            spots.append(Spot('slot', at, 8, here))
            slot = schemas.number_at(row, at, 8)
            first = start + (slot >> 32)
            last = first + (slot & 0xFFFFFFFF)
            if child.kind == BYTES:
                if child.mark == STRING_MARK and last > first:
                    spots.append(Spot('text', first, last - first, here))
                if last % 8:
                    spots.append(Spot('zeros', last, -last % 8, here))
            else:
                children(child, first, last, here)

    children(root, 0, len(row), ())
    return places, spots


# --- Any bytes ---------------------------------------------------------------

def flip(choose, data):
    if not data:
        return data
    changed = bytearray(data)
    changed[choose.below(len(data))] ^= 1 << choose.below(8)
    return bytes(changed)


def cut(choose, data):
    if not data:
        return data
    if choose.chance(0.5):
        return data[:-choose.one((1, 2, 4, 7, 8, 9, 16))]
    return data[:choose.below(len(data))]


def grow(choose, data):
    size = choose.one((1, 2, 7, 8, 8, 9, 16))
    return data + (bytes(size) if choose.chance(0.6) else choose.junk(size))


def lengthened(choose, row):
    """A row with zeros behind it, up to its limit or just over."""
    return row + bytes(max(0, rows.ROW_LIMIT + choose.one((-8, 0, 1, 8)) - len(row)))


# --- Schemas and listings ----------------------------------------------------

def bad_schema(choose, schema):
    """Mostly schemas that break a rule, each at one place."""
    p = choose.below(14)
    if p == 0:
        return schema[:choose.below(len(schema))]
    if p == 1:
        return schema + choose.one(ALL_MARKS)
    if p == 2:
        return schema + choose.junk(1 + choose.below(3))
    if p == 3:
        return flip(choose, schema)
    if p == 4:
        at = choose.below(len(schema))
        return schema[:at] + choose.one(ALL_MARKS) + schema[at + 2:]
    if p == 5:
        return mark_bytes(tower_tree(choose, 9 + choose.below(2)))
    if p == 6:
        return mark_bytes(wide_tree(choose, choose.one((129, 130, 255))))
    if p == 7:
        return schema[:2] + bytes([choose.one((0, 129, 255, 128, schema[2] - 1))]) + schema[3:]
    if p == 8:
        return mark_bytes(long_tree(choose, choose.one((1024, 1025, 1026, 1027, 1600, 2047, 2048))))
    if p == 9:
        return schema[3:]
    if p == 10:
        return choose.one((b'', b'r', b'ro', b'ro\x01', b'ro\x00', b'li', b'list', b'mast', b'st',
                           b'nu', b'ro\x01nu', b'ro\x01li', b'ro\x01ma', b'ro\x01mast', b'mai4i4',
                           b'lii4', b'RO\x01i4', b'ro\x01I4', b'ro\x01i3', b'ro\x01f2'))
    if p == 11:
        return b'ro\x01' + b'li' * choose.one((5, 6, 7, 8, 300)) + b'i4'
    if p == 12:
        return b'ro\x01' * choose.one((6, 7, 8, 9, 300)) + b'i4'
    return choose.junk(choose.below(12))


def bad_listing(choose, scene):
    listing = scene.listing
    p = choose.below(12)
    if p == 0:
        return cut(choose, listing)
    if p in (1, 2):
        return flip(choose, listing)
    if p == 3:
        return grow(choose, listing)
    if p == 4:
        return listing + listing[:2 + choose.below(6)]
    if p == 5:
        # A mark where another stood: a null for a value, or another type.
        at = choose.below(len(listing))
        return listing[:at] + choose.one([b'nu'] + ALL_MARKS) + listing[at + 2:]
    if p == 6:
        # A wrong count behind a mark that has one.
        for _ in range(4):
            mark = choose.one((b'st', b'bi', b'li', b'ma'))
            at = listing.find(mark, choose.below(len(listing)))
            if at >= 0:
                count = schemas.number_at(listing, at + 2, 4)
                count = choose.one((count + 1, count - 1, 0, 1, 64, 65, 0xFFFFFFFF, 0x7FFFFFFF,
                                    0x80000000, 1 << 24, 32768, 65536))
                return listing[:at + 2] + (count % (1 << 32)).to_bytes(4, 'little') + listing[at + 6:]
        return b'nu'
    if p == 7:
        at = listing.find(b'bo')
        if at >= 0 and at + 2 < len(listing):
            return listing[:at + 2] + bytes([choose.one((2, 255, 128))]) + listing[at + 3:]
        return choose.one((b'', b'n', b'nu', b'ro', b'r', b'nunu'))
    if p >= 9:
        return bad_text_listing(choose, scene)
    at = choose.below(len(listing))
    end = at + 1 + choose.below(8)
    return listing[:at] + listing[end:]


def bad_text_listing(choose, scene):
    """The listing with other bytes in one of its strings, as many, that mostly are no text; with one bit changed where it has none."""
    strings = [spot.path for spot in scene.spots if spot.what == 'text']
    if not strings:
        return flip(choose, scene.listing)

    def changed(cell, path):
        if not path:
            return bad_text_of(choose, len(cell))
        return cell[:path[0]] + [changed(cell[path[0]], path[1:])] + cell[path[0] + 1:]

    return layouts.listing_of(scene.root, changed(scene.cells, choose.one(strings)))


# --- Rows and their slots ----------------------------------------------------

def bad_row(choose, scene):
    """A damaged row, and the path near the damage."""
    row, near = one_damage(choose, scene)
    if choose.chance(0.1):
        row = flip(choose, row)
    return row, near


def loose_row(choose, size):
    """A row of likely words, sound by chance at best: small counts and slots."""
    words = []
    for _ in range(size // 8):
        p = choose.below(6)
        if p < 2:
            word = 0
        elif p == 2:
            word = choose.below(6)
        elif p < 5:
            word = choose.below(size // 8 + 1) << 35 | choose.below(size + 8)
        else:
            word = choose.getrandbits(64)
        words.append(word.to_bytes(8, 'little'))
    return b''.join(words) + choose.junk(choose.one((0, 0, 0, 1, 7)))


def relaid_row(choose, scene):
    """The root's values in another order, and there with gaps, or one in another's place.

    Each value is sound by itself and lies within the row, so that only the
    rule about the places of variable data can tell.
    """
    row, n = scene.row, len(scene.root.parts)
    fixed = schemas.bitmap_size(n) + 8 * n
    slots = [s.at for s in scene.spots if s.what == 'slot' and len(s.path) == 1]
    blocks = []
    for at in slots:
        slot = schemas.number_at(row, at, 8)
        offset, size = slot >> 32, slot & 0xFFFFFFFF
        blocks.append((at, size, row[offset:offset + schemas.pad(size)]))
    choose.shuffle(blocks)
    p = choose.below(3)
    changed = bytearray(row[:fixed])
    for at, size, block in blocks:
        if p == 1 and choose.chance(0.5):
            changed += bytes(8)
        start = len(changed)
        if p == 2 and choose.chance(0.3) and start - len(block) >= fixed:
            start -= len(block)
        else:
            changed += block
        changed[at:at + 8] = layouts.join_slot(start, size)
    if p == 1 and choose.chance(0.2):
        changed += bytes(8)
    return bytes(changed)


def uneven_row(choose, scene):
    """One map with fewer keys than values or the other way round, else sound."""
    maps = [path for path, t, null in scene.places if t.kind == MAP and not null]
    if not maps:
        return scene.row, ()
    path = choose.one(maps)

    def without(cell, rest):
        if rest:
            cell = list(cell)
            cell[rest[0]] = without(cell[rest[0]], rest[1:])
            return cell
        halves = [list(cell[0]), list(cell[1])]
        half = choose.one(halves)
        if half:
            half.pop()
        return halves

    return layouts.content(scene.root, without(scene.cells, path), (), scene.rank), path


def wrapping_count(choose, room):
    """A count whose bytes come to little more than nothing, modulo 2^32 or 2^64."""
    bits = choose.one((32, 64, 64))
    turns = 1 + choose.below(room if bits == 64 else 3)
    whole = turns << bits
    block = 8 + 64 * room
    blocks, left = divmod(whole, block)
    return 64 * blocks + max(0, left - 16 + 8 * choose.below(3)) // room


def bad_text_row(choose, scene):
    """Other bytes in one string, that mostly are no text, and here and there in its padding too."""
    strings = [spot for spot in scene.spots if spot.what == 'text']
    if not strings:
        return flip(choose, scene.row), ()
    spot = choose.one(strings)
    end = spot.at + spot.size
    padding = choose.junk(-end % 8) if choose.chance(0.2) else bytes(-end % 8)
    return scene.row[:spot.at] + bad_text_of(choose, spot.size) + padding + scene.row[end + len(padding):], spot.path


def one_damage(choose, scene):
    row, spots = scene.row, scene.spots
    p = choose.below(21)
    if p >= 19:
        return bad_text_row(choose, scene)
    if p == 16:
        fixed = schemas.bitmap_size(len(scene.root.parts)) + 8 * len(scene.root.parts)
        return loose_row(choose, fixed + 8 * choose.below(30)), ()
    if p == 17:
        return relaid_row(choose, scene), ()
    if p == 18:
        return uneven_row(choose, scene)
    if p == 0:
        return cut(choose, row), ()
    if p == 1:
        return grow(choose, row), ()
    if p in (2, 3):
        row = flip(choose, row)
        if choose.chance(0.3):
            row = flip(choose, row)
        return row, ()
    if p == 4:
        at = choose.below(len(row) // 8 + 1) * 8
        if choose.chance(0.5):
            return row[:at] + choose.one((bytes(8), choose.junk(8))) + row[at:], ()
        return row[:at] + row[at + 8:], ()
    spot = choose.one(spots)
    if p >= 7:
        # The places where a rule stands, rather than the many plain bytes.
        wanted = choose.one(('slot', 'slot', 'slot', 'slot', 'count', 'keys size', 'bitmap', 'bool',
                             'zeros', 'fixed', 'null slot', 'text'))
        fitting = [s for s in spots if s.what == wanted]
        if fitting:
            spot = choose.one(fitting)
    changed = bytearray(row)
    at, size, what = spot.at, spot.size, spot.what
    if what == 'slot':
        bad_slot(choose, changed, spot, [s for s in spots if s.what == 'slot'])
    elif what == 'count' and choose.chance(0.2):
        value = wrapping_count(choose, size)
        changed[at:at + 8] = (value % (1 << 64)).to_bytes(8, 'little')
    elif what in ('count', 'keys size'):
        value = schemas.number_at(row, at, 8)
        value = choose.one((value + 1, value - 1, value + 8, value - 8, value + 2, 0, 64, 65,
                            value + 64, value ^ 1 << choose.below(64), 1 << 63, (1 << 64) - 1,
                            (1 << 64) - 8, 1 << 32, (1 << 61) + value, (1 << 32) + value, 16384))
        changed[at:at + 8] = (value % (1 << 64)).to_bytes(8, 'little')
    elif what == 'bitmap':
        if choose.chance(0.5):
            bit = choose.below(schemas.bitmap_size(size) * 8)
        else:
            bit = choose.one((size - 1, size, size // 2, schemas.bitmap_size(size) * 8 - 1))
        if bit < schemas.bitmap_size(size) * 8:
            changed[at + bit // 8] ^= 1 << bit % 8
    elif what == 'bool':
        changed[at] = choose.one((2, 3, 255, 128, 0, 1))
    elif what == 'text':
        changed[at:at + size] = bad_text_of(choose, size)
    elif what == 'zeros':
        changed[at + choose.one((0, size - 1, choose.below(size)))] = choose.one((1, 128, 255))
    else:
        changed[at + choose.below(size)] ^= 1 << choose.below(8)
    return bytes(changed), spot.path


def bad_slot(choose, changed, spot, slots):
    at = spot.at
    slot = schemas.number_at(changed, at, 8)
    offset, size = slot >> 32, slot & 0xFFFFFFFF
    other = choose.one(slots)
    p = choose.below(9)
    if size == 0 and choose.chance(0.5):
        # Sound on the bounds of other values, and nowhere else.
        offset = max(0, offset + 8 * (choose.below(9) - 4))
    elif p == 0:
        changed[at:at + 8], changed[other.at:other.at + 8] = (
            changed[other.at:other.at + 8], changed[at:at + 8])
        return
    elif p == 1:
        # Two fields that share one value: what each holds is sound by itself.
        changed[at:at + 8] = changed[other.at:other.at + 8]
        return
    elif p == 2:
        offset = schemas.number_at(changed, other.at, 8) >> 32
    elif p == 3:
        offset += choose.one((8, -8, 1, 4, -4, 16, 64))
    elif p in (4, 8):
        size += choose.one((1, -1, 8, -8, 4, 16, 7, -2, -3, -4, -5, -6, -7))
    elif p == 5:
        offset = choose.one((0, 8, 0xFFFFFFF8, 0xFFFFFFFF, 0x80000000, len(changed), len(changed) - 8))
        if choose.chance(0.5):
            size = (1 << 32) - offset + choose.one((0, 8, size))
    elif p == 6:
        size = choose.one((0, 7, 8, 9, 0xFFFFFFFF, 0xFFFFFFF8, 0x80000000, len(changed)))
    else:
        offset, size = choose.below(len(changed) // 8 + 2) * 8, choose.below(40)
    slot = (offset % (1 << 32)) << 32 | size % (1 << 32)
    changed[at:at + 8] = slot.to_bytes(8, 'little')
