"""The two forms that the document gives contents: the listing, and the layout, written and judged."""

import bisect

import texts
from schemas import (BOOL, BYTES, LIST, MAP, NULL_MARK, STRUCT, Null, Refused, bitmap_size, broken_at,
                     number_at, pad, padded)

LISTING_LIMIT = 65536


# --- The listing -------------------------------------------------------------

def take(listing, at, size):
    """The next `size` bytes, all of which must be there."""
    if size > len(listing) - at:
        raise Refused(2)
    return listing[at:at + size], at + size


def parse_cells(types, rooms, count, listing, at):
    """`count` records in a row; a null takes as many bytes as its place has."""
    # Every record has two bytes or more, so a count beyond that cannot be met
    # and need not be tried.
    if count * 2 > len(listing) - at:
        raise Refused(2)
    cells = []
    for i in range(count):
        cell, at = parse_cell(types(i), rooms(i), listing, at)
        cells.append(cell)
    return cells, at


def parse_array(array, count, listing, at):
    element = array.parts[0]
    return parse_cells(lambda i: element, lambda i: element.room, count, listing, at)


def parse_cell(t, room, listing, at):
    mark = listing[at:at + 2]
    if mark == NULL_MARK:
        return Null(bytes(room)), at + 2
    if mark != t.mark:
        raise Refused(2)
    at += 2
    kind = t.kind
    if kind == STRUCT:
        return parse_cells(t.parts.__getitem__, lambda i: 8, len(t.parts), listing, at)
    if not t.varying:
        data, at = take(listing, at, t.width)
        if kind == BOOL and data[0] > 1:
            raise Refused(2)
        return data, at
    head, at = take(listing, at, 4)
    count = int.from_bytes(head, 'little')
    if kind == BYTES:
        data, at = take(listing, at, count)
        if not texts.may_hold(t, data):
            raise Refused(2)
        return data, at
    if kind == LIST:
        return parse_array(t, count, listing, at)
    keys, at = parse_array(t.parts[0], count, listing, at)
    values, at = parse_array(t.parts[1], count, listing, at)
    return [keys, values], at


def parse_listing(root, listing):
    """The contents that a listing holds, zeros under its nulls."""
    if len(listing) > LISTING_LIMIT:
        raise Refused(2)
    cell, end = parse_cell(root, 0, listing, 0)
    if isinstance(cell, Null) or end != len(listing):
        raise Refused(2)
    return cell


def listing_parts(t, cell, parts):
    if isinstance(cell, Null):
        parts.append(NULL_MARK)
        return
    parts.append(t.mark)
    kind = t.kind
    if kind == STRUCT:
        for part, field in zip(cell, t.parts):
            listing_parts(field, part, parts)
    elif kind == LIST:
        parts.append(len(cell).to_bytes(4, 'little'))
        for part in cell:
            listing_parts(t.parts[0], part, parts)
    elif kind == MAP:
        parts.append(len(cell[0]).to_bytes(4, 'little'))
        for array, half in zip(t.parts, cell):
            for part in half:
                listing_parts(array.parts[0], part, parts)
    elif kind == BYTES:
        parts.append(len(cell).to_bytes(4, 'little'))
        parts.append(cell)
    else:
        parts.append(cell)


def listing_of(t, cell):
    parts = []
    listing_parts(t, cell, parts)
    return b''.join(parts)


# --- The layout, written -----------------------------------------------------

def join_slot(offset, size):
    return (offset << 32 | size).to_bytes(8, 'little')


def container_bytes(head, types, room, cells, path, rank):
    """A struct or an array: head, bitmap, slots up to Pad, variable data.

    Values stand in field order, or in the order of their ranks by their paths.
    """
    n = len(cells)
    fixed = len(head) + bitmap_size(n) + pad(n * room)
    bits = 0
    slots = bytearray()
    data = bytearray()
    bodies = {i: content(types(i), cell, path + (i,), rank) for i, cell in enumerate(cells)
              if not isinstance(cell, Null) and types(i).varying}
    offsets = {}
    for i in sorted(bodies, key=(lambda i: rank(path + (i,))) if rank else None):
        offsets[i] = fixed + len(data)
        data += padded(bodies[i])
    for i, cell in enumerate(cells):
        if isinstance(cell, Null):
            bits |= 1 << i
            slots += cell.under
            continue
        t = types(i)
        if t.varying:
            slots += join_slot(offsets[i], len(bodies[i]))
        else:
            slots += cell
            slots += bytes(room - len(cell))
    return b''.join((head, bits.to_bytes(bitmap_size(n), 'little'), padded(slots), data))


def content(t, cell, path=(), rank=None):
    """The bytes of a varying value that is there, in field order or by ranks."""
    if t.kind == BYTES:
        return cell
    if t.kind == STRUCT:
        return container_bytes(b'', t.parts.__getitem__, 8, cell, path, rank)
    if t.kind == LIST:
        element = t.parts[0]
        count = len(cell).to_bytes(8, 'little')
        return container_bytes(count, lambda i: element, element.room, cell, path, rank)
    keys = content(t.parts[0], cell[0], path + (0,), rank)
    values = content(t.parts[1], cell[1], path + (1,), rank)
    return len(keys).to_bytes(8, 'little') + keys + values


# --- The layout, judged strictly ---------------------------------------------
#
# Faults are met in the order that request Q-3 gives, and the first one ends the
# reading with its place, counted from the row's first byte.

def decode(t, row, start, end, slot=0, count=None):
    """The contents that row[start:end] lays out, every byte of it judged.

    `slot` is the place of a wrong size or end, or of bad text: where the value's slot stands, 0
    of the root, and of a map's array its own first byte.  `count` is the number
    of keys, which the array of a map's values must have too.
    """
    size = end - start
    if t.kind == BYTES:
        # Here the slot's range is judged already, and the padding is not yet.
        if not texts.may_hold(t, row[start:end]):
            raise broken_at(slot)
        return row[start:end]
    if t.kind == STRUCT:
        n = len(t.parts)
        if size < bitmap_size(n) + 8 * n or size % 8:
            raise broken_at(slot)
        return decode_children(row, start, end, slot, 0, t.parts.__getitem__, n, 8)
    if size < 8 or size % 8:
        raise broken_at(slot)
    head = number_at(row, start, 8)
    if t.kind == LIST:
        element = t.parts[0]
        if 8 + bitmap_size(head) + pad(head * element.room) > size or count not in (None, head):
            raise broken_at(start)
        return decode_children(row, start, end, slot, 8, lambda i: element, head, element.room)
    split = start + 8 + head
    if head % 8 or split > end:
        raise broken_at(start)
    keys = decode(t.parts[0], row, start + 8, split, start + 8)
    return [keys, decode(t.parts[1], row, split, end, split, len(keys))]


def decode_children(row, start, end, slot, head, types, n, room):
    """The contents of a struct or an array whose size and header are right."""
    bitmap = start + head
    slots = bitmap + bitmap_size(n)
    slots_end = slots + n * room
    fixed_end = slots + pad(n * room)
    bits = number_at(row, bitmap, slots - bitmap)
    past = bits >> n << n
    if past:
        raise broken_at(bitmap + ((past & -past).bit_length() - 1) // 8)
    cells = []
    ranges = []
    free = end - fixed_end
    for i in range(n):
        t = types(i)
        at = slots + i * room
        if bits and bits >> i & 1:
            cells.append(Null(row[at:at + room]))
        elif t.varying:
            first, last = extent(row, start, at)
            behind = first + pad(last - first)
            if first < fixed_end or (first - start) % 8 or behind > end or not apart(ranges, first, behind):
                raise broken_at(at)
            cells.append(decode(t, row, first, last, at))
            zeros(row, last, behind)
            free -= behind - first
        else:
            if t.kind == BOOL and row[at] > 1:
                raise broken_at(at)
            zeros(row, at + t.width, at + room)
            cells.append(row[at:at + t.width])
    zeros(row, slots_end, fixed_end)
    # The values lie apart from each other between the fixed part and the end,
    # so they leave no gap exactly if their sizes make up all of it.
    if free:
        raise broken_at(slot)
    return cells


def extent(row, start, at):
    """Where the value of a slot starts and ends, without its padding."""
    slot = number_at(row, at, 8)
    first = start + (slot >> 32)
    return first, first + (slot & 0xFFFFFFFF)


def zeros(row, first, last):
    """Refuses the first byte between the two that is not zero."""
    if any(row[first:last]):
        raise broken_at(next(at for at in range(first, last) if row[at]))


def apart(ranges, first, behind):
    """Whether a value lies apart from its earlier siblings; then its range is kept with theirs.

    Theirs are sorted and apart: each ends where the next begins or before, an
    empty one before the value that starts where it stands.  So only the two
    next to it can be in the way, and what a value holds is looked at when it is
    known that no sibling before it holds it, however deep they go.
    """
    i = bisect.bisect(ranges, (first, behind))
    if i > 0 and ranges[i - 1][1] > first or i < len(ranges) and ranges[i][0] < behind:
        return False
    ranges.insert(i, (first, behind))
    return True
