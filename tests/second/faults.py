"""All faults of a row, each with its turn: a slow second account of request Q-3's places.

Nothing here ends at the first fault.  Each rule tells every place where it is
broken, seen from the value that breaks it, with the turn at which the request
judges it; the row's place is the one whose turn comes first.  A rule is left
out only where the bytes that it speaks of are not there, or not the value's.

A read has the faults on its path, and of those only what a read judges.
"""

import texts
from schemas import BOOL, BYTES, LIST, STRUCT, bitmap_size, number_at, pad

# The place of a fault that is told at the value's slot.
SLOT = 'slot'

# The turns of a container's rules; those of child i are (CHILD, i, ..).
SIZE, HEADER, BITMAP, CHILD, ZEROS_BEHIND, END = range(6)

# The turns of a varying child's rules.
RANGE, CONTENTS, PADDING = range(3)


def place(root, row, path=None):
    """The place of a row's first fault, or of the first that a read of this path meets; None where there is none."""
    found = min(faults(root, row, path), key=lambda fault: fault[0], default=None)
    return None if found is None else from_holder(found[1], 0, 0)


def from_holder(where, slot, start):
    """A place seen from the value at `start`, as its holder sees it."""
    return slot if where == SLOT else start + where


def on_path(path, i):
    return path is None or path[:1] == (i,)


def rest(path):
    return path if path is None else path[1:]


def faults(t, data, path, keys=None):
    """Turn and place of each fault of a value; the array of a map's values has the header `keys` too."""
    if t.kind == BYTES:
        if not texts.may_hold_by_decoder(t, data):
            yield (), SLOT
        return
    least = bitmap_size(len(t.parts)) + 8 * len(t.parts) if t.kind == STRUCT else 8
    if len(data) < least or path is None and len(data) % 8:
        yield (SIZE,), SLOT
    if len(data) < least:
        return
    head = number_at(data, 0, 8)
    if t.kind == STRUCT:
        yield from child_faults(data, 0, t.parts, 8, path)
    elif t.kind == LIST:
        element = t.parts[0]
        fits = 8 + bitmap_size(head) + pad(head * element.room) <= len(data)
        if not fits or keys not in (None, data[:8]):
            yield (HEADER,), 0
        if fits:
            yield from child_faults(data, 8, [element] * head, element.room, path)
    elif head % 8 or 8 + head > len(data):
        yield (HEADER,), 0
    else:
        counts = data[8:16] if path is None else None
        for i, start, end, other in ((0, 8, 8 + head, None), (1, 8 + head, len(data), counts)):
            if on_path(path, i):
                for turn, where in faults(t.parts[i], data[start:end], rest(path), other):
                    yield (CHILD, i) + turn, from_holder(where, start, start)


def child_faults(data, head, types, room, path):
    """The faults of a struct or an array behind its first `head` bytes."""
    checked = path is None
    n = len(types)
    slots = head + bitmap_size(n)
    fixed = slots + pad(n * room)
    nulls = [data[head + i // 8] >> i % 8 & 1 for i in range(8 * bitmap_size(n))]
    for i in range(n, len(nulls)):
        if checked and nulls[i]:
            yield (BITMAP, i), head + i // 8
    earlier = []
    for i, t in enumerate(types):
        at = slots + i * room
        if nulls[i] or not on_path(path, i):
            continue
        if not t.varying:
            for k in range(room):
                if checked and k >= t.width and data[at + k] or t.kind == BOOL and k == 0 and data[at] > 1:
                    yield (CHILD, i, k), at + k
            continue
        size, first = number_at(data, at, 4), number_at(data, at + 4, 4)
        behind = first + (pad(size) if checked else size)
        if (first < fixed or first % 8 or behind > len(data)
                or not all(behind <= low or high <= first for low, high in earlier)):
            yield (CHILD, i, RANGE), at
            continue
        for turn, where in faults(t, data[first:first + size], rest(path)):
            yield (CHILD, i, CONTENTS) + turn, from_holder(where, at, first)
        for k in range(first + size, behind):
            if data[k]:
                yield (CHILD, i, PADDING, k), k
        earlier.append((first, behind))
    for k in range(slots + n * room, fixed):
        if checked and data[k]:
            yield (ZEROS_BEHIND, k), k
    taken = {k for low, high in earlier for k in range(low, high)}
    if checked and any(k not in taken for k in range(fixed, len(data))):
        yield (END,), SLOT
