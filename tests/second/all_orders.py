"""Request Q-2's sentence as it stands: some order of placing the values gives the row.

Every order is tried.  Nothing is sorted and nothing is concluded from the
offsets, so that this reading shares no idea with the other one in layouts.py,
nor with the library; it is for containers of few values.
"""

import itertools

import texts
from schemas import BOOL, BYTES, LIST, STRUCT, bitmap_size, number_at, pad

# Six values have 720 orders; more would take too long.
MOST_VALUES = 6


class TooMany(Exception):
    """A container has more values than all orders can be tried of."""


def some_order(fixed, sizes, offsets, end):
    """Whether values placed one after another in some order get these offsets and this end."""
    if len(sizes) > MOST_VALUES:
        raise TooMany
    for order in itertools.permutations(range(len(sizes))):
        placed = [None] * len(sizes)
        at = fixed
        for i in order:
            placed[i] = at
            at += pad(sizes[i])
        if placed == offsets and at == end:
            return True
    return False


def accepted(t, data):
    """Whether these bytes, all of them, are laid out as a value of this type."""
    if t.kind == BYTES:
        return texts.may_hold_by_decoder(t, data)
    if t.kind == STRUCT:
        return container_accepted(data, 0, t.parts, 8)
    if len(data) < 8:
        return False
    head = number_at(data, 0, 8)
    if t.kind == LIST:
        element = t.parts[0]
        # The types are not gone through where the bytes cannot hold so many.
        fits = 8 + bitmap_size(head) + pad(head * element.room) <= len(data)
        return fits and container_accepted(data, 8, [element] * head, element.room)
    keys, values = data[8:8 + head], data[8 + head:]
    return (8 + head <= len(data) and accepted(t.parts[0], keys) and accepted(t.parts[1], values)
            and keys[:8] == values[:8])


def container_accepted(data, head, types, room):
    """A struct or an array: `head` bytes, a bitmap, a slot or element for each type, values."""
    n = len(types)
    bits_end = head + bitmap_size(n)
    fixed = bits_end + pad(n * room)
    if fixed > len(data):
        return False

    def bit(i):
        return data[head + i // 8] >> i % 8 & 1

    if any(bit(i) for i in range(n, 8 * bitmap_size(n))) or any(data[bits_end + n * room:fixed]):
        return False
    values, sizes, offsets = [], [], []
    for i, t in enumerate(types):
        place = data[bits_end + i * room:bits_end + (i + 1) * room]
        if bit(i):
            continue
        if t.varying:
            values.append(t)
            sizes.append(number_at(place, 0, 4))
            offsets.append(number_at(place, 4, 4))
        elif any(place[t.width:]) or t.kind == BOOL and place[0] > 1:
            return False
    if not some_order(fixed, sizes, offsets, len(data)):
        return False
    for t, size, offset in zip(values, sizes, offsets):
        value, padding = data[offset:offset + size], data[offset + size:offset + pad(size)]
        if any(padding) or not accepted(t, value):
            return False
    return True
