"""Rows of a stroke log laid out by hand: as adding lays them down, and as they may come from elsewhere."""

import struct

# The bits of a row's bitmap.
FIRST_NULL, SECOND_NULL = 1, 2


def slot(start, size):
    return struct.pack('<II', size, start)


def stroke(tick, keys, nulls=0):
    """24 bytes: the bitmap, the tick, the keys. What stands under a null is not looked at."""
    return struct.pack('<QQQ', nulls, tick, keys)


def row(nulls, slots, *data):
    return struct.pack('<Q', nulls) + slots + b''.join(data)


def single(chord, under=bytes(8)):
    """A row whose second place is null, with some bytes under that null: 48 bytes."""
    return row(SECOND_NULL, slot(24, 24) + under, stroke(*chord))


def double(first, second):
    """A row of two chords, in field order: 72 bytes."""
    return row(0, slot(24, 24) + slot(48, 24), stroke(*first), stroke(*second))


def crossed(first, second):
    """The same with the second stroke before the first."""
    return row(0, slot(48, 24) + slot(24, 24), stroke(*second), stroke(*first))


def framed(*rows):
    return b''.join(len(part).to_bytes(4, 'big') + part for part in rows)


def log_of(pairs):
    """The log of rows that hold one chord or two each."""
    return framed(*(double(*pair) if len(pair) == 2 else single(*pair) for pair in pairs))
