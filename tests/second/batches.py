"""Batches of rows by the document: framing, counting, fetching, checking, appending, reading and setting.

An entry answers, or raises Refused with the document's number; it raises
nothing else.
"""

import rows
from schemas import Refused, judge

# Before each row stands its size, big endian, while the row stays little endian.
SIZE = 4


class RowRefused(Refused):
    """The refusal of one row when all are checked, with that row's number."""

    def __init__(self, refused, row):
        super().__init__(refused.number, refused.length, refused.place)
        self.row = row


# --- The framing -------------------------------------------------------------

def framing(parts):
    """The batch of these rows."""
    return b''.join(len(part).to_bytes(SIZE, 'big') + part for part in parts)


def ranges(batch):
    """Where each row starts and ends; no bytes is the empty batch."""
    found = []
    at = 0
    while at < len(batch):
        start = at + SIZE
        end = start + int.from_bytes(batch[at:start], 'big')
        # A size cut short ends past the batch too, whatever is left of it says.
        if end > len(batch):
            raise Refused(10)
        found.append((start, end))
        at = end
    return found


def framed(batch):
    """The rows of a batch."""
    return [batch[start:end] for start, end in ranges(batch)]


def range_of(batch, k):
    """Row k's range; the whole batch is judged before k is looked at."""
    found = ranges(batch)                         # 10
    if k >= len(found):
        raise Refused(5)                          # 5
    return found[k]


# --- The entries, each with its order of refusals ----------------------------

def count(batch):
    return len(ranges(batch))                     # 10


def fetch(schema, batch, k):
    """Start and length of row k in the batch, without its size."""
    judge(schema)                                 # 1
    start, end = range_of(batch, k)               # 10, 5
    rows.check(schema, batch[start:end])          # 3, 7 of row k
    return start, end - start


def check(schema, batch):
    judge(schema)                                 # 1
    for number, row in enumerate(framed(batch)):  # 10
        try:
            rows.check(schema, row)               # 3, 7 of each row in turn
        except Refused as r:
            raise RowRefused(r, number)


def append(schema, room, used, row):
    """The lent room after appending to the batch in its first `used` bytes, and the batch's new length."""
    judge(schema)                                 # 1
    if used > len(room):
        raise Refused(10)                         # 10: the batch runs past what is lent
    ranges(room[:used])                           # 10
    rows.check(schema, row)                       # 3, 7 of the new row
    needed = used + SIZE + len(row)
    if needed > len(room):
        raise Refused(4, needed)                  # 4, for the whole
    return room[:used] + framing([row]) + room[needed:], needed


def read(schema, batch, k, path):
    """What the place reads as in row k; ranges count from that row's first byte."""
    judge(schema)                                 # 1
    start, end = range_of(batch, k)               # 10, 5
    return rows.read(schema, batch[start:end], path)


def set_leaf(schema, batch, k, path, setting):
    """The batch after the setting in row k; the lent batch itself stays as it is."""
    judge(schema)                                 # 1
    start, end = range_of(batch, k)               # 10, 5
    return batch[:start] + rows.set_leaf(schema, batch[start:end], path, setting) + batch[end:]
