"""The stroke log by the request: chords kept in the rows of a batch, one added, all read, one asked for.

An entry answers, or raises Refused with the document's number; it raises
nothing else.
"""

from collections import namedtuple

import batches
import rows
from schemas import Refused, broken_at

# A row has two strokes, each a tick and a key mask in int32.
SCHEMA = b'ro\x02' + b'ro\x02i4i4' * 2
FIRST, SECOND = 0, 1
TICK, KEYS = 0, 1

# The tick counter starts again at zero behind its 32 bits.
TICKS = 1 << 32
WINDOW_LIMIT = 1000

Chord = namedtuple('Chord', 'tick keys')


# --- One row -----------------------------------------------------------------

def read(row, *path):
    return rows.read(SCHEMA, row, path)


def is_null(row, *path):
    return read(row, *path) == ('null',)


def strokes_of(row):
    """The strokes of a row that are there."""
    return [stroke for stroke in (FIRST, SECOND) if not is_null(row, stroke)]


def judge_nulls(row):
    """Only the second stroke may be null; a bit that says otherwise stands in the first byte of the struct that has it."""
    if is_null(row, FIRST):
        raise broken_at(0)
    for stroke in strokes_of(row):
        _, start, _, _ = read(row, stroke)
        if is_null(row, stroke, TICK) or is_null(row, stroke, KEYS):
            raise broken_at(start)


def judge_row(row):
    rows.check(SCHEMA, row)                       # 3, 7
    judge_nulls(row)                              # 7, of a row that is sound otherwise


def bits(row, *path):
    """The 32 bits of an int32."""
    _, number = read(row, *path)
    return number % (1 << 32)


def chords_in(row):
    """The chords of an accepted row, by its fields, wherever their strokes stand."""
    return [Chord(bits(row, stroke, TICK), bits(row, stroke, KEYS)) for stroke in strokes_of(row)]


def int32(number):
    return b'i4' + number.to_bytes(4, 'little')


def row_of(*chords):
    """The row that writing gives for one chord or two."""
    records = [b'ro' + int32(chord.tick) + int32(chord.keys) for chord in chords]
    listing = b'ro' + b''.join(records + [b'nu'] * (2 - len(chords)))
    return rows.write(SCHEMA, listing, rows.ROW_LIMIT)


# --- A log -------------------------------------------------------------------

def judged(log):
    """The rows of a log; each is judged, in turn."""
    kept = batches.framed(log)                    # 10
    for row in kept:
        judge_row(row)                            # 3, 7
    return kept


def gap(later, earlier):
    return (later - earlier) % TICKS


def joins(chords, chord, window):
    """Whether a chord goes into the second place of a row that has these."""
    return len(chords) == 1 and gap(chord.tick, chords[0].tick) <= window


def with_chord(kept, chord, window):
    """The rows after adding."""
    if kept:
        last = chords_in(kept[-1])
        if joins(last, chord, window):
            return kept[:-1] + [row_of(last[0], chord)]
    return kept + [row_of(chord)]


# --- The entries, each with its order of refusals ----------------------------

def add(room, used, chord, window):
    """The lent room after adding to the log in its first `used` bytes, and the log's new length."""
    if used > len(room):
        raise Refused(10)                         # 10: the log runs past what is lent
    kept = judged(room[:used])                    # 10, 3, 7
    if window > WINDOW_LIMIT:
        raise Refused(11)                         # 11
    log = batches.framing(with_chord(kept, chord, window))
    if len(log) > len(room):
        raise Refused(11)                         # 11
    return log + room[len(log):], len(log)


def all_chords(log):
    return [chord for row in judged(log) for chord in chords_in(row)]


def numbers(log, room):
    """Tick and keys of every chord in turn; the caller's output has `room` numbers."""
    found = [number for chord in all_chords(log) for number in chord]     # 10, 3, 7
    if len(found) > room:
        raise Refused(11)                         # 11
    return found


def chord_at(log, n):
    """Chord n, counted from 0."""
    found = all_chords(log)                       # 10, 3, 7
    if n >= len(found):
        raise Refused(5)                          # 5
    return found[n]
