"""Seeded random requests about stroke logs: sound ones, rows from elsewhere, wrong nulls, broken rows and frames.

A scene is some rows of one or two chords, 0 to 6 of them, and chords to add.
"""

import answers
import log_rows
import strokes
from batch_requests import bad_frames
from damage import bad_row, lengthened
from making import any_order
from scenes import Scene, room_for
from schemas import Null, judge

# Ticks near these are near the wrap, or near the borders of a signed number.
BORDERS = (0, 0x7FFFFFFF, 0x80000000, 0xFFFFFFFF)


def log_scene(choose):
    """Requests about one log."""
    tick = some_tick(choose)
    rows = []
    for _ in range(choose.below(7)):
        tick = after(choose, tick)
        rows.append(log_row(choose, tick))
    # None of the ops takes a schema; one that stands there has no say.
    schema = choose.one((b'', b'', strokes.SCHEMA, b'x'))
    return [log_request(choose, schema, rows, tick) for _ in range(16)]


def some_tick(choose):
    return (choose.one(BORDERS) + choose.below(2100) - 1050) % strokes.TICKS if choose.chance(0.7) else choose.getrandbits(32)


def after(choose, tick):
    """A tick around the window's borders behind this one, or before it, or any."""
    if choose.chance(0.1):
        return some_tick(choose)
    return (tick + choose.one((0, 1, 2, 3, 999, 1000, 1001, choose.below(1200), -1, -1000))) % strokes.TICKS


def some_keys(choose):
    return choose.one((0, 1, 0x7FFFFFFF, 0x80000000, 0xFFFFFFFF, choose.getrandbits(32)))


def stroke_cells(choose, tick):
    """Its cells; seldom one of them is null, with junk under it."""
    cells = [tick.to_bytes(4, 'little'), some_keys(choose).to_bytes(4, 'little')]
    return [Null(choose.junk(8)) if choose.chance(0.01) else cell for cell in cells]


def log_row(choose, tick):
    """A scene of one row; the first stroke is seldom null, the second often."""
    first = Null(choose.junk(8)) if choose.chance(0.01) else stroke_cells(choose, tick)
    under = bytes(8) if choose.chance(0.5) else choose.junk(8)
    second = Null(under) if choose.chance(0.5) else stroke_cells(choose, after(choose, tick))
    rank = any_order(choose) if choose.chance(0.5) else None
    return Scene(strokes.SCHEMA, judge(strokes.SCHEMA), [first, second], rank)


def log_request(choose, schema, rows, tick):
    op = choose.one('LLLRRC')
    parts = [row.row for row in rows]
    for i, row in enumerate(rows):
        if choose.chance(0.2 / len(rows)):
            parts[i], _ = bad_row(choose, row)
        if choose.chance(0.02 / len(rows)):
            parts[i] = lengthened(choose, parts[i])
    log = log_rows.framed(*parts)
    if choose.chance(0.12):
        log = bad_frames(choose, parts, log)
    if op == 'L':
        return add_request(choose, schema, log, tick)
    # As many chords as the rows had before any damage.
    count = sum(2 - isinstance(row.cells[1], Null) for row in rows)
    if op == 'C':
        return answers.request(op, schema, log, room=choose.one((choose.below(count + 1),) * 6 + (count, 65536)))
    return answers.request(op, schema, log, room=room_for(choose, 2 * count))


def add_request(choose, schema, log, tick):
    window = choose.one((0, 1, 2, 3, 999, 1000, 1000, 1000, 1001, 0xFFFFFFFF, choose.below(1100)))
    steps = () if choose.chance(0.1) else (window,) + (5,) * choose.below(2)
    # Of a row that takes the chord 24 bytes more are needed, of a new row 52.
    room = len(log) + choose.one((24, 24, 52, 52, 52, 52, 60, 23, 51, choose.below(60)))
    if choose.chance(0.05):
        room = choose.below(len(log) + 1)
    value = after(choose, tick) | some_keys(choose) << 32
    return answers.request('L', schema, log, steps, room=min(room, answers.OUT_ROOM), value=value)
