"""Seeded runs of a stroke log: chords added one after another from the empty log, and then all of them read.

Beside the log its chords are kept in pairs: what a run expects is laid out by
hand from these, each chord once, in their order.  A chord that is refused, for
its window or for the room, leaves the log as it was.
"""

import answers
from log_rows import log_of
from making import Chooser

CHORDS = 100

# Every so many runs one is of a long log, to which a single chord is added.
LONG_EVERY = 25
LONG_ROWS = 900

TICKS = 1 << 32
WINDOW_LIMIT = 1000


def log_run(seed, number):
    """The requests of one run, each with the line that it must get."""
    choose = Chooser('log run/%d/%d' % (seed, number))
    return long_run(choose) if number % LONG_EVERY == LONG_EVERY - 1 else short_run(choose)


def short_run(choose):
    pairs, made = [], []
    tick = 0
    for _ in range(CHORDS):
        tick = next_tick(choose, tick)
        pairs, asked, line = adding(choose, pairs, (tick, choose.getrandbits(32)))
        made.append((asked, line))
    return made + readings(choose, pairs)


def next_tick(choose, tick):
    """A little later; some way behind the wrap the ticks begin again before it, so that a run passes it many times."""
    if 2000 < tick < TICKS // 2:
        return TICKS - 1 - choose.below(2000)
    return (tick + choose.one((0, 1, 1, 2, 3, 999, 1000, 1001, choose.below(3000)))) % TICKS


def long_run(choose):
    """The log's rows have all been added before; a log of these is near the driver's limit."""
    chords = [(choose.getrandbits(32), choose.getrandbits(32)) for _ in range(2 * LONG_ROWS)]
    pairs = [tuple(chords[2 * i:2 * i + 1 + choose.below(2)]) for i in range(LONG_ROWS)]
    last = pairs[-1][0][0]
    pairs, asked, line = adding(choose, pairs, ((last + choose.one((0, 1000, 1001))) % TICKS, choose.getrandbits(32)))
    return [(asked, line)] + readings(choose, pairs)


def adding(choose, pairs, chord):
    """The pairs after adding a chord, the request and its line; now and then it is refused and asked for no more."""
    log = log_of(pairs)
    window = choose.one((0, 1, 2, 1000, 1000, 1000)) if choose.chance(0.97) else 1001
    if pairs and len(pairs[-1]) == 1 and (chord[0] - pairs[-1][0][0]) % TICKS <= window:
        after = pairs[:-1] + [pairs[-1] + (chord,)]
    else:
        after = pairs + [(chord,)]
    needed = len(log_of(after))
    room = needed + choose.one((0, 0, 0, 1, 8, 60)) if choose.chance(0.97) else needed - 1
    asked = answers.request('L', second=log, steps=(window,), room=room, value=chord[0] | chord[1] << 32)
    if window > WINDOW_LIMIT or room < needed:
        return pairs, asked, 'refused 11 0 ' + shown(log, room)
    return after, asked, 'done %d %s' % (needed, shown(log_of(after), room))


def shown(log, room):
    return (log + b'\xaa' * (room - len(log))).hex()


def readings(choose, pairs):
    """All chords, the same in a room too small, some by their numbers, and none behind the last."""
    log = log_of(pairs)
    chords = [chord for pair in pairs for chord in pair]
    numbers = [number for chord in chords for number in chord]
    made = [(answers.request('R', second=log, room=len(numbers)), ' '.join(map(str, ['done', len(numbers)] + numbers))),
            (answers.request('R', second=log, room=len(numbers) - 1), 'refused 11 0')]
    for n in {0, len(chords) - 1, choose.below(len(chords)), choose.below(len(chords))}:
        made.append((answers.request('C', second=log, room=n), 'chord %d %d' % chords[n]))
    return made + [(answers.request('C', second=log, room=len(chords)), 'refused 5 0')]
