"""Cases of the stroke log, with bytes, places and numbers written out by hand: rows from elsewhere, windows, the wrap, rooms, damage."""

from answers import NUMBERS_ROOM, OUT_ROOM, hex_or_dash, request
from log_rows import FIRST_NULL, SECOND_NULL, crossed, double, framed, log_of, row, single, slot, stroke
from table import fill

TOP = 0xFFFFFFFF
A, B, C = (1000, 5), (1009, 7), (0xFFFFFFF0, 0x80000001)

# A row of two chords and a row of one: 4, 72, 4 and 48 bytes.
SMALL = bytes.fromhex(
    '00000048' '0000000000000000' '1800000018000000' '1800000030000000'
    '0000000000000000' 'e803000000000000' '0500000000000000'
    '0000000000000000' 'f103000000000000' '0700000000000000'
    '00000030' '0200000000000000' '1800000018000000' '0000000000000000'
    '0000000000000000' 'f0ffffff00000000' '0100008000000000')
SMALL_NUMBERS = (1000, 5, 1009, 7, 0xFFFFFFF0, 0x80000001)
# What the log holds that ends where one of its rows ends.
ENDS = {0: [], 76: [(A, B)], 128: [(A, B), (C,)]}

LONG_ROW = bytes(16385)

# Sound by the layout but for a null that a log can't have, each with its place.
WRONG_NULLS = (
    ('first stroke', row(FIRST_NULL, bytes(8) + slot(24, 24), stroke(*B)), 0),
    ('first stroke, junk under it', row(FIRST_NULL, slot(24, 24) * 2, stroke(*B)), 0),
    ('both strokes', row(FIRST_NULL | SECOND_NULL, bytes(16)), 0),
    ('first stroke before the tick of the second', row(FIRST_NULL, bytes(8) + slot(24, 24), stroke(0, 7, 1)), 0),
    ('tick of the first', row(SECOND_NULL, slot(24, 24) + bytes(8), stroke(0, 5, 1)), 24),
    ('tick of the first, junk under it', row(SECOND_NULL, slot(24, 24) + bytes(8), stroke(1000, 5, 1)), 24),
    ('keys of the first', row(SECOND_NULL, slot(24, 24) + bytes(8), stroke(1000, 0, 2)), 24),
    ('both of the first', row(SECOND_NULL, slot(24, 24) + bytes(8), stroke(0, 0, 3)), 24),
    ('tick of the first, beside a second', row(0, slot(24, 24) + slot(48, 24), stroke(0, 5, 1), stroke(*B)), 24),
    ('keys of the first, beside a second', row(0, slot(24, 24) + slot(48, 24), stroke(1000, 0, 2), stroke(*B)), 24),
    ('tick of the second', row(0, slot(24, 24) + slot(48, 24), stroke(*A), stroke(0, 7, 1)), 48),
    ('keys of the second', row(0, slot(24, 24) + slot(48, 24), stroke(*A), stroke(1009, 0, 2)), 48),
    ('all four', row(0, slot(24, 24) + slot(48, 24), stroke(0, 0, 3), stroke(0, 0, 3)), 24),
    ('keys of the first before the tick of the second', row(0, slot(24, 24) + slot(48, 24), stroke(1000, 0, 2), stroke(0, 7, 1)), 24),
    ('tick of the first, which stands last', row(0, slot(48, 24) + slot(24, 24), stroke(*B), stroke(0, 5, 1)), 48),
    ('keys of the first, which stands last', row(0, slot(48, 24) + slot(24, 24), stroke(*B), stroke(1000, 0, 2)), 48),
    ('tick of the second, which stands first', row(0, slot(48, 24) + slot(24, 24), stroke(0, 7, 1), stroke(*A)), 24),
    ('keys of the second, which stands first', row(0, slot(48, 24) + slot(24, 24), stroke(1009, 0, 2), stroke(*A)), 24),
    ('all four, the first stands last', row(0, slot(48, 24) + slot(24, 24), stroke(0, 0, 3), stroke(0, 0, 3)), 48),
)

# Rows that a check refuses already, each with its place; a wrong null behind the fault has no say.
BROKEN = (
    ('no bytes', b'', 0),
    ('a bit past two', row(4, slot(24, 24) * 2, stroke(*A)), 0),
    ('both slots at one stroke', row(0, slot(24, 24) * 2, stroke(*A)), 16),
    ('a byte over', single(A) + b'\0', 0),
    ('a gap', row(SECOND_NULL, slot(32, 24) + bytes(8), bytes(8), stroke(*A)), 0),
    ('the rest of a slot', row(SECOND_NULL, slot(24, 24) + bytes(8), stroke(1 << 32, 5)), 36),
    ('a bit past two in the stroke, and a null tick', row(SECOND_NULL, slot(24, 24) + bytes(8), stroke(0, 5, 5)), 24),
    ('a null tick, and the rest of the keys', row(SECOND_NULL, slot(24, 24) + bytes(8), stroke(0, 1 << 40, 1)), 45),
    ('a null first, and bytes left over', row(FIRST_NULL | SECOND_NULL, bytes(24)), 0),
    ('a row at the limit', bytes(16384), 8),
)


def adding(log, chord, window, room, **unused):
    """The chord stands in the value, the window in the steps: none for the window None."""
    tick, keys = chord
    return request('L', second=log, steps=() if window is None else (window,), room=room, value=tick | keys << 32, **unused)


def added(cases, name, log, chord, window, after):
    """In a room that just holds the result, in one with bytes to spare, and in one a byte short."""
    for room in (len(after), len(after) + 1, len(after) + 100):
        cases.state(name, adding(log, chord, window, room), 'done %d %s' % (len(after), fill(after, room)))
    cases.state(name, adding(log, chord, window, len(after) - 1), 'refused 11 0 ' + fill(log, len(after) - 1))


def chords_are(cases, name, log, numbers):
    """All chords, in as many numbers as there are lent and more, and in too few; each by its number; none behind."""
    n = len(numbers)
    line = ' '.join(['done', str(n)] + [str(number) for number in numbers])
    for room in (n, n + 1, n + 7, NUMBERS_ROOM):
        cases.state(name, request('R', second=log, room=room), line)
    for room in {0, n // 2, n - 2, n - 1} & set(range(n)):
        cases.state(name, request('R', second=log, room=room), 'refused 11 0')
    for k in range(n // 2):
        cases.state(name, request('C', second=log, room=k), 'chord %d %d' % (numbers[2 * k], numbers[2 * k + 1]))
    for k in (n // 2, n // 2 + 1, n, 256 + n // 2, 65536, OUT_ROOM):
        if k >= n // 2:
            cases.state(name, request('C', second=log, room=k), 'refused 5 0')


def refused_log(cases, name, log, number, place=0):
    """What judges the log comes before 11 and 5."""
    line = 'refused %d %d' % (number, place)
    for window in (None, 0, 1000, 1001, TOP):
        for room in (len(log), len(log) + 76):
            if room <= OUT_ROOM:
                cases.state(name, adding(log, A, window, room), '%s %s' % (line, fill(log, room)))
    for room in (0, 2, NUMBERS_ROOM):
        cases.state(name, request('R', second=log, room=room), line)
    for k in (0, 1, OUT_ROOM):
        cases.state(name, request('C', second=log, room=k), line)


# --- Sound logs --------------------------------------------------------------

def empty(cases):
    """No bytes is the empty log."""
    chords_are(cases, 'no chord', b'', ())
    for window in (None, 0, 1, 1000):
        for chord in (A, C, (0, 0), (TOP, TOP)):
            added(cases, 'first chord', b'', chord, window, log_of([(chord,)]))


def small(cases):
    assert all(SMALL[:n] == log_of(pairs) for n, pairs in ENDS.items())
    for n in range(len(SMALL) + 1):
        log = SMALL[:n]
        if n not in ENDS:
            refused_log(cases, 'cut', log, 10)
            continue
        pairs = ENDS[n]
        chords_are(cases, 'cut', log, SMALL_NUMBERS[:2 * sum(map(len, pairs))])
        # 3 ticks behind the chord of the row that has one.
        chord = (0xFFFFFFF3, 9)
        added(cases, 'cut', log, chord, 2, log_of(pairs + [(chord,)]))
        added(cases, 'cut', log, chord, 3, log_of([(A, B), (C, chord)] if n == 128 else pairs + [(chord,)]))


def windows(cases):
    """A gap is the difference modulo 2^32 from the row's first chord, and the window its highest."""
    for first in (0, 1, 1000, 0x7FFFFFFF, 0x80000000, TOP - 1000, TOP - 1, TOP):
        log = log_of([((first, 5),)])
        for window in (None, 0, 1, 2, 999, 1000):
            most = window or 0
            for gap in {0, 1, 2, most - 1, most, most + 1, 999, 1000, 1001, 0x7FFFFFFF, 0x80000000, TOP - 1000, TOP - 1, TOP} - {-1}:
                chord = ((first + gap) % (1 << 32), 6)
                pairs = [((first, 5), chord)] if gap <= most else [((first, 5),), (chord,)]
                after = log_of(pairs)
                cases.state('gap', adding(log, chord, window, len(after)), 'done %d %s' % (len(after), after.hex()))
        for window in (1001, 1002, 0x80000000, TOP):
            for room in (0, 52, 76, 104, 200):
                line = 'refused 11 0 ' if room >= 52 else 'refused 10 0 '
                cases.state('window', adding(log, (first, 6), window, room), line + fill(log[:room], room))
    for before, tick in ((TOP, 0), (TOP, 1), (TOP - 2, 2), (0, TOP), (0x80000000, 0x7FFFFFFF)):
        joined = log_of([((before, 1), (tick, 2))])
        apart = log_of([((before, 1),), ((tick, 2),)])
        near = (tick - before) % (1 << 32)
        added(cases, 'wrap', log_of([((before, 1),)]), (tick, 2), 5, joined if near <= 5 else apart)
        if near <= 5:
            added(cases, 'wrap', log_of([((before, 1),)]), (tick, 2), near - 1, apart)
    # The window is the first of the steps, and the others have no say.
    log = log_of([(A,)])
    two = log_of([(A, B)])
    cases.state('steps', adding(log, B, 9, len(two))._replace(steps=(9, 0, 2000)), 'done 76 ' + two.hex())
    cases.state('steps', adding(log, B, 9, 200)._replace(steps=(1001, 9)), 'refused 11 0 ' + fill(log, 200))


def full_rows(cases):
    """Of a row of two chords neither place is taken, whatever their gaps; only the last row has a say."""
    full = log_of([(A, B)])
    for tick in (1000, 1001, 1009, 1010):
        added(cases, 'full', full, (tick, 3), 1000, log_of([(A, B), ((tick, 3),)]))
    free_before = log_of([(A,), (B, C)])
    added(cases, 'free before', free_before, (1001, 3), 1000, log_of([(A,), (B, C), ((1001, 3),)]))
    # The gap is that from the last row's chord, not from the chord before it, and not between that row's places.
    log = log_of([(A, B), ((5000, 1),)])
    added(cases, 'gap from', log, (1010, 3), 1000, log_of([(A, B), ((5000, 1),), ((1010, 3),)]))
    added(cases, 'gap from', log, (5001, 3), 1, log_of([(A, B), ((5000, 1), (5001, 3))]))
    # Chords of one row may be any ticks apart: the window was another one then.
    chords_are(cases, 'far apart', log_of([(A, C), (C, A)]), A + C + C + A)
    added(cases, 'far apart', log_of([(A, C)]), B, 0, log_of([(A, C), (B,)]))
    # The same chord again is another chord.
    added(cases, 'again', log_of([(A,)]), A, 0, log_of([(A, A)]))
    added(cases, 'again', log_of([(A, A)]), A, 1000, log_of([(A, A), (A,)]))
    chords_are(cases, 'again', log_of([(A, A), (A,)]), A * 3)


def from_elsewhere(cases):
    """Rows that adding never lays down: strokes in the other order, junk under the null."""
    junk = single(A, under=slot(24, 24))
    other = crossed(A, B)
    chords_are(cases, 'junk under the null', framed(junk), A)
    chords_are(cases, 'other order', framed(other), A + B)
    chords_are(cases, 'other order', framed(other, single(C), crossed(C, A)), A + B + C + C + A)
    # A row that takes its second chord is as writing gives it; the rows before it stay as they are.
    for under in (slot(24, 24), slot(48, 24), b'\xff' * 8, b'\0' * 7 + b'\x80'):
        last = single(A, under)
        added(cases, 'junk under the null', framed(last), B, 9, log_of([(A, B)]))
        added(cases, 'junk under the null', framed(last), B, 8, framed(last) + log_of([(B,)]))
        added(cases, 'junk before', framed(last, other, last), B, 9, framed(last, other, double(A, B)))
    added(cases, 'other order', framed(other), C, 1000, framed(other) + log_of([(C,)]))
    added(cases, 'other order', framed(other), B, 1000, framed(other) + log_of([(B,)]))


def by_rows(cases):
    """Many rows, and a log at the driver's limit."""
    pairs = [((n, n + 1), (n + 2, n + 3)) if n % 3 else ((n, n + 1),) for n in range(0, 4000, 10)]
    numbers = [number for pair in pairs for chord in pair for number in chord]
    log = log_of(pairs)
    cases.state('many', request('R', second=log, room=len(numbers)), ' '.join(map(str, ['done', len(numbers)] + numbers)))
    for k in (0, 1, 2, 127, 128, 129, 255, 256, 257, len(numbers) // 2 - 1):
        cases.state('many', request('C', second=log, room=k), 'chord %d %d' % tuple(numbers[2 * k:2 * k + 2]))
    cases.state('many', request('C', second=log, room=len(numbers) // 2), 'refused 5 0')
    # 921 rows of 76 bytes are 69,996, and no further row fits beside them.
    top = log_of([((TOP, TOP), (TOP, TOP))] * 921)
    cases.state('limit', request('R', second=top, room=3684), ' '.join(['done', '3684'] + [str(TOP)] * 3684))
    cases.state('limit', adding(top, A, 0, OUT_ROOM), 'refused 11 0 ' + fill(top, OUT_ROOM))
    # 920 rows and a free place just fit with their last chord.
    last = log_of([((TOP, TOP), (TOP, TOP))] * 920 + [((TOP, TOP),)])
    cases.state('limit', adding(last, (0, TOP), 1, 69996), 'done 69996 ' + (last[:-52] + framed(double((TOP, TOP), (0, TOP)))).hex())
    cases.state('limit', adding(last, (0, TOP), 1, 69995), 'refused 11 0 ' + fill(last, 69995))


def no_say(cases):
    """A schema, a third part, a kind, steps and a value where the op has no use for them."""
    beside = dict(schema=b'x', third=b'junk', kind=9)
    after = log_of([(A, B), (C,), (A,)])
    cases.state('no say', adding(SMALL, A, 0, len(after), **beside), 'done 180 ' + after.hex())
    cases.state('no say', request('R', second=SMALL, room=6, steps=(1, 2), value=7, **beside),
                ' '.join(map(str, ('done', 6) + SMALL_NUMBERS)))
    cases.state('no say', request('C', second=SMALL, room=1, steps=(1, 2), value=7, **beside), 'chord 1009 7')


# --- Refused logs ------------------------------------------------------------

def refused_rows(cases):
    """A row that a log can't have, alone, in front, behind, and between others."""
    for name, bad, place in WRONG_NULLS + BROKEN:
        for log in (framed(bad), framed(bad) + SMALL, SMALL + framed(bad), SMALL + framed(bad) + SMALL):
            refused_log(cases, name, log, 7, place)
    for log in (framed(LONG_ROW), SMALL + framed(LONG_ROW), framed(LONG_ROW) + SMALL):
        refused_log(cases, 'over 16,384', log, 3)
    # Each row with all its numbers before the next.
    null, broken = WRONG_NULLS[10], BROKEN[5]
    for first, number, place in ((null[1], 7, null[2]), (broken[1], 7, broken[2]), (LONG_ROW, 3, 0)):
        for second in (null[1], broken[1], LONG_ROW):
            refused_log(cases, 'first of two', framed(first, second), number, place)
    # The layout's fault first, a null after it, in one row.
    refused_log(cases, 'one row', framed(row(FIRST_NULL, bytes(8) + slot(24, 24), stroke(1 << 32, 7))), 7, 36)


def broken_frames(cases):
    """10 speaks of the whole log, so a row before the break has no say."""
    for bad in (b'', SMALL, framed(WRONG_NULLS[4][1]), framed(BROKEN[2][1]), framed(LONG_ROW)):
        for behind in (b'\0', b'\0\0\0', b'\0\0\0\x01', b'\xff\xff\xff\xff', framed(single(A))[:-1], b'\x30\0\0\0' + single(A)):
            refused_log(cases, 'broken frame', bad + behind, 10)
    refused_log(cases, 'size 0', bytes(4), 7, 0)
    refused_log(cases, 'size 0', SMALL + bytes(4), 7, 0)


def rooms(cases):
    """A log longer than its room is 10, even where what is left of it is whole."""
    for room in range(len(SMALL)):
        for window in (0, 1001):
            cases.state('used over', adding(SMALL, A, window, room), 'refused 10 0 ' + hex_or_dash(SMALL[:room]))
    bad = framed(WRONG_NULLS[0][1]) + SMALL
    cases.state('used over', adding(bad, A, 0, 52), 'refused 10 0 ' + bad[:52].hex())
    for room in range(len(SMALL), 200):
        joined, apart = log_of([(A, B), (C, (0, 1))]), log_of([(A, B), (C,), (B,)])
        cases.state('room', adding(SMALL, (0, 1), 16, room),
                    'done 152 ' + fill(joined, room) if room >= 152 else 'refused 11 0 ' + fill(SMALL, room))
        cases.state('room', adding(SMALL, B, 1000, room),
                    'done 180 ' + fill(apart, room) if room >= 180 else 'refused 11 0 ' + fill(SMALL, room))


def single_bits(cases):
    """Every change of one bit of the small log; of the ticks and keys it is known what is read then."""
    numbers_at = {4 + 24 + 8: 0, 4 + 24 + 16: 1, 4 + 48 + 8: 2, 4 + 48 + 16: 3, 80 + 24 + 8: 4, 80 + 24 + 16: 5}
    for bit in range(8 * len(SMALL)):
        changed = bytearray(SMALL)
        changed[bit // 8] ^= 1 << bit % 8
        log = bytes(changed)
        cases.run('bit', adding(log, (0, 1), 16, 180))
        cases.run('bit', adding(log, (0, 1), 1001, 180))
        for k in (0, 1, 2):
            cases.run('bit', request('C', second=log, room=k))
        line = cases.run('bit', request('R', second=log, room=6))
        at = bit // 8
        start = next((start for start in numbers_at if start <= at < start + 4), None)
        if start is not None:
            numbers = list(SMALL_NUMBERS)
            numbers[numbers_at[start]] ^= 1 << 8 * (at - start) + bit % 8
            assert line == ' '.join(map(str, ['done', 6] + numbers)), bit
        elif 96 <= at < 104:
            # Under the null of the second row's second place.
            assert line == ' '.join(map(str, ('done', 6) + SMALL_NUMBERS)), bit
        else:
            assert line.startswith('refused '), bit


def log_cases(cases):
    for group in (empty, small, windows, full_rows, from_elsewhere, by_rows, no_say, refused_rows, broken_frames, rooms, single_bits):
        group(cases)
