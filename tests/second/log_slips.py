"""Answers about stroke logs with one slip each, as a driver could give them: the comparison must find every one."""

from functools import partial
from unittest import mock

import answers
import batches
import strokes
from schemas import Refused, broken_at
from strokes import FIRST, KEYS, SECOND, TICK, TICKS, chords_in, is_null, row_of

# What the slips below are put in the place of.
add, bits, chord_at, judged, joins, numbers, read, with_chord = (
    strokes.add, strokes.bits, strokes.chord_at, strokes.judged, strokes.joins, strokes.numbers, strokes.read, strokes.with_chord)


def slip_in(module, **others):
    """Answers by the second reading with these functions or numbers in the place of a module's own."""
    def answer(req):
        with mock.patch.multiple(module, **others):
            return answers.answer(req)
    return answer


slip = partial(slip_in, strokes)


# --- Where a chord goes ------------------------------------------------------

def either_way(later, earlier):
    return min((later - earlier) % TICKS, (earlier - later) % TICKS)


def below_the_window(chords, chord, window):
    return len(chords) == 1 and strokes.gap(chord.tick, chords[0].tick) < window


def though_full(chords, chord, window):
    return strokes.gap(chord.tick, chords[0].tick) <= window


def from_the_second(chords, chord, window):
    return strokes.gap(chord.tick, chords[-1].tick) <= window


def from_the_row_before(kept, chord, window):
    """The gap is that from the last chord of the row before the last."""
    if kept and len(chords_in(kept[-1])) == 1:
        before = chords_in(kept[-2] if len(kept) > 1 else kept[-1])[-1]
        if strokes.gap(chord.tick, before.tick) <= window:
            return kept[:-1] + [row_of(chords_in(kept[-1])[0], chord)]
    return kept + [row_of(chord)]


def into_any_row(kept, chord, window):
    """The first row with a free place takes the chord, and not only the last."""
    for i, row in enumerate(kept):
        if joins(chords_in(row), chord, window):
            return kept[:i] + [row_of(chords_in(row)[0], chord)] + kept[i + 1:]
    return kept + [row_of(chord)]


def into_the_first_place(kept, chord, window):
    if kept and joins(chords_in(kept[-1]), chord, window):
        return kept[:-1] + [row_of(chord, chords_in(kept[-1])[0])]
    return kept + [row_of(chord)]


def all_written_anew(kept, chord, window):
    """Rows before the last, and those that take no chord, don't stay as they were lent."""
    return [row_of(*chords_in(row)) for row in with_chord(kept, chord, window)]


# --- What judges a log -------------------------------------------------------

def told_at(place):
    """A null tick or keys is told somewhere else than at its stroke's first byte."""
    def judge_nulls(row):
        if is_null(row, FIRST):
            raise broken_at(0)
        for stroke in strokes.strokes_of(row):
            if is_null(row, stroke, TICK) or is_null(row, stroke, KEYS):
                raise broken_at(place(stroke))
    return judge_nulls


def strokes_as_they_stand(row):
    """The strokes by where they stand in the row, and not by their fields."""
    return sorted((stroke for stroke in (FIRST, SECOND) if not is_null(row, stroke)), key=lambda stroke: read(row, stroke)[1])


def no_tick_asked(row):
    if is_null(row, FIRST):
        raise broken_at(0)
    for stroke in strokes.strokes_of(row):
        if is_null(row, stroke, KEYS):
            raise broken_at(read(row, stroke)[1])


def first_alone(row):
    if is_null(row, FIRST):
        raise broken_at(0)
    if is_null(row, FIRST, TICK) or is_null(row, FIRST, KEYS):
        raise broken_at(read(row, FIRST)[1])


def null_is_zero(row, *path):
    return 0 if is_null(row, *path) else bits(row, *path)


def rows_before_the_frames(log):
    """A row before a broken frame has its say."""
    at = 0
    while at < len(log):
        start, at = at + 4, at + 4 + int.from_bytes(log[at:at + 4], 'big')
        if at <= len(log):
            strokes.judge_row(log[start:at])
    return judged(log)


def last_row_alone(log):
    kept = batches.framed(log)
    for row in kept[-1:]:
        strokes.judge_row(row)
    return kept


# --- Windows, rooms, numbers -------------------------------------------------

def window_first(room, used, chord, window):
    if window > strokes.WINDOW_LIMIT:
        raise Refused(11)
    return add(room, used, chord, window)


def room_of_a_new_row(room, used, chord, window):
    after, length = add(room, used, chord, window)
    if used + 52 > len(room):
        raise Refused(11)
    return after, length


def rest_cleared(room, used, chord, window):
    after, length = add(room, used, chord, window)
    return after[:length] + bytes(len(after) - length), length


def signed(log, room):
    return [number - (number >> 31 << 32) for number in numbers(log, room)]


def keys_first(log, room):
    found = numbers(log, room)
    return [number for i in range(0, len(found), 2) for number in (found[i + 1], found[i])]


def room_in_chords(log, room):
    return numbers(log, 2 * room)


def room_to_spare(log, room):
    found = numbers(log, room)
    if found and len(found) == room:
        raise Refused(11)
    return found


def first_of_a_row(log, n):
    kept = judged(log)
    if n >= len(kept):
        raise Refused(5)
    return chords_in(kept[n])[0]


def number_before_the_log(log, n):
    try:
        return chord_at(log, n)
    except Refused:
        raise Refused(5)


def filled_before_refused(req):
    """A room too small for the result has its start all the same."""
    line = answers.answer(req)
    if req.op != 'L' or not line.startswith('refused 11 ') or not req.room:
        return line
    whole = answers.answer(req._replace(steps=(), room=len(req.second) + 52)).rpartition(' ')[2]
    return '%s %s' % (line.rpartition(' ')[0], whole[:2 * req.room])


SLIPS = {
    'plain subtraction, below zero before the wrap': slip(gap=lambda later, earlier: later - earlier),
    'plain subtraction, no gap over the wrap': slip(gap=lambda later, earlier: later - earlier if later >= earlier else TICKS),
    'the gap the other way': slip(gap=lambda later, earlier: (earlier - later) % TICKS),
    'the gap either way': slip(gap=either_way),
    'a gap of 31 bits': slip(gap=lambda later, earlier: (later - earlier) % (TICKS // 2)),
    'below the window': slip(joins=below_the_window),
    'the second place though it is full': slip(joins=though_full),
    'the gap from the second chord': slip(joins=from_the_second),
    'always a new row': slip(joins=lambda chords, chord, window: False),
    'no window': slip(joins=lambda chords, chord, window: len(chords) == 1),
    'the gap from the row before': slip(with_chord=from_the_row_before),
    'any free place': slip(with_chord=into_any_row),
    'the new chord first': slip(with_chord=into_the_first_place),
    'all rows written anew': slip(with_chord=all_written_anew),
    'a window of 1,001': slip(WINDOW_LIMIT=1001),
    'a window of 999': slip(WINDOW_LIMIT=999),
    'the window before the log': slip(add=window_first),
    'a new row\'s room for any chord': slip(add=room_of_a_new_row),
    'the rest of a room cleared': slip(add=rest_cleared),
    'a refused room filled': filled_before_refused,
    'a null told at the row\'s first byte': slip(judge_nulls=told_at(lambda stroke: 0)),
    'a null told at the stroke\'s slot': slip(judge_nulls=told_at(lambda stroke: 8 + 8 * stroke)),
    'a null told where the stroke would stand': slip(judge_nulls=told_at(lambda stroke: 24 + 24 * stroke)),
    'strokes as they stand': slip(strokes_of=strokes_as_they_stand),
    'no null tick': slip(judge_nulls=no_tick_asked, bits=null_is_zero),
    'no null in the second stroke': slip(judge_nulls=first_alone, bits=null_is_zero),
    'a row before its broken frame': slip(judged=rows_before_the_frames),
    'the last row alone': slip(judged=last_row_alone, bits=null_is_zero),
    'signed numbers': slip(numbers=signed),
    'keys first': slip(numbers=keys_first),
    'a room in chords': slip(numbers=room_in_chords),
    'a number to spare': slip(numbers=room_to_spare),
    'chords by rows': slip(chord_at=first_of_a_row),
    'the chord\'s number before the log': slip(chord_at=number_before_the_log),
}
