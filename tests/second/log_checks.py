"""What must hold of every stroke log, against its batch and its readings; and that the comparison finds slips with logs."""

import answers
import log_runs
from answers import request
from log_cases import log_cases
from log_requests import log_scene
from log_slips import SLIPS
from strokes import SCHEMA
from table_checks import agree, find_in_cases, read_alike

# Slips that a run of chords shows, without any case made for them.
IN_RUNS = ('plain subtraction, below zero before the wrap', 'plain subtraction, no gap over the wrap', 'below the window',
           'the second place though it is full', 'the gap from the second chord', 'always a new row', 'no window', 'any free place',
           'a window of 1,001', 'a window of 999', 'a refused room filled', 'signed numbers', 'chords by rows')


def refused_by_batch(log):
    """The refusal of a log, None where it has none: by the lines of requests about its batch and about the places of its rows."""
    words = answers.answer(request('k', SCHEMA, log)).split(' row ')
    if words[0] == 'refused 10 0':
        return words[0]
    count = int(words[1]) if len(words) > 1 else int(answers.answer(request('n', b'', log)).split(' ')[1])
    for k in range(count):
        lines = {path: place_line(log, k, path) for path in ((0,), (0, 0), (0, 1), (1,), (1, 0), (1, 1))}
        if lines[0,] == 'null':
            return 'refused 7 0'
        for i in (0, 1):
            if 'null' in (lines[i, 0], lines[i, 1]):
                return 'refused 7 ' + lines[i,].split(' ')[1]
    return words[0] if len(words) > 1 else None


def place_line(log, k, path):
    return answers.answer(request('g', SCHEMA, log, path, room=k))


def numbers_of(log):
    """The numbers of an accepted log, by reading as many as there are at most."""
    line = answers.answer(request('R', second=log, room=answers.NUMBERS_ROOM))
    words = line.split(' ')
    assert words[0] == 'done' and int(words[1]) == len(words) - 2
    return list(map(int, words[2:]))


def check_log(choose, tally):
    """Each request about a log: refused as its batch and its places say, and a chord that is added stands last, once."""
    for req in log_scene(choose):
        tally['requests about logs'] += 1
        line = answers.answer(req)
        cut = req.op == 'L' and len(req.second) > req.room
        refused = 'refused 10 0' if cut else refused_by_batch(req.second)
        if refused is not None:
            assert line.startswith(refused) and line[len(refused):][:1] in ('', ' '), req
            continue
        words = line.split(' ')
        numbers = numbers_of(req.second)
        if req.op == 'R':
            assert line == ('refused 11 0' if len(numbers) > req.room else answers.numbers_line(numbers)), req
        elif req.op == 'C':
            here = numbers[2 * req.room:2 * req.room + 2]
            assert line == ('chord %d %d' % tuple(here) if here else 'refused 5 0'), req
        elif words[0] == 'done':
            tally['chords added'] += 1
            check_added(req, numbers, int(words[1]), bytes.fromhex(words[2]))
        else:
            assert words[:3] == ['refused', '11', '0'], req
            assert req.steps and req.steps[0] > 1000 or req.room < len(req.second) + 52, req


def check_added(req, numbers, length, room):
    """The log after adding: its numbers, its rows but the last, and the bytes behind it."""
    log = room[:length]
    assert numbers_of(log) == numbers + [req.value % (1 << 32), req.value >> 32], req
    assert length - len(req.second) in (24, 52), req
    # In the second place of the last row all before that row's frame stays, and otherwise the whole log.
    kept = len(req.second) if length - len(req.second) == 52 else len(req.second) - 52
    assert log[:kept] == req.second[:kept], req
    assert room[length:] == bytes([answers.FILL]) * (req.room - length), req


def check_runs(seed):
    """Six runs of chords, the last of a long log: what they expect, laid out by hand, is what the second reading answers."""
    made = [(number, req, line) for number in range(log_runs.LONG_EVERY - 6, log_runs.LONG_EVERY)
            for req, line in log_runs.log_run(seed, number)]
    return read_alike(made)


def check_slips(runs):
    """The comparison finds every slip in the cases, and in runs those that any chords show."""
    find_in_cases(log_cases, SLIPS)
    for name in IN_RUNS:
        assert not agree(runs, SLIPS[name]), name
    return len(SLIPS)
