"""What must hold of every catalogue, against runs of adding and the schemas themselves; and that the comparison finds slips with catalogues."""

import answers
import catalogue
import catalogue_runs
from answers import request
from catalogue_bytes import LENGTH, lent, used
from catalogue_cases import catalogue_cases
from catalogue_requests import catalogue_scene
from catalogue_slips import SLIPS
from schemas import Refused
from table_checks import agree, find_in_cases, read_alike

# Slips that any run of two parties shows, without any case made for them.
IN_RUNS = ('a repeat gets a new number', 'a new schema in front', 'schemas in their own order', 'a repeat moves to the end', 'as long is the same',
           '12 for a schema that is there', 'a new schema is not judged', 'numbers told from 1', 'a new schema is not counted', 'full with 15', '17 schemas',
           'sizes big endian', 'what lies behind is looked at', 'the first number not given is taken', 'the last number is not taken',
           'numbers asked from 1', 'the first schema for every number given', 'numbers modulo 16', 'a full catalogue is not shown')


def left_by_adding(data):
    """The schemas of a catalogue, None where no run of adding leaves these bytes: what they say is added, one by one, to an empty one."""
    if len(data) != LENGTH:
        return None
    said, rest, line = [], data[1:], 'number 0 00'
    for number in range(data[0]):
        size = rest[0] + 256 * rest[1] if len(rest) > 1 else 0
        said.append(rest[2:2 + size])
        rest = rest[2 + size:]
        line = answers.answer(request('a', said[-1], lent(bytes.fromhex(line.rpartition(' ')[2]))))
        if not line.startswith('number %d ' % number):
            return None
    # The run leaves its used bytes, and whatever it found behind them.
    left = bytes.fromhex(line.rpartition(' ')[2])
    return said if data[:len(left)] == left else None


def line_by_schemas(req):
    """The line of a request about a catalogue, from those of runs of adding and of requests with its schemas."""
    op = req.op
    kept = left_by_adding(req.second if op == 'a' else req.schema)
    behind = {'a': '-' if kept is None else used(*kept).hex(), 'v': answers.hex_or_dash(req.second), 'W': 'aa' * req.room or '-',
              'I': 'aa' * req.room or '-'}.get(op)
    behind = '' if behind is None else ' ' + behind
    if kept is None:
        return 'refused 1 0' + behind
    if op == 'a':
        if answers.answer(request('j', req.schema)) != 'done':
            return 'refused 1 0' + behind
        if req.schema in kept:
            return 'number %d%s' % (kept.index(req.schema), behind)
        return 'refused 12 0' + behind if len(kept) == 16 else 'number %d %s' % (len(kept), used(*kept, req.schema).hex())
    number = req.value if op in 'WI' else req.room
    if number >= len(kept):
        return 'refused 13 0' + behind
    return answers.answer(req._replace(op=answers.BY_NUMBER[op], schema=kept[number]))


def check_catalogue(choose, tally):
    """Each request about a catalogue: its line is that of its schemas, and after an adding the laws hold."""
    made = catalogue_scene(choose)
    for req in made:
        tally['requests about catalogues'] += 1
        line = answers.answer(req)
        assert line == line_by_schemas(req), req
        if req.op == 'a' and line.startswith('number '):
            tally['schemas added'] += 1
            check_added(req.second, req.schema)
    new = [req.schema for req in made if req.op == 'a' and answers.answer(request('j', req.schema)) == 'done']
    sound = [req.schema for req in made if req.op in answers.BY_NUMBER and left_by_adding(req.schema) is not None]
    if new and sound:
        check_parties(choose.one(sound), choose.one(new), choose.one(new))


def check_added(data, schema):
    """The number leads to the schema, earlier ones to theirs; the bytes behind stay, and the same again changes nothing."""
    before = catalogue.schemas_of(data)
    number, after = catalogue.add(data, schema)
    assert catalogue.schema_at(after, number) == schema
    assert [catalogue.schema_at(after, k) for k in range(len(before))] == before
    grown = len(used(*catalogue.schemas_of(after)))
    assert len(after) == LENGTH and after[grown:] == data[grown:]
    assert (after == data) == (schema in before)
    assert catalogue.add(after, schema) == (number, after)


def check_parties(data, first, second):
    """Two parties' adds in either order: each is told a number that leads to its schema, or both orders refuse one of them."""
    ends = []
    for turn in ((first, second), (second, first)):
        now, told = data, []
        for schema in turn:
            try:
                number, now = catalogue.add(now, schema)
            except Refused as r:
                assert r.number == 12 and len(catalogue.schemas_of(now)) == 16
                continue
            told.append((number, schema))
        for number, schema in told:
            assert catalogue.schema_at(now, number) == schema
        ends.append((len(told), len(catalogue.schemas_of(now))))
    assert ends[0] == ends[1], (first, second)


def check_runs(seed):
    """A run of two parties for each number of schemas: what it expects, laid out by hand, is what the second reading answers."""
    made = [(number, req, line) for number in range(len(catalogue_runs.POOLS)) for req, line in catalogue_runs.catalogue_run(seed, number)]
    return read_alike(made)


def check_slips(runs):
    """The comparison finds every slip in the cases, and in runs those that any two parties show."""
    find_in_cases(catalogue_cases, SLIPS)
    for name in IN_RUNS:
        assert not agree(runs, SLIPS[name]), name
    return len(SLIPS)
