"""What must hold of every table that is worked out, and that the comparison finds slips with lent ones."""

import contextlib
import io

import answers
import by_tables
import cases
import requests
from driving import same_lines
from lent_tables import lent_table_cases
from schemas import BOOL, LIST, MAP, STRUCT, TABLE
from table_slips import SLIPS, schema_of
from worked_tables import COLUMNS, column, table_of

# How many types each kind holds; a struct says how many itself.
HELD = {LIST: range(1, 2), MAP: range(2, 3), STRUCT: range(1, 129)}
NONE_HELD = range(1)


def check_table(schema):
    """The marks and counts of a table are the schema again, and its words stand as each of them says."""
    words = table_of(schema)
    assert schema_of(words) == schema
    assert behind(words, 0, 1) == len(words), schema


def behind(words, place, depth):
    """The place behind a type, found by its children; every column of their words is looked at on the way."""
    says = {name: column(words[place], name) for name in COLUMNS}
    assert sum(says[name] << low for name, (low, _) in COLUMNS.items()) == words[place]
    mark, kind, width = TABLE[says['kind']]
    assert says['mark'] == mark[0] + 256 * mark[1]
    assert says['width'] == (width or 0)
    highest = 0 if width is None else 1 if kind == BOOL else 256 ** width - 1
    assert highest >> says['top'] <= 1 and (highest >> says['top'] == 1 or width is None)
    assert says['depth'] == depth
    assert says['count'] in HELD.get(kind, NONE_HELD)
    at = place + 1
    assert says['first'] == at
    for _ in range(says['count']):
        at = behind(words, at, depth + 1)
    assert says['after'] == at
    return at


def check_requests(seed, number):
    """Requests by tables: what they are expected to get is what the table and the schema say."""
    made = by_tables.portion(seed, number, requests.PORTION)
    for _, req, line in made:
        assert answers.answer(req) == line, req
        assert answers.within_rooms(req)
        assert answers.decode(answers.encode(req)) == req
    return [req for _, req, _ in made]


def agree(made, answer):
    """Whether the comparison takes these answers for the right ones."""
    with contextlib.redirect_stdout(io.StringIO()):
        return same_lines([req for _, req, _ in made], [line for _, _, line in made], (answer(req) for _, req, _ in made), 0, str)


def find_in_cases(stating, slips):
    """The comparison takes the right answers of the cases that are stated, and finds every slip in them."""
    stated = cases.Cases()
    stating(stated)
    assert agree(stated.made, answers.answer)
    for name, slip in slips.items():
        assert not agree(stated.made, slip), name


def read_alike(made):
    """What runs expect, laid out by hand, is what the second reading answers."""
    for _, req, line in made:
        assert answers.answer(req) == line, req
        assert answers.within_rooms(req)
        assert answers.decode(answers.encode(req)) == req
    return made


def check_slips():
    """The comparison finds every slip in the cases, and in random requests those that any row shows."""
    find_in_cases(lent_table_cases, SLIPS)
    some = by_tables.portion(1, 0, requests.PORTION)
    assert agree(some, answers.answer)
    for name in ('any table is taken', 'only the length counts', 'a byte is altered', 'too short a room is filled'):
        assert not agree(some, SLIPS[name]), name
    return len(SLIPS)
