"""Answers about catalogues with one slip each, as a driver could give them: the comparison must find every one."""

from functools import partial

import answers
import catalogue
from catalogue import COUNT, LENGTH, SCHEMA_LIMIT, SCHEMAS, SIZE
from log_slips import slip_in
from rows import ROW_LIMIT
from schemas import Refused, judge, number_at

# What the slips below are put in the place of.
add, schema_at, schemas_of, used_bytes = catalogue.add, catalogue.schema_at, catalogue.schemas_of, catalogue.used_bytes

slip = partial(slip_in, catalogue)


# --- Where a schema goes -----------------------------------------------------

def kept_as(place):
    """A slip in where an accepted schema goes: from the schemas and the new one to its number and the schemas after."""
    def adding(lent, schema):
        kept = schemas_of(lent)
        judge(schema)
        number, kept = place(kept, schema)
        if len(kept) > SCHEMAS:
            raise Refused(12)
        used = used_bytes(kept)
        return number, used + lent[len(used):]
    return slip(add=adding)


def always_new(kept, schema):
    return len(kept), kept + [schema]


def in_front(kept, schema):
    return (kept.index(schema), kept) if schema in kept else (0, [schema] + kept)


def sorted_in(kept, schema):
    after = sorted(set(kept) | {schema})
    return after.index(schema), after


def moved_to_the_end(kept, schema):
    after = [other for other in kept if other != schema] + [schema]
    return len(after) - 1, after


def alike_by(same):
    """A schema has the number of the first that is the same by this, and not by its bytes."""
    def place(kept, schema):
        found = [number for number, other in enumerate(kept) if same(other) == same(schema)]
        return (found[0], kept) if found else always_new(kept, schema)
    return kept_as(place)


def full_before_all(lent, schema):
    """12 in a full catalogue, for a schema that is there too."""
    if len(schemas_of(lent)) == SCHEMAS:
        judge(schema)
        raise Refused(12)
    return add(lent, schema)


def full_before_the_schema(lent, schema):
    kept = schemas_of(lent)
    if len(kept) == SCHEMAS and schema not in kept:
        raise Refused(12)
    return add(lent, schema)


def unjudged(lent, schema):
    kept = schemas_of(lent)
    if schema in kept:
        return kept.index(schema), lent
    if len(kept) == SCHEMAS:
        raise Refused(12)
    used = used_bytes(kept + [schema])
    return len(kept), used + lent[len(used):]


def from_one(lent, schema):
    number, after = add(lent, schema)
    return number + 1, after


def uncounted(lent, schema):
    """The new schema stands there, and the count stays as it was."""
    number, after = add(lent, schema)
    return number, lent[:COUNT] + after[COUNT:]


# --- Which lent bytes are a catalogue ----------------------------------------

def any_size(lent, at):
    """A schema ends with the lent bytes, whatever its size says."""
    start = at + SIZE
    end = start + number_at(lent, at, SIZE)
    return lent[start:end], end


def read_as(size):
    def schema_from(lent, at):
        start = at + SIZE
        end = start + size(lent, at)
        if end - start > SCHEMA_LIMIT:
            raise Refused(1)
        return lent[start:end], end
    return slip(schema_from=schema_from)


def taken_if(length, alike=lambda kept, schema: schema in kept, rules=judge):
    """A slip in what is asked of the lent bytes: their length, that no schema is there twice, each schema's rules."""
    def judged(lent):
        if not length(len(lent)) or not lent or lent[0] > SCHEMAS:
            raise Refused(1)
        kept, at = [], COUNT
        for _ in range(lent[0]):
            schema, at = catalogue.schema_from(lent, at)
            rules(schema)
            if alike(kept, schema):
                raise Refused(1)
            kept.append(schema)
        return kept
    return slip(schemas_of=judged)


def just_so_long(length):
    return length == LENGTH


def nothing_behind(lent):
    kept = schemas_of(lent)
    if any(lent[len(used_bytes(kept)):]):
        raise Refused(1)
    return kept


def as_many_as_stand(lent):
    """A count that says more than there are leaves those that are there."""
    kept = None
    for count in range(lent[0] + 1 if lent else 0):
        try:
            kept = schemas_of(bytes([count]) + lent[1:])
        except Refused:
            break
    if kept is None:
        raise Refused(1)
    return kept


def empty_of_any_length(lent):
    return [] if lent[:1] == b'\0' else schemas_of(lent)


# --- Numbers -----------------------------------------------------------------

def number_first(lent, number):
    if lent and number >= lent[0]:
        raise Refused(13)
    return schema_at(lent, number)


def one_more(lent, number):
    """The first number that is not given is taken, for what lies behind the used bytes."""
    kept = schemas_of(lent)
    if number == len(kept):
        return any_size(lent, len(used_bytes(kept)))[0]
    return schema_at(lent, number)


def up_to_the_number(lent, number):
    """What stands behind the schema at a number is not judged."""
    if len(lent) == LENGTH and number < lent[0] <= SCHEMAS:
        return schemas_of(bytes([number + 1]) + lent[1:])[number]
    return schema_at(lent, number)


def numbered_by(change):
    return slip(schema_at=lambda lent, number: schema_at(lent, change(lent, number)))


# --- Lines -------------------------------------------------------------------

def row_before_the_number(req):
    """3 before 13."""
    line = answers.answer(req)
    if req.op in answers.BY_NUMBER and req.op != 'W' and line.startswith('refused 13 ') and len(req.second) > ROW_LIMIT:
        return line.replace('refused 13 ', 'refused 3 ', 1)
    return line


def room_before_the_number(req):
    """What an output needs is told beside 13."""
    line = answers.answer(req)
    return line.replace('refused 13 0 ', 'refused 13 24 ', 1) if req.op in 'WI' else line


def filled_before_refused(req):
    """An output whose number is refused has its start all the same."""
    line = answers.answer(req)
    head, _, out = line.rpartition(' ')
    return '%s 00%s' % (head, out[2:]) if req.op in 'WI' and head == 'refused 13 0' and out != '-' else line


def refused_and_not_shown(req):
    line = answers.answer(req)
    return 'refused 12 0 -' if req.op == 'a' and line.startswith('refused 12 ') else line


def found_by_any_table(req):
    """The table has no say where the schema is there already."""
    if req.op == 'a' and req.table is not None:
        plain = answers.answer(req._replace(table=None))
        if plain.startswith('number ') and plain.rpartition(' ')[2] == answers.used_or_dash(req.second):
            return plain
    return answers.answer(req)


SLIPS = {
    'a repeat gets a new number': kept_as(always_new),
    'a new schema in front': kept_as(in_front),
    'schemas in their own order': kept_as(sorted_in),
    'a repeat moves to the end': kept_as(moved_to_the_end),
    'as long is the same': alike_by(len),
    'the same but for the last leaf': alike_by(lambda schema: schema[:-2]),
    'the same but for the first leaf': alike_by(lambda schema: schema[5:]),
    '12 for a schema that is there': slip(add=full_before_all),
    '12 before the schema\'s 1': slip(add=full_before_the_schema),
    'a new schema is not judged': slip(add=unjudged),
    'numbers told from 1': slip(add=from_one),
    'a new schema is not counted': slip(add=uncounted),
    'full with 15': slip(SCHEMAS=15),
    '17 schemas': slip(SCHEMAS=17),
    'a size over 1,024 ends with the lent bytes': slip(schema_from=any_size),
    'sizes big endian': read_as(lambda lent, at: int.from_bytes(lent[at:at + SIZE], 'big')),
    'sizes of one byte': read_as(lambda lent, at: lent[at]),
    'any length': taken_if(lambda length: True),
    'a byte more is lent': taken_if(lambda length: length in (LENGTH, LENGTH + 1)),
    'a byte less is lent': taken_if(lambda length: length in (LENGTH, LENGTH - 1)),
    'a schema twice': taken_if(just_so_long, alike=lambda kept, schema: False),
    'a schema twice, not side by side': taken_if(just_so_long, alike=lambda kept, schema: schema in kept[-1:]),
    'a schema twice, not the first': taken_if(just_so_long, alike=lambda kept, schema: schema in kept[1:]),
    'schemas that are there are not judged': taken_if(just_so_long, rules=len),
    'what lies behind is looked at': slip(schemas_of=nothing_behind),
    'as many as stand': slip(schemas_of=as_many_as_stand),
    'an empty one of any length': slip(schemas_of=empty_of_any_length),
    '13 before 1': slip(schema_at=number_first),
    'the first number not given is taken': slip(schema_at=one_more),
    'only the schemas up to the number': slip(schema_at=up_to_the_number),
    'the last number is not taken': numbered_by(lambda lent, number: number + (number + 1 == lent[0]) if lent else number),
    'numbers asked from 1': numbered_by(lambda lent, number: max(0, number - 1)),
    'the first schema for every number given': numbered_by(lambda lent, number: 0 if lent and number < lent[0] else number),
    'numbers modulo 16': numbered_by(lambda lent, number: number % 16),
    'numbers of 8 bits': numbered_by(lambda lent, number: number % (1 << 8)),
    'numbers of 16 bits': numbered_by(lambda lent, number: number % (1 << 16)),
    'numbers of 32 bits': numbered_by(lambda lent, number: number % (1 << 32)),
    'numbers of 63 bits': numbered_by(lambda lent, number: number % (1 << 63)),
    '3 before 13': row_before_the_number,
    'a length beside 13': room_before_the_number,
    'a refused output filled': filled_before_refused,
    'a full catalogue is not shown': refused_and_not_shown,
    'found by any table': found_by_any_table,
}
