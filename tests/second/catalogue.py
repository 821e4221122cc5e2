"""The catalogue by the request: up to 16 schemas in lent bytes that two parties share, one added, and the entries of a row by number.

An entry answers, or raises Refused with the document's number; it raises
nothing else.
"""

from schemas import SCHEMA_LIMIT, Refused, judge, number_at

# The first byte is the count; before each schema stands its size, little endian.
COUNT, SIZE = 1, 2
SCHEMAS = 16

# So that 16 schemas of any length find room.
LENGTH = COUNT + SCHEMAS * (SIZE + SCHEMA_LIMIT)


# --- The lent bytes ----------------------------------------------------------

def used_bytes(kept):
    """The count and these schemas, back to back."""
    return bytes([len(kept)]) + b''.join(len(schema).to_bytes(SIZE, 'little') + schema for schema in kept)


def schema_from(lent, at):
    """The bytes of the schema whose size stands at `at`, and where they end."""
    start = at + SIZE
    end = start + number_at(lent, at, SIZE)
    # A size over the limit is wrong also where the lent bytes end before it does.
    if end - start > SCHEMA_LIMIT:
        raise Refused(1)
    return lent[start:end], end


def schemas_of(lent):
    """The schemas in the order of their numbers; 1 where no run of adding leaves these bytes."""
    if len(lent) != LENGTH or lent[0] > SCHEMAS:
        raise Refused(1)                          # 1
    kept, at = [], COUNT
    for _ in range(lent[0]):
        schema, at = schema_from(lent, at)        # 1
        judge(schema)                             # 1
        if schema in kept:
            raise Refused(1)                      # 1
        kept.append(schema)
    return kept


# --- The entries, each with its order of refusals ----------------------------

def add(lent, schema):
    """The schema's number, and the lent bytes after."""
    kept = schemas_of(lent)                       # 1
    judge(schema)                                 # 1
    if schema in kept:
        return kept.index(schema), lent
    if len(kept) == SCHEMAS:
        raise Refused(12)                         # 12
    used = used_bytes(kept + [schema])
    return len(kept), used + lent[len(used):]


def schema_at(lent, number):
    """The schema that the number was given out for."""
    kept = schemas_of(lent)                       # 1
    if number >= len(kept):
        raise Refused(13)                         # 13
    return kept[number]


def by_number(entry, number):
    """An entry of one row that takes a catalogue where it took a schema, which is then the one at this number."""
    return lambda lent, *rest: entry(schema_at(lent, number), *rest)
