"""A schema's table: a word of 64 bits for each type, in the schema's order, each put together from named columns.

The words are worked out over the tree of types, a type's own behind those that
it holds, since only they say how many there are.
"""

from functools import lru_cache

from schemas import BOOL, MAP, TABLE, Refused, judge, number_at

# Where the columns of a word stand: the lowest bit, and how many bits there are.
COLUMNS = {
    'mark': (0, 16),
    'top': (16, 6),
    'width': (22, 4),
    'kind': (28, 4),
    'depth': (32, 4),
    'count': (36, 8),
    'first': (44, 10),
    'after': (54, 10),
}

# A type's kind is its place in the document's table.
PLACES = {mark: place for place, (mark, _, _) in enumerate(TABLE)}


def word(**columns):
    """The word with these columns, of which none is left out."""
    assert columns.keys() == COLUMNS.keys()
    made = 0
    for name, value in columns.items():
        low, bits = COLUMNS[name]
        assert 0 <= value < 1 << bits, (name, value)
        made |= value << low
    return made


def column(made, name):
    """What a word says in one column."""
    low, bits = COLUMNS[name]
    return made >> low & (1 << bits) - 1


def held_types(t):
    """The types that a type holds; the two arrays of a map are no types."""
    return [array.parts[0] for array in t.parts] if t.kind == MAP else t.parts


def top_bit(t):
    """The highest bit that a fixed-width type's contents may have in a slot; 0 where they vary."""
    return 0 if t.varying or t.kind == BOOL else 8 * t.width - 1


def words_of(t, depth, place):
    """The words of a type whose own stands at this place. The first child would stand right behind, also where there is none."""
    held = held_types(t)
    behind = []
    for part in held:
        behind += words_of(part, depth + 1, place + 1 + len(behind))
    own = word(mark=number_at(t.mark, 0, 2), top=top_bit(t), width=t.width or 0, kind=PLACES[t.mark], depth=depth,
               count=len(held), first=place + 1, after=place + 1 + len(behind))
    return [own] + behind


# One schema is asked about many rows; its table never changes.
@lru_cache(maxsize=256)
def table_of(schema):
    """The table of a schema that keeps its rules."""
    return tuple(words_of(judge(schema), 1, 0))


def table(schema, room):
    """The entry that works a table out, into a room of so many words."""
    words = table_of(schema)                      # 1
    if len(words) > room:
        raise Refused(4, len(words))              # 4
    return words


def gives(schema, words):
    """Whether the schema keeps its rules and these words are its table: all of it and nothing behind."""
    try:
        return table_of(schema) == tuple(words)
    except Refused:
        return False
