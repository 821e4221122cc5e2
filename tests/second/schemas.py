"""The document's numbers in bytes, its types and schemas, and contents as trees."""

from functools import lru_cache

SCHEMA_LIMIT = 1024
DEPTH_LIMIT = 8
FIELD_LIMIT = 128


class Refused(Exception):
    """The document's number, the length that only number 4 carries, and the place that only 7 does."""

    def __init__(self, number, length=0, place=0):
        super().__init__(number, length, place)
        self.number = number
        self.length = length
        self.place = place


def broken_at(place):
    """The refusal of a row that breaks the layout, with the place of its first fault."""
    return Refused(7, place=place)


# --- Numbers in bytes --------------------------------------------------------

def number_at(data, at, width):
    return int.from_bytes(data[at:at + width], 'little')


def signed_at(data, at, width):
    return int.from_bytes(data[at:at + width], 'little', signed=True)


def pad(n):
    return (n + 7) // 8 * 8


def padded(data):
    return data + bytes(-len(data) % 8)


def bitmap_size(n):
    return (n + 63) // 64 * 8


# --- Types and the schema ----------------------------------------------------

BOOL, INT, FLOAT, BYTES, LIST, MAP, STRUCT = (
    'bool', 'int', 'float', 'bytes', 'list', 'map', 'struct')

# Mark, kind, width; a varying type has no width of its own.
TABLE = (
    (b'bo', BOOL, 1),
    (b'i1', INT, 1),
    (b'i2', INT, 2),
    (b'i4', INT, 4),
    (b'i8', INT, 8),
    (b'f4', FLOAT, 4),
    (b'f8', FLOAT, 8),
    (b'st', BYTES, None),
    (b'bi', BYTES, None),
    (b'li', LIST, None),
    (b'ma', MAP, None),
    (b'ro', STRUCT, None),
)
KIND = {mark: kind for mark, kind, _ in TABLE}
NULL_MARK = b'nu'


class Type:
    """A type; `room` is what an element of a list takes: its width, or a slot.

    The parts of a struct are its field types, of a list its element type.  The
    parts of a map are its two arrays, as list types, because the document
    reads, checks and counts them as lists.
    """

    __slots__ = ('mark', 'kind', 'width', 'room', 'varying', 'parts')

    def __init__(self, mark, kind, width, parts=()):
        self.mark = mark
        self.kind = kind
        self.width = width
        self.varying = width is None
        self.room = 8 if width is None else width
        self.parts = parts


LEAVES = {mark: Type(mark, kind, width)
          for mark, kind, width in TABLE if kind in (BOOL, INT, FLOAT, BYTES)}


def list_of(element):
    return Type(b'li', LIST, None, (element,))


def parse_type(schema, at, depth):
    """The type whose mark stands at `at`, and where it ends."""
    mark = bytes(schema[at:at + 2])
    if mark not in KIND or depth > DEPTH_LIMIT:
        raise Refused(1)
    at += 2
    if mark == b'li':
        element, at = parse_type(schema, at, depth + 1)
        return list_of(element), at
    if mark == b'ma':
        key, at = parse_type(schema, at, depth + 1)
        value, at = parse_type(schema, at, depth + 1)
        return Type(mark, MAP, None, (list_of(key), list_of(value))), at
    if mark == b'ro':
        if at >= len(schema) or not 1 <= schema[at] <= FIELD_LIMIT:
            raise Refused(1)
        count = schema[at]
        at += 1
        fields = []
        for _ in range(count):
            field, at = parse_type(schema, at, depth + 1)
            fields.append(field)
        return Type(mark, STRUCT, None, tuple(fields)), at
    return LEAVES[mark], at


# One schema is asked about many rows; its type never changes.
@lru_cache(maxsize=256)
def judge(schema):
    """The root type of a schema that keeps its rules."""
    if len(schema) > SCHEMA_LIMIT:
        raise Refused(1)
    root, end = parse_type(schema, 0, 1)
    if root.kind != STRUCT or end != len(schema):
        raise Refused(1)
    return root


# --- Contents ----------------------------------------------------------------
#
# Contents are a tree: a Null with the bytes that stand under it in the row, a
# leaf's bytes, or a list of contents (fields; elements; a map's two arrays).

class Null:
    __slots__ = ('under',)

    def __init__(self, under):
        self.under = under

    def __eq__(self, other):
        return isinstance(other, Null) and self.under == other.under

    def __repr__(self):
        return 'Null(%s)' % self.under.hex()


def clean(cell):
    """The same contents with zeros under every null."""
    if isinstance(cell, Null):
        return Null(bytes(len(cell.under)))
    if isinstance(cell, list):
        return [clean(part) for part in cell]
    return cell
