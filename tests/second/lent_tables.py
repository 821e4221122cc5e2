"""Cases of tables: worked out into rooms of every length, and lent beside their schemas, right ones and wrong ones.

Of a wrong table the line is written out by hand: 1, and what was lent as it was.
"""

import itertools
from collections import namedtuple

import batches
import catalogue_bytes
import layouts
import schemas
from answers import FILL_WORD, OPS_BY_TABLE, WORDS_ROOM, hex_or_dash, hex_words, request
from making import LEAF_MARKS
from table import A_SCHEMA, C_SCHEMA, F_SCHEMA, fill, text, u
from worked_tables import table_of

STROKES = b'ro\x02' + b'ro\x02i4i4' * 2

# Words put together by hand, the lower half from the line of the type and the upper from where it stands.
BY_HAND = (
    (b'ro\x01i4', '00801011b0006f72' '00802002311f3469'),
    (A_SCHEMA, '00c01021b0006f72' '00802002311f3469' '00c03002423f3869'),
    (C_SCHEMA, '00801011b0006f72' '0080200270007473'),
    (F_SCHEMA, '01001011b0006f72' '01002022a000616d' '00c03003423f3869' '01004003423f3869'),
    (STROKES, '01c01021b0006f72' '01002022b0006f72' '00c03003311f3469' '01004003311f3469'
              '01c05022b0006f72' '01806003311f3469' '01c07003311f3469'),
    (b'ro\x09boi1i2i4i8f4f8stbi',
     '02801091b0006f72' '0080200200406f62' '00c0300210473169' '01004002208f3269' '01405002311f3469' '01806002423f3869'
     '01c07002511f3466' '02008002623f3866' '0240900270007473' '0280a00280006962'),
    (b'ro\x01lililililii1', '01c01011b0006f72' '01c020129000696c' '01c030139000696c' '01c040149000696c' '01c050159000696c'
                            '01c060169000696c' '01c0700710473169'),
)

# A schema with a listing for it, and a leaf: its path, and a setting that it takes.
Small = namedtuple('Small', 'schema listing path kind value third')

SMALLS = (
    Small(b'ro\x01i4', b'roi4' + u(7, 4), (0,), 2, 9, b''),
    Small(STROKES, b'ro' + b'roi4' + u(1000, 4) + b'i4' + u(5, 4) + b'ronui4' + u(7, 4), (1, 1), 2, 9, b''),
    Small(b'ro\x01liro\x02i8st', b'roli' + u(2, 4) + (b'roi8' + u(3, 8) + text(b'STK')) * 2, (0, 1, 1), 5, 0, b'TPH'),
    Small(b'ro\x01mai2st', b'roma' + u(2, 4) + b'i2' + u(1, 2) + b'i2' + u(2, 2) + text(b'a') + text(b'bc'), (0, 1, 1), 5, 0, b'de'),
    Small(b'ro\x09boi1i2i4i8f4f8stbi',
          b'robo\x01i1\x02' + b'i2' + u(3, 2) + b'i4' + u(4, 4) + b'i8' + u(5, 8) + b'f4' + u(6, 4) + b'f8' + u(7, 8)
          + text(b'x') + text(b'yz', b'bi'), (7,), 5, 0, b'w'),
    # Of the deepest leaf the depth is 8, and 7 that of its holder.
    Small(b'ro\x01liro\x01mai1liro\x01libi',
          b'roli' + u(1, 4) + b'roma' + u(1, 4) + b'i1\x05' + b'li' + u(1, 4) + b'roli' + u(1, 4) + text(b'abc', b'bi'),
          (0, 0, 0, 1, 0, 0, 0, 0), 5, 0, b'xyz'),
)

# A catalogue of one schema, which is none of the above.
CATALOGUE = catalogue_bytes.used(b'ro\x01bo')

# Schemas of as many types each, which differ in how these hold each other.
ALIKE_IN_NUMBER = (
    (b'ro\x02i4i8', b'ro\x02i8i4', b'ro\x01lii4', b'ro\x01ro\x01i4', b'ro\x02stbi', b'ro\x02i4i4'),
    (b'ro\x01mai4i4', b'ro\x01ro\x02i4i4', b'ro\x02lii4i4', b'ro\x02i4lii4', b'ro\x03i4i4i4', b'ro\x01liro\x01i4', b'ro\x01ro\x01lii4',
     b'ro\x01lilii4'),
    (STROKES, b'ro\x02ro\x03i4i4i4ro\x01i4', b'ro\x02mai4i4mai4i4', b'ro\x02ro\x02i4i4mai4i4', b'ro\x06' + b'i4' * 6,
     b'ro\x01liliro\x03i4i4i4'),
)


# --- Questions that are answered, and what they are refused with -------------

def questions(small):
    """A request of each op; by the schema each is answered, so that only the table can have it refused with 1."""
    schema, listing, path, kind, value, third = small
    root = schemas.judge(schema)
    row = layouts.content(root, layouts.parse_listing(root, listing))
    one, two = batches.framing([row]), batches.framing([row, row])
    setting = {'third': third, 'kind': kind, 'value': value}
    return (
        request('j', schema),
        request('c', schema, row),
        request('w', schema, listing, room=len(row) + 1),
        request('l', schema, row, room=len(listing) + 1),
        request('r', schema, row, path),
        request('o', schema, row, path),
        request('t', schema, row, path, third=b'none'),
        request('s', schema, row, path, **setting),
        request('f', schema, two, room=1),
        request('k', schema, two),
        request('A', schema, one, room=len(two) + 1, third=row),
        request('g', schema, two, path, room=1),
        request('z', schema, two, path, room=1, **setting),
        request('a', schema, catalogue_bytes.lent(CATALOGUE)),
    )


def refused_line(req):
    """1 for the table, and nothing altered; of a text the stand-in."""
    if req.op == 't':
        return hex_or_dash(req.third)
    lent = {'w': fill(b'', req.room), 'l': fill(b'', req.room), 's': hex_or_dash(req.second), 'z': hex_or_dash(req.second),
            'A': fill(req.second, req.room), 'a': CATALOGUE.hex()}.get(req.op)
    return 'refused 1 0' if lent is None else 'refused 1 0 ' + lent


# --- Tables that a schema does not give --------------------------------------

def single_bits(table):
    for i, word in enumerate(table):
        for bit in range(64):
            yield table[:i] + (word ^ 1 << bit,) + table[i + 1:]


def too_few_or_many(table):
    """Every cut at its end, the empty table included, every word left out, and words behind it."""
    for n in range(len(table)):
        yield table[:n]
        yield table[:n] + table[n + 1:]
    for behind in (0, table[-1], (1 << 64) - 1):
        yield table + (behind,)
    yield (0,) + table
    yield table + table
    yield table + (0,) * (512 - len(table))
    yield table + (0,) * (WORDS_ROOM - len(table))


def out_of_order(table):
    yield table[::-1]
    for i in range(len(table) - 1):
        yield table[:i] + (table[i + 1], table[i]) + table[i + 2:]
    # The same bytes the other way round, and the halves of each word exchanged.
    yield tuple(int.from_bytes(word.to_bytes(8, 'big'), 'little') for word in table)
    yield tuple(word >> 32 | word % (1 << 32) << 32 for word in table)
    yield (0,) * len(table)


def of_other_leaves(schema):
    """The tables of schemas that differ in one leaf."""
    places = [at for at in range(3, len(schema) - 1) if schema[at:at + 2] in LEAF_MARKS]
    for at in places:
        for mark in LEAF_MARKS:
            other = schema[:at] + mark + schema[at + 2:]
            if other != schema:
                yield table_of(other)


def wrong_tables(schema):
    """Without those that are right after all: two neighbours may be alike."""
    table = table_of(schema)
    others = itertools.chain(single_bits(table), too_few_or_many(table), out_of_order(table), of_other_leaves(schema),
                             (table_of(other) for group in ALIKE_IN_NUMBER for other in group))
    return [other for other in dict.fromkeys(others) if other != table]


# --- The cases ---------------------------------------------------------------

def by_hand(cases):
    for schema, words in BY_HAND:
        n = len(words) // 16
        for room in (n, n + 1, n + 5, WORDS_ROOM):
            cases.state('table', request('T', schema, room=room), 'done %d %s' % (n, words + 'aa' * 8 * (room - n)))
        for room in range(n):
            cases.state('table', request('T', schema, room=room), 'refused 4 %d %s' % (n, hex_words((FILL_WORD,) * room)))


def refused_schemas(cases):
    long = b'ro\x04' + (b'ro\x7f' + b'i1' * 127) * 4
    refused = (b'', b'r', b'ro', b'ro\x00', b'ro\x01', b'ro\x01i', b'ro\x01nu', b'ro\x01i4i4', b'ro\x02i4', b'i4', b'lii4', b'ro\x01li', b'ro\x01mai4',
               b'ro\x81' + b'i1' * 129, b'ro\x01' + b'li' * 7 + b'i4', b'ro\x01' * 8 + b'i4', long, long[:1025], bytes(2048))
    for schema in refused:
        for room in (0, 1, 3, 512):
            cases.state('no table', request('T', schema, room=room), 'refused 1 0 ' + hex_words((FILL_WORD,) * room))
        # No table is a refused schema's: not the empty one, nor that of a schema near it.
        for table in ((), (0,), table_of(b'ro\x01i4'), table_of(C_SCHEMA), table_of(STROKES)):
            for asked in questions(SMALLS[0]):
                refused_one = asked._replace(schema=schema, table=table)
                cases.state('no table', refused_one, refused_line(refused_one))


def right_and_wrong(cases):
    for small in SMALLS:
        asked = questions(small)
        assert ''.join(sorted(req.op for req in asked)) == ''.join(sorted(OPS_BY_TABLE))
        table = table_of(small.schema)
        for req in asked:
            line = cases.run('by the schema', req)
            # Of a leaf that is no text the stand-in is the answer by the schema too.
            assert line != refused_line(req) or req.op == 't'
            cases.state('by its table', req._replace(table=table), line)
        for wrong in wrong_tables(small.schema):
            for req in asked:
                cases.state('by a wrong table', req._replace(table=wrong), refused_line(req))


def small_types(count):
    """Every type of so many, itself included, of int32, string, list, map and struct."""
    if count == 1:
        yield from (b'i4', b'st')
        return
    for t in small_types(count - 1):
        yield b'li' + t
    for fields in type_runs(count - 1):
        yield b'ro' + bytes([len(fields)]) + b''.join(fields)
        if len(fields) == 2:
            yield b'ma' + b''.join(fields)


def type_runs(count):
    """Every run of types that are so many together."""
    if count == 0:
        yield ()
    for first in range(1, count + 1):
        for t in small_types(first):
            for rest in type_runs(count - first):
                yield (t,) + rest


def no_two_alike(cases):
    """Every table of at most four types beside every schema of as many: its own alone is taken."""
    for count in (2, 3, 4):
        made = [t for t in small_types(count) if t.startswith(b'ro')]
        for schema in made:
            for other in made:
                cases.state('own table', request('j', schema, table=table_of(other)), 'done' if other == schema else 'refused 1 0')


def longest(cases):
    """No schema has more types than these of 1,023 and 1,024 bytes; the last word counts as the first does."""
    odd = b'ro\x80' + b'lililii1' * 127 + b'lii1'
    even = b'ro\x80' + b'ro\x02i1i1' + b'lililii1' * 126 + b'lilii1'
    for schema in (odd, even):
        table = table_of(schema)
        assert len(schema) in (1023, 1024) and len(table) == 511
        for room in (0, len(table) - 1, len(table), len(table) + 1, WORDS_ROOM):
            cases.run('longest', request('T', schema, room=room))
        cases.state('longest', request('j', schema, table=table), 'done')
        for i in (0, 1, len(table) // 2, len(table) - 1):
            wrong = table[:i] + (table[i] ^ 1,) + table[i + 1:]
            cases.state('longest', request('j', schema, table=wrong), 'refused 1 0')
        for wrong in (table[:-1], table + (0,), table[1:], table[:32], table[:128]):
            cases.state('longest', request('j', schema, table=wrong), 'refused 1 0')


def lent_table_cases(cases):
    by_hand(cases)
    refused_schemas(cases)
    right_and_wrong(cases)
    no_two_alike(cases)
    longest(cases)
