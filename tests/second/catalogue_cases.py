"""Cases of the catalogue, with bytes, numbers and refusals written out by hand: adds, repeats, numbers, lengths, cuts, single bits, the longest."""

import itertools

from answers import OUT_ROOM, SCHEMA_ROOM, SECOND_ROOM, hex_or_dash, request
from catalogue_bytes import LENGTH, entry, lent, used
from making import LEAF_MARKS
from table import A_ROW, A_SCHEMA, C_LISTING, C_ROW, C_SCHEMA, E_SCHEMA, F_SCHEMA, G_SCHEMA, I_ROW_9, M_ROW, N_SCHEMA, WRITTEN, fill
from worked_tables import table_of

# Two schemas of 5 bytes and one of 7, so 1, 7, 7 and 9 bytes.
SMALL_SCHEMAS = (b'ro\x01i4', C_SCHEMA, A_SCHEMA)
SMALL = bytes.fromhex('03' '0500' '726f016934' '0500' '726f017374' '0700' '726f0269346938')

# Sixteen and one more, structs of so many int8.
MANY = [b'ro' + bytes([n]) + b'i1' * n for n in range(1, 18)]

# Sixteen different schemas of 1,024 bytes each: no others leave so little behind.
LONGEST = [b'ro\x80' + b'ro\x02' + first + second + b'lililii1' * 126 + b'lilii1' for first, second in itertools.product(LEAF_MARKS, b'i1 st'.split())][:16]

# No schemas: one of each rule.
NO_SCHEMAS = (b'', b'ro', b'ro\x00', b'ro\x01', b'ro\x01i', b'ro\x01i3', b'ro\x01i4i4', b'ro\x02i4', b'i4', b'lii4', b'RO\x01i4', b'ro\x81' + b'i1' * 129,
              b'ro\x01' + b'li' * 7 + b'i4', b'ro\x04' + (b'ro\x7f' + b'i1' * 127) * 4)

# What may stand behind the used bytes, with no say: more schemas, the same again, a size of all that is left.
BEHIND = (b'\0', b'\xff', b'\x01', b'\x05\0ro\x01i4', b'\x05\0ro\x01f4', b'junk')

# Numbers that no catalogue gives out, and those that only a number of 64 bits can be.
NEVER = (16, 17, 255, 256, 257, 65536, 65537, OUT_ROOM)
NEVER_LONG = NEVER + (1 << 32, (1 << 32) + 1, 1 << 63, (1 << 63) + 1, (1 << 64) - 1, (1 << 64) - 16)


def adding(schema, data, **unused):
    return request('a', schema, data, **unused)


def checking(data, number, row):
    return request('x', data, row, room=number)


def added(cases, name, schema, data, number, after):
    """The number, and the used bytes after; what lies behind has no say."""
    for behind in BEHIND:
        cases.state(name, adding(schema, lent(data, behind)), 'number %d %s' % (number, after.hex()))


def five_lines(cases, name, data, number, line):
    """The same refusal by each op, with what is lent as it was, whatever row, listing, path and setting are asked about."""
    for row in (C_ROW, I_ROW_9, b'', bytes(16385)):
        cases.state(name, checking(data, number, row), line)
    for path in ((0,), (), (5,), (0,) * 17):
        cases.state(name, request('y', data, C_ROW, path, room=number), line)
    for kind in (5, 0, 9):
        cases.state(name, request('v', data, C_ROW, (0,), room=number, third=b'TPH', kind=kind), '%s %s' % (line, C_ROW.hex()))
    for listing, room in ((C_LISTING, 24), (C_LISTING, 0), (b'nu', 24)):
        cases.state(name, request('W', data, listing, room=room, value=number), '%s %s' % (line, fill(b'', room)))
    for room in (0, 20):
        cases.state(name, request('I', data, C_ROW, room=room, value=number), '%s %s' % (line, fill(b'', room)))


def no_catalogue(cases, name, data):
    """1 of each op, and for each number; of adding it is the same for a schema that would be there, a new one and none."""
    for schema in (SMALL_SCHEMAS[0], b'ro\x01f8', b'x'):
        cases.state(name, adding(schema, data), 'refused 1 0 -')
    if len(data) <= SCHEMA_ROOM:
        for number in (0, 3, 16):
            cases.state(name, checking(data, number, C_ROW), 'refused 1 0')


# --- Adding ------------------------------------------------------------------

def by_hand(cases):
    assert SMALL == used(*SMALL_SCHEMAS)
    added(cases, 'first', SMALL_SCHEMAS[0], b'\0', 0, SMALL[:8].replace(b'\x03', b'\x01', 1))
    added(cases, 'second', SMALL_SCHEMAS[1], b'\x01' + SMALL[1:8], 1, b'\x02' + SMALL[1:15])
    added(cases, 'third', SMALL_SCHEMAS[2], b'\x02' + SMALL[1:15], 2, SMALL)
    for number, schema in enumerate(SMALL_SCHEMAS):
        added(cases, 'again', schema, SMALL, number, SMALL)


def adds(cases):
    """From none to all 16: each schema again has its old number, a new one the next, and behind 16 there is no next."""
    for n in range(17):
        data = used(*MANY[:n])
        for number in range(n):
            cases.state('again', adding(MANY[number], lent(data)), 'number %d %s' % (number, data.hex()))
        for schema in MANY[n:n + 1] + [b'ro\x01st']:
            cases.state('new', adding(schema, lent(data, b'\xff')),
                        'number %d %s' % (n, used(*MANY[:n], schema).hex()) if n < 16 else 'refused 12 0 ' + data.hex())
        # 1 comes before 12, and the catalogue stays as it is.
        for schema in NO_SCHEMAS:
            cases.state('no schema', adding(schema, lent(data)), 'refused 1 0 ' + data.hex())
    full = used(*MANY[:16])
    for schema, number in zip(MANY[:16], range(16)):
        added(cases, 'again in a full one', schema, full, number, full)
    # Another order of adding gives other numbers.
    back = used(*MANY[15::-1])
    for number in range(16):
        cases.state('again', adding(MANY[number], lent(back)), 'number %d %s' % (15 - number, back.hex()))


def nearly_the_same(cases):
    """The same is the same bytes: a leaf's mark, a count or the order of two fields makes another schema."""
    near = (b'ro\x02i4i8', b'ro\x02i8i4', b'ro\x02i4i4', b'ro\x01lii4', b'ro\x01ro\x01i4', b'ro\x02i4f8', b'ro\x02f4i8', b'ro\x03i4i8i8')
    for first in near:
        for second in near:
            after = used(first) if first == second else used(first, second)
            cases.state('near', adding(second, lent(used(first))), 'number %d %s' % (first != second, after.hex()))
    assert len(set(LONGEST)) == 16
    data = used(*LONGEST[:15])
    cases.state('near', adding(LONGEST[14], lent(data)), 'number 14 ' + data.hex())


def longest(cases):
    """Sixteen schemas of 1,024 bytes are all of the lent bytes."""
    full = used(*LONGEST)
    assert len(full) == LENGTH and {len(schema) for schema in LONGEST} == {1024}
    for n in (0, 1, 14, 15):
        cases.state('longest', adding(LONGEST[n], lent(used(*LONGEST[:n]))), 'number %d %s' % (n, used(*LONGEST[:n + 1]).hex()))
    for n in (0, 7, 15):
        cases.state('longest', adding(LONGEST[n], full), 'number %d %s' % (n, full.hex()))
        cases.state('longest', checking(full, n, b''), 'refused 7 0')
    cases.state('longest', adding(C_SCHEMA, full), 'refused 12 0 ' + full.hex())
    cases.state('longest', checking(full, 16, b''), 'refused 13 0')
    # The last has just its 1,024 bytes left: a longer size is wrong, although what is there would be a schema.
    before = used(*LONGEST[:15]).replace(b'\x0f', b'\x10', 1)
    for size in (1025, 1026, 2048, 0x7FFF, 0xFFFF):
        no_catalogue(cases, 'longest', lent(before + entry(LONGEST[15], size)))
    for size in (1023, 0):
        no_catalogue(cases, 'longest', lent(before + entry(LONGEST[15], size)))
    # So it is of a schema that keeps all other rules.
    head = b'ro\x04' + (b'ro\x7f' + b'i1' * 127) * 3
    for over in (head + b'ro\x7c' + b'i1' * 124, head + b'ro\x7b' + b'ro\x01i1' + b'i1' * 122):
        assert len(over) in (1025, 1026)
        no_catalogue(cases, 'over 1,024', lent(used(over)))
        no_catalogue(cases, 'over 1,024', lent(used(C_SCHEMA, over, A_SCHEMA)))
        cases.state('over 1,024', adding(over, lent(SMALL)), 'refused 1 0 ' + SMALL.hex())


# --- By number ---------------------------------------------------------------

def by_number(cases):
    """The document's rows by the numbers of their schemas, in this order and in the other; and of 16."""
    some = [A_SCHEMA, C_SCHEMA, E_SCHEMA, F_SCHEMA, G_SCHEMA, N_SCHEMA]
    for kept in (some, some[::-1], MANY[:10] + some, some + MANY[:10]):
        data = lent(used(*kept), b'\xff')
        for name, schema, listing, row, size in WRITTEN:
            k, m = kept.index(schema), len(listing)
            cases.state(name, checking(data, k, row), 'done')
            cases.state(name, checking(data, k, row + b'\0'), 'refused 7 0')
            cases.state(name, request('W', data, listing, room=size + 3, value=k), 'done %d %s' % (size, fill(row, size + 3)))
            cases.state(name, request('W', data, listing, room=size - 1, value=k), 'refused 4 %d %s' % (size, fill(b'', size - 1)))
            cases.state(name, request('W', data, listing + b'\0', room=size, value=k), 'refused 2 0 ' + fill(b'', size))
            cases.state(name, request('I', data, row, room=m + 1, value=k), 'done %d %s' % (m, fill(listing, m + 1)))
            cases.state(name, request('I', data, row, room=m - 1, value=k), 'refused 4 %d %s' % (m, fill(b'', m - 1)))
            cases.state(name, request('y', data, row, (), room=k), 'container 0 %d %d' % (size, schema[2]))
            # By the number of another schema it answers as with that one.
            other = (k + 1) % len(kept)
            assert cases.run(name, checking(data, other, row)) == cases.run(name, request('c', kept[other], row))
        a, c = kept.index(A_SCHEMA), kept.index(C_SCHEMA)
        cases.state('A', request('y', data, A_ROW, (0,), room=a), 'number -2')
        cases.state('C', request('y', data, C_ROW, (0,), room=c), 'bytes 16 3')
        cases.state('C', request('y', data, C_ROW, (0, 0), room=c), 'refused 5 0')
        cases.state('I', request('y', data, I_ROW_9, (0,), room=c), 'refused 7 8')
        cases.state('I', checking(data, c, I_ROW_9), 'refused 7 8')
        cases.state('M', request('v', data, C_ROW, (0,), room=c, kind=5, third=b'TPH'), 'done ' + M_ROW.hex())
        cases.state('M', request('v', data, C_ROW, (0,), room=c, kind=5, third=b'TP'), 'refused 9 0 ' + C_ROW.hex())
        cases.state('M', request('v', data, C_ROW, (0,), room=c, kind=2), 'refused 8 0 ' + C_ROW.hex())
        cases.state('limit', checking(data, c, bytes(16385)), 'refused 3 0')


def not_given(cases):
    """13 before all that is judged of the row, the listing, the path and the room."""
    for n in (0, 1, 2, 3):
        data = lent(used(*SMALL_SCHEMAS[:n]), SMALL[1:])
        for number in (n, n + 1, 15):
            five_lines(cases, 'not given', data, number, 'refused 13 0')
    for n in (0, 1, 15, 16):
        data = lent(used(*MANY[:n]))
        for number in (n,) + NEVER:
            cases.state('not given', checking(data, number, C_ROW), 'refused 13 0')
        for number in (n,) + NEVER_LONG:
            cases.state('not given', request('W', data, b'roi1\x05', room=4, value=number), 'refused 13 0 ' + 'aa' * 4)
            cases.state('not given', request('I', data, bytes(16), room=4, value=number), 'refused 13 0 ' + 'aa' * 4)
        if n:
            cases.state('last', checking(data, n - 1, bytes(8 + 8 * n)), 'done')
            cases.state('last', request('W', data, b'ro' + b'i1\0' * n, room=0, value=n - 1), 'refused 4 %d -' % (8 + 8 * n))


# --- Lent bytes that no run of adding leaves ---------------------------------

def lengths(cases):
    for data in (SMALL, b'\0', b'\x01' + SMALL[1:8]):
        for length in (0, 1, len(data), LENGTH - 1026, LENGTH - 1, LENGTH + 1, LENGTH + 1026, SCHEMA_ROOM):
            no_catalogue(cases, 'length', (data + bytes(SCHEMA_ROOM))[:length])
        for length in (2 * LENGTH, 65536, SECOND_ROOM):
            no_catalogue(cases, 'length', data.ljust(length, b'\0'))
    five_lines(cases, 'length', lent(SMALL)[:-1], 1, 'refused 1 0')
    five_lines(cases, 'length', lent(SMALL) + b'\0', 1, 'refused 1 0')
    # Of a full catalogue too, all of which the schemas need.
    full = used(*LONGEST)
    no_catalogue(cases, 'length', full[:-1])
    no_catalogue(cases, 'length', full + b'\0')


def counts(cases):
    """A count that is too small leaves the first schemas, one that is too great wants what no schema is."""
    for count in tuple(range(20)) + (32, 35, 64, 127, 128, 131, 254, 255):
        data = lent(bytes([count]) + SMALL[1:])
        if count > 3:
            no_catalogue(cases, 'count', data)
            continue
        kept = SMALL_SCHEMAS[:count]
        cases.state('count', adding(b'ro\x01f8', data), 'number %d %s' % (count, used(*kept, b'ro\x01f8').hex()))
        cases.state('count', checking(data, count, C_ROW), 'refused 13 0')
    # With a schema behind, one more is one more schema; with all 16 there is none.
    more = lent(b'\x04' + SMALL[1:] + entry(b'ro\x01f8'))
    cases.state('count', adding(b'ro\x01f8', more), 'number 3 ' + used(*SMALL_SCHEMAS, b'ro\x01f8').hex())
    for count in (17, 18, 255):
        no_catalogue(cases, 'count', lent(bytes([count]) + used(*MANY)[1:]))
    five_lines(cases, 'count', lent(b'\x11' + used(*MANY)[1:]), 1, 'refused 1 0')


def one_wrong_schema(cases):
    """A schema that breaks its rules, or one twice, wherever it stands: the numbers before it are no better."""
    for kept in (SMALL_SCHEMAS, MANY[:16]):
        for i in range(len(kept)):
            for broken in NO_SCHEMAS[:8]:
                no_catalogue(cases, 'broken', lent(used(*kept[:i], broken, *kept[i + 1:])))
    for i in range(16):
        for j in range(i):
            data = lent(used(*MANY[:i], MANY[j], *MANY[i + 1:16]))
            cases.state('twice', adding(MANY[j], data), 'refused 1 0 -')
            cases.state('twice', checking(data, 0, b''), 'refused 1 0')
    for kept in ([C_SCHEMA] * 2, [C_SCHEMA] * 16, [A_SCHEMA, C_SCHEMA, C_SCHEMA], LONGEST[:15] + LONGEST[:1]):
        no_catalogue(cases, 'twice', lent(used(*kept)))
    five_lines(cases, 'twice', lent(used(C_SCHEMA, A_SCHEMA, C_SCHEMA)), 0, 'refused 1 0')
    five_lines(cases, 'broken', lent(used(C_SCHEMA, A_SCHEMA, b'ro\x01i3')), 0, 'refused 1 0')
    # Behind the used bytes the same may stand again, or none.
    for behind in (C_SCHEMA, b'x'):
        cases.state('behind', checking(lent(used(C_SCHEMA) + entry(behind)), 0, C_ROW), 'done')


def sizes(cases):
    """A size one off, the other way round, over the limit, and past the end of the lent bytes."""
    for at, schema in ((1, SMALL_SCHEMAS[0]), (8, SMALL_SCHEMAS[1]), (15, SMALL_SCHEMAS[2])):
        n = len(schema)
        for size in (0, 1, n - 2, n - 1, n + 1, n + 2, 256 * n, 256 + n, 1024, 1025, 1024 + n, LENGTH - at - 2, LENGTH - at - 1, 0x8000 + n, 0xFFFF):
            no_catalogue(cases, 'size', lent(SMALL[:at] + size.to_bytes(2, 'little') + SMALL[at + 2:]))


def cuts(cases):
    """The small catalogue with zeros from each byte on: of none but its first that is a catalogue, the empty one."""
    for n in range(1, len(SMALL)):
        no_catalogue(cases, 'cut', lent(SMALL[:n]))
    cases.state('cut', adding(C_SCHEMA, lent(b'')), 'number 0 01' '0500' + C_SCHEMA.hex())
    cases.state('cut', checking(lent(b''), 0, C_ROW), 'refused 13 0')
    # Left out, so that all behind it stands one earlier.
    for n in range(1, len(SMALL)):
        no_catalogue(cases, 'left out', lent(SMALL[:n] + SMALL[n + 1:]))


def single_bits(cases):
    """Every change of one bit: only the count's two lowest leave a catalogue, of two schemas or of one."""
    for bit in range(8 * len(SMALL)):
        changed = bytearray(SMALL)
        changed[bit // 8] ^= 1 << bit % 8
        data = lent(bytes(changed))
        if bit > 1:
            no_catalogue(cases, 'bit', data)
            continue
        left = SMALL_SCHEMAS[:changed[0]]
        assert len(left) == (2, 1)[bit]
        cases.state('bit', adding(A_SCHEMA, data), 'number %d %s' % (len(left), used(*left, A_SCHEMA).hex()))
        cases.state('bit', checking(data, 1, C_ROW), 'done' if len(left) > 1 else 'refused 13 0')
        cases.state('bit', checking(data, 2, A_ROW), 'refused 13 0')
    # A bit behind has no say.
    for at in (len(SMALL), len(SMALL) + 1, LENGTH - 1):
        changed = bytearray(lent(SMALL))
        changed[at] ^= 1
        cases.state('bit', checking(bytes(changed), 2, A_ROW), 'done')
        cases.state('bit', adding(A_SCHEMA, bytes(changed)), 'number 2 ' + SMALL.hex())


# --- Beside all that ---------------------------------------------------------

def no_say(cases):
    """Steps, a third part, a kind, a room and a value where the op has no use for them."""
    data = lent(SMALL, b'junk')
    beside = dict(steps=(1, 2), third=b'junk', kind=9)
    cases.state('no say', adding(A_SCHEMA, data, room=7, value=9, **beside), 'number 2 ' + SMALL.hex())
    cases.state('no say', checking(data, 1, C_ROW)._replace(value=2, **beside), 'done')
    cases.state('no say', request('y', data, C_ROW, (0,), room=1, third=b'junk', kind=9, value=2), 'bytes 16 3')
    cases.state('no say', request('W', data, C_LISTING, room=24, value=1, **beside), 'done 24 ' + C_ROW.hex())
    cases.state('no say', request('I', data, C_ROW, room=11, value=1, **beside), 'done 11 ' + C_LISTING.hex())
    # The value of a setting is its own, and the number stands in the room.
    cases.state('no say', request('v', data, A_ROW, (1,), room=2, kind=2, value=0), 'done ' + hex_or_dash(A_ROW[:16] + bytes(8)))


def by_tables(cases):
    """Its own table adds a schema, or finds it; any other is 1, also of a schema that is there, and the catalogue stays."""
    full = used(*MANY[:16])
    for schema in SMALL_SCHEMAS + (b'ro\x01f8',):
        for data in (b'\0', SMALL, full):
            plain = adding(schema, lent(data))
            line = cases.run('by its table', plain)
            assert line.startswith('number ' if data != full else 'refused 12 0 ')
            own = table_of(schema)
            cases.state('by its table', plain._replace(table=own), line)
            for table in ((), own[:-1], own + (0,), own[::-1], table_of(F_SCHEMA)):
                cases.state('by another table', plain._replace(table=table), 'refused 1 0 ' + data.hex())
        # Of bytes that are no catalogue all tables are alike.
        for table in (own, ()):
            cases.state('by a table', adding(schema, lent(SMALL)[:-1], table=table), 'refused 1 0 -')


def catalogue_cases(cases):
    for group in (by_hand, adds, nearly_the_same, longest, by_number, not_given, lengths, counts, one_wrong_schema, sizes, cuts, single_bits,
                  no_say, by_tables):
        group(cases)
