"""Cases of strings that are text or not, with places and refusals written out by hand: every entry, containers, orders, nulls, settings."""

import rows
from answers import hex_or_dash, request
from batch_cases import appending, frame, in_row, written_over
from catalogue_bytes import lent, used
from places import letters, slot
from table import A_SCHEMA, C_ROW, C_SCHEMA, D_ROW, ZEROS, fill, text, u
from text_sequences import sequence_cases
from texts import decodes
from worked_tables import table_of

BINARY_SCHEMA = b'ro\x01bi'

# Text of each length of characters, at the bounds of each; NUL, the neighbours of the surrogates, noncharacters and a byte order mark are text.
TEXTS = [bytes.fromhex(word) for word in (
    '', '00', '0000', '53544b', '530054', '7f', 'c280', 'c3a9', 'dfbf', 'e0a080', 'e28094', 'ed9fbf', 'ee8080', 'efb790', 'efbbbf', 'efbfbd', 'efbfbe',
    'efbfbf', 'f0908080', 'f09f9880', 'f09fbfbe', 'f48fbfbf', '53544b505752c3a9', '53544b50575254c3a9', '53544b505752e28094', 'c3a9e28094f09f9880', 'c3a9' * 9)]

# Stray tails; bytes that never come; overlong forms; surrogates, alone and as a pair; beyond the last code point; five and six bytes; cut characters; a
# byte behind that is no tail, too few tails and one too many; and the same behind eight bytes of text or more.
BAD = [bytes.fromhex(word) for word in (
    '80', 'bf', '5380', 'c0', 'c1', 'f5', 'f8', 'fe', 'ff', 'c080', 'c0af', 'c1bf', 'e08080', 'e09fbf', 'f0808080', 'f08fbfbf', 'eda080', 'edafbf', 'edb080',
    'edbfbf', 'eda080edb080', 'f4908080', 'f4bfbfbf', 'f5808080', 'f7bfbfbf', 'f888808080', 'fc8480808080', 'c3', 'e2', 'e280', 'f0', 'f09f', 'f09f98',
    '53c3', '53544be280', 'c328', 'c3c3', 'e22880', 'e28028', 'e280c3', 'f0289880', 'f09f2880', 'f09f9828', 'c3a9a9', 'e2809480', 'f09f988080',
    '53544b505752545080', '53544b5057525450eda080', '53544b505752f09f98', '53544b50575254e280', '00ff', '53544b5057525448534b52ff')]


def string_row(data, padding=bytes(7)):
    """A row of one string or binary: its slot at 8, its bytes from 16."""
    return ZEROS + slot(16, len(data)) + letters(data, padding)


# --- Every entry ---------------------------------------------------------------

def one_string(cases, data, table, table_of_binary):
    """Everything that takes a row or a listing of one string, by a lent table where there is one; and of one binary, which takes any bytes."""
    good = decodes(data)
    row, listing, other = string_row(data), b'ro' + text(data), string_row(b'x' * len(data))
    n, m = len(row), len(listing)
    broken = 'refused 7 8'

    def state(line, bad_line, op, second, steps=(), **asked):
        cases.state('a string', request(op, C_SCHEMA, second, steps, table=table, **asked), line if good else bad_line)
        if op == 'w':
            second = second.replace(b'rost', b'robi', 1)
        line = line.replace(listing.hex(), listing.replace(b'rost', b'robi', 1).hex())
        cases.state('a binary', request(op, BINARY_SCHEMA, second, steps, table=table_of_binary, **asked), line)

    state('done', broken, 'c', row)
    state('done %d %s' % (m, fill(listing, m + 1)), '%s %s' % (broken, fill(b'', m + 1)), 'l', row, room=m + 1)
    state('refused 4 %d -' % m, broken + ' -', 'l', row)
    state('done %d %s' % (n, fill(row, n + 1)), 'refused 2 0 ' + fill(b'', n + 1), 'w', listing, room=n + 1)
    state('refused 4 %d -' % n, 'refused 2 0 -', 'w', listing)
    for op in 'ro':
        state('bytes 16 %d' % len(data), broken, op, row, (0,))
        state('container 0 %d 1' % n, 'container 0 %d 1' % n, op, row)
        state('refused 5 0', 'refused 5 0', op, row, (0, 0))
    state(hex_or_dash(data), '6e6f6e65', 't', row, (0,), third=b'none')
    state(hex_or_dash(data), '-', 't', row, (0,))
    state('done ' + row.hex(), 'refused 8 0 ' + other.hex(), 's', other, (0,), kind=5, third=data)
    # Bad text in the row comes before all that is asked of the path and the setting.
    state('done ' + other.hex(), '%s %s' % (broken, row.hex()), 's', row, (0,), kind=5, third=b'x' * len(data))
    state('refused 5 0 ' + row.hex(), '%s %s' % (broken, row.hex()), 's', row, (77,), kind=9)
    # 8 comes before 9: for a string of another length, and for a null.
    longer, null = string_row(b'x' * (len(data) + 1)), b'\1' + bytes(15)
    for there in (longer, null):
        state('refused 9 0 ' + there.hex(), 'refused 8 0 ' + there.hex(), 's', there, (0,), kind=5, third=data)


def in_a_batch(cases, data):
    """The second of three rows has the string: 7 there, and no affair of the others."""
    good, row = decodes(data), string_row(data)
    batch = frame(C_ROW) + frame(row) + frame(D_ROW)
    after = batch + frame(row)
    # As a setting of the first row's three letters.
    if not good:
        set_first = 'refused 8 0 ' + batch.hex()
    else:
        set_first = 'done ' + written_over(batch, 20, data).hex() if len(data) == 3 else 'refused 9 0 ' + batch.hex()
    for table in (None, table_of(C_SCHEMA)):
        def state(req, line, bad_line):
            cases.state('in a batch', req._replace(table=table), line if good else bad_line)

        def state_alike(req, line):
            state(req, line, line)

        state(request('k', C_SCHEMA, batch), 'done', 'refused 7 8 row 1')
        state(in_row('f', C_SCHEMA, batch, 1), 'bytes 32 %d' % len(row), 'refused 7 8')
        state(in_row('g', C_SCHEMA, batch, 1), 'bytes 16 %d' % len(data), 'refused 7 8')
        state(in_row('z', C_SCHEMA, batch, 1, kind=9), 'refused 8 0 ' + batch.hex(), 'refused 7 8 ' + batch.hex())
        state(appending(batch, row, len(after)), 'done %d %s' % (len(after), after.hex()), 'refused 7 8 ' + fill(batch, len(after)))
        state(appending(batch, row, len(batch)), 'refused 4 %d %s' % (len(after), batch.hex()), 'refused 7 8 ' + batch.hex())
        state_alike(in_row('f', C_SCHEMA, batch, 0), 'bytes 4 24')
        state_alike(in_row('g', C_SCHEMA, batch, 1, ()), 'container 0 %d 1' % len(row))
        state_alike(in_row('g', C_SCHEMA, batch, 2), 'bytes 16 0')
        state_alike(in_row('z', C_SCHEMA, batch, 0, kind=5, third=b'TPH'), 'done ' + written_over(batch, 20, b'TPH').hex())
        state_alike(in_row('z', C_SCHEMA, batch, 0, kind=5, third=data), set_first)
        # Of the rows that are there already appending asks the sizes alone.
        state_alike(appending(batch, D_ROW, len(batch) + 20), 'done %d %s' % (len(batch) + 20, (batch + frame(D_ROW)).hex()))


def by_number(cases, data):
    """Number 1 is a string's schema, number 2 a binary's."""
    kept = lent(used(A_SCHEMA, C_SCHEMA, BINARY_SCHEMA))
    row, other = string_row(data), string_row(b'x' * len(data))
    for k, mark, fine in ((1, b'st', decodes(data)), (2, b'bi', True)):
        listing = b'ro' + text(data, mark)
        n, m = len(row), len(listing)
        cases.state('by number', request('x', kept, row, room=k), 'done' if fine else 'refused 7 8')
        cases.state('by number', request('y', kept, row, (0,), room=k), 'bytes 16 %d' % len(data) if fine else 'refused 7 8')
        cases.state('by number', request('v', kept, other, (0,), room=k, kind=5, third=data),
                    'done ' + row.hex() if fine else 'refused 8 0 ' + other.hex())
        cases.state('by number', request('v', kept, row, (0,), room=k, kind=0), '%s %s' % ('refused 9 0' if fine else 'refused 7 8', row.hex()))
        cases.state('by number', request('W', kept, listing, room=n, value=k), 'done %d %s' % (n, row.hex()) if fine else 'refused 2 0 ' + fill(b'', n))
        cases.state('by number', request('I', kept, row, room=m, value=k), 'done %d %s' % (m, listing.hex()) if fine else 'refused 7 8 ' + fill(b'', m))


def every_entry(cases):
    assert all(map(decodes, TEXTS)) and not any(map(decodes, BAD))
    for data in TEXTS + BAD:
        one_string(cases, data, None, None)
        one_string(cases, data, table_of(C_SCHEMA), table_of(BINARY_SCHEMA))
        in_a_batch(cases, data)
    for data in TEXTS[3:20:4] + BAD[::7]:
        by_number(cases, data)
    # 1 and 3 come first, in a listing 2 before 3 and 4; by a table that is not the schema's it is 1 too.
    bad, long = string_row(b'\xff'), b'\xff' * 16369
    for schema, table in ((C_SCHEMA + b'i1', None), (C_SCHEMA, ()), (C_SCHEMA, table_of(BINARY_SCHEMA))):
        cases.state('1 first', request('c', schema, bad, table=table), 'refused 1 0')
        cases.state('1 first', request('r', schema, bad, (0,), table=table), 'refused 1 0')
        cases.state('1 first', request('w', schema, b'ro' + text(b'\xff'), room=2, table=table), 'refused 1 0 aaaa')
    cases.state('3 first', request('c', C_SCHEMA, string_row(long)), 'refused 3 0')
    cases.state('3 first', request('r', C_SCHEMA, string_row(long), (0,)), 'refused 3 0')
    cases.state('2 first', request('w', C_SCHEMA, b'ro' + text(long), room=8), 'refused 2 0 ' + 'aa' * 8)


# --- Strings in containers -------------------------------------------------------

ONE = u(1, 8)

# Schema, a sound row that has STK once, its path, its slot and its first byte, and reads of other places.
CONTAINERS = (
    # Between other fields, with a binary, another string and a bool beside it.
    (b'ro\x05i8stbistbo', ZEROS + ONE + slot(48, 3) + slot(56, 3) + slot(64, 3) + ONE + letters(b'STK') + letters(b'\xff\xfe\xfd') + letters(b'PWR'),
     (1,), 16, 48, (((), 'container 0 72 5'), ((0,), 'number 1'), ((2,), 'bytes 56 3'), ((3,), 'bytes 64 3'), ((4,), 'bool 1'))),
    # The same, its value behind the others.
    (b'ro\x05i8stbistbo', ZEROS + ONE + slot(64, 3) + slot(56, 3) + slot(48, 3) + ONE + letters(b'PWR') + letters(b'\xff\xfe\xfd') + letters(b'STK'),
     (1,), 16, 64, (((), 'container 0 72 5'), ((2,), 'bytes 56 3'), ((3,), 'bytes 48 3'))),
    (b'ro\x01list', ZEROS + slot(16, 64) + u(3, 8) + ZEROS + slot(40, 3) + slot(48, 3) + slot(56, 3) + letters(b'TPH') + letters(b'STK') + letters(b'PWR'),
     (0, 1), 40, 64, (((0,), 'container 16 64 3'), ((0, 0), 'bytes 56 3'), ((0, 2), 'bytes 72 3'), ((0, 3), 'refused 5 0'))),
    # A key, and a value, of a map of one entry.
    (b'ro\x01masti8', ZEROS + slot(16, 64) + u(32, 8) + ONE + ZEROS + slot(24, 3) + letters(b'STK') + ONE + ZEROS + ONE,
     (0, 0, 0), 40, 48, (((0,), 'container 16 64 2'), ((0, 0), 'container 24 32 1'), ((0, 1), 'container 56 24 1'), ((0, 1, 0), 'number 1'))),
    (b'ro\x01mai8st', ZEROS + slot(16, 64) + u(24, 8) + ONE + ZEROS + ONE + ONE + ZEROS + slot(24, 3) + letters(b'STK'),
     (0, 1, 0), 64, 72, (((0,), 'container 16 64 2'), ((0, 0, 0), 'number 1'), ((0, 1), 'container 48 32 1'), ((0, 1, 1), 'refused 5 0'))),
    # In a struct within, and in a struct of a list.
    (b'ro\x01ro\x02i4st', ZEROS + slot(16, 32) + ZEROS + ONE + slot(24, 3) + letters(b'STK'),
     (0, 1), 32, 40, (((0,), 'container 16 32 2'), ((0, 0), 'number 1'))),
    (b'ro\x01liro\x01st', ZEROS + slot(16, 48) + ONE + ZEROS + slot(24, 24) + ZEROS + slot(16, 3) + letters(b'STK'),
     (0, 0, 0), 48, 56, (((0,), 'container 16 48 1'), ((0, 0), 'container 40 24 1'))),
)

# Of the length of STK; the last two are cut by the string's end.
BAD_THREE = (b'ST\xff', b'\x80TK', b'\xed\xa0\x80', b'\xe0\x9f\xbf', b'\xc0\x80K', b'S\xc3K', b'ST\xc3', b'S\xe2\x80')


def in_containers(cases):
    for schema, row, path, at, start, others in CONTAINERS:
        line, listing = 'refused 7 %d' % at, rows.list_back(schema, row, rows.ROW_LIMIT)
        m = len(listing)
        cases.state('within', request('c', schema, row), 'done')
        cases.state('within', request('r', schema, row, path), 'bytes %d 3' % start)
        cases.state('within', request('s', schema, row, path, kind=5, third=b'TPH'), 'done ' + row.replace(b'STK', b'TPH').hex())
        for bad in BAD_THREE:
            broken = row.replace(b'STK', bad)
            cases.state('within', request('c', schema, broken), line)
            cases.state('within', request('l', schema, broken, room=m), '%s %s' % (line, fill(b'', m)))
            cases.state('within', request('s', schema, broken, (77,), kind=9), '%s %s' % (line, broken.hex()))
            cases.state('within', request('t', schema, broken, path, third=b'none'), '6e6f6e65')
            cases.state('within', request('w', schema, listing.replace(b'STK', bad), room=9), 'refused 2 0 ' + fill(b'', 9))
            cases.state('within', request('s', schema, row, path, kind=5, third=bad), 'refused 8 0 ' + row.hex())
            for op in 'ro':
                cases.state('within', request(op, schema, broken, path), line)
                # Nothing off the path is judged.
                for other, found in others:
                    cases.state('off the path', request(op, schema, broken, other), found)
            # A binary in its place takes the bytes.
            free = schema.replace(b'st', b'bi')
            cases.state('binary within', request('c', free, broken), 'done')
            cases.state('binary within', request('r', free, broken, path), 'bytes %d 3' % start)
            cases.state('binary within', request('t', free, broken, path, third=b'none'), bad.hex())
            cases.state('binary within', request('s', free, row, path, kind=5, third=bad), 'done ' + broken.hex())


# --- Which fault comes first -------------------------------------------------------

F = letters(b'\xff')

# Rows with bad text and something else that is wrong: what is told is the first in the order of request Q-3.
ORDERS = (
    ('text before its padding', b'ro\x01st', string_row(b'\xff', b'\1' * 7), 8),
    ('tails in the padding', b'ro\x01st', string_row(b'\xc3', b'\xa9' + bytes(6)), 8),
    ('two tails in the padding', b'ro\x01st', string_row(b'STK\xf0\x9f', b'\x98\x80\0'), 8),
    ('padding of sound text', b'ro\x01st', string_row(b'\xc3\xa9', b'\xa9' + bytes(5)), 18),
    ('range of field 0', b'ro\x02stst', ZEROS + slot(28, 1) + slot(32, 1) + F + F, 8),
    ('range of field 1', b'ro\x02stst', ZEROS + slot(24, 1) + slot(36, 1) + F + F, 8),
    ('range of field 1, field 0 is text', b'ro\x02stst', ZEROS + slot(24, 1) + slot(36, 1) + letters(b'x') + F, 16),
    ('text of field 1, range of field 2', b'ro\x03ststst', ZEROS + slot(32, 1) + slot(40, 1) + slot(99, 1) + letters(b'x') + F, 16),
    ('text of field 1, range of field 0', b'ro\x03ststst', ZEROS + slot(99, 1) + slot(32, 1) + slot(40, 1) + F + letters(b'x'), 8),
    ('padding of field 0', b'ro\x02stst', ZEROS + slot(24, 1) + slot(32, 1) + letters(b'x', b'\0\0\1\0\0\0\0') + F, 27),
    ('text of both', b'ro\x02stst', ZEROS + slot(24, 1) + slot(32, 1) + F + F, 8),
    ('text of both, reversed', b'ro\x02stst', ZEROS + slot(32, 1) + slot(24, 1) + F + F, 8),
    ('text of field 1 alone, reversed', b'ro\x02stst', ZEROS + slot(32, 1) + slot(24, 1) + F + letters(b'x'), 16),
    ('two slots at one value', b'ro\x02stst', ZEROS + slot(24, 1) + slot(24, 1) + F, 8),
    ('a string over a binary', b'ro\x02bist', ZEROS + slot(24, 1) + slot(24, 1) + F, 16),
    ('a bool before', b'ro\x02bost', ZEROS + u(2, 8) + slot(24, 1) + F, 8),
    ('a bool behind', b'ro\x02stbo', ZEROS + slot(24, 1) + u(2, 8) + F, 8),
    ('a bit past the fields', b'ro\x01st', b'\2' + bytes(7) + slot(16, 1) + F, 0),
    ('the row\'s size', b'ro\x01st', ZEROS + slot(16, 1) + F + b'\0', 0),
    ('a gap', b'ro\x01st', ZEROS + slot(24, 1) + ZEROS + F, 8),
    ('bytes left over', b'ro\x01st', string_row(b'\xff') + ZEROS, 8),
    ('deep in field 0', b'ro\x02ro\x01stst', ZEROS + slot(24, 24) + slot(99, 1) + ZEROS + slot(16, 1) + F, 32),
    ('the end of a struct within', b'ro\x02ro\x01stst', ZEROS + slot(24, 32) + slot(56, 1) + ZEROS + slot(16, 1) + letters(b'x') + ZEROS + F, 8),
    ('a key, and too few values', b'ro\x01masti8', ZEROS + slot(16, 56) + u(32, 8) + ONE + ZEROS + slot(24, 1) + F + ZEROS + ZEROS, 40),
    ('too many values, and a value', b'ro\x01mai8st', ZEROS + slot(16, 72) + u(24, 8) + ONE + ZEROS + ONE + u(2, 8) + ZEROS + slot(32, 1) * 2 + F, 48),
    ('an element, and the next one\'s range', b'ro\x01list', ZEROS + slot(16, 40) + u(2, 8) + ZEROS + slot(32, 1) + slot(0, 1) + F, 32),
    ('the list\'s count', b'ro\x01list', ZEROS + slot(16, 32) + u(9, 8) + ZEROS + slot(24, 1) + F, 16),
)


def orders(cases):
    for name, schema, row, place in ORDERS:
        line = 'refused 7 %d' % place
        cases.state(name, request('c', schema, row), line)
        cases.state(name, request('l', schema, row, room=9), '%s %s' % (line, fill(b'', 9)))
        cases.state(name, request('s', schema, row, (77,), kind=9), '%s %s' % (line, row.hex()))
        cases.state(name, request('k', schema, frame(row)), line + ' row 0')
    # A read asks for no padding, and that it fits is no affair of it; text it judges all the same.
    for op in 'ro':
        for padding in (b'', b'\1', b'\xa9'):
            cases.state('no padding', request(op, C_SCHEMA, ZEROS + slot(16, 3) + b'STK' + padding, (0,)), 'bytes 16 3')
            cases.state('no padding', request(op, C_SCHEMA, ZEROS + slot(16, 3) + b'ST\xc3' + padding, (0,)), 'refused 7 8')
        cases.state('read', request(op, C_SCHEMA, string_row(b'\xff'), (0,) * 17), 'refused 5 0')
        cases.state('read', request(op, C_SCHEMA, ZEROS + slot(16, 9) + F, (0,)), 'refused 7 8')


# --- Under a null --------------------------------------------------------------------

# A list of one string that is no text: 32 bytes.
BAD_LIST = ONE + ZEROS + slot(24, 1) + F

# The null's slot leads to the bytes of the binary beside it, which a string may not hold.
NULLS = (
    ('a string', b'ro\x02stbi', b'\1' + bytes(7) + slot(24, 1) + slot(24, 1) + F, b'ronu' + text(b'\xff', b'bi')),
    ('a string, the binary first', b'ro\x02bist', b'\2' + bytes(7) + slot(24, 1) + slot(24, 1) + F, b'ro' + text(b'\xff', b'bi') + b'nu'),
    ('a string under junk', b'ro\x01st', b'\1' + bytes(7) + b'\xff' * 8, b'ronu'),
    ('a list', b'ro\x02listbi', b'\1' + bytes(7) + slot(24, 32) + slot(24, 32) + BAD_LIST, b'ronu' + text(BAD_LIST, b'bi')),
    ('a struct', b'ro\x02ro\x01stbi', b'\1' + bytes(7) + slot(24, 24) + slot(24, 24) + string_row(b'\xff'), b'ronu' + text(string_row(b'\xff'), b'bi')),
    ('an element', b'ro\x01list', ZEROS + slot(16, 40) + u(2, 8) + ONE + b'\xff' * 8 + slot(32, 1) + letters(b'x'), b'roli' + u(2, 4) + b'nu' + text(b'x')),
    ('an element at bytes that are no text alone', b'ro\x01list', ZEROS + slot(16, 40) + u(2, 8) + ONE + slot(32, 1) + slot(32, 2) + letters(b'\xc3\xa9'),
     b'roli' + u(2, 4) + b'nu' + text(b'\xc3\xa9')),
    ('a key', b'ro\x01mastst', ZEROS + slot(16, 64) + u(24, 8) + ONE + ONE + slot(0, 1) + ONE + ZEROS + slot(24, 1) + letters(b'x'),
     b'roma' + u(1, 4) + b'nu' + text(b'x')),
)


def under_nulls(cases):
    for name, schema, row, listing in NULLS:
        m = len(listing)
        cases.state(name, request('c', schema, row), 'done')
        cases.state(name, request('l', schema, row, room=m), 'done %d %s' % (m, listing.hex()))
        cases.state(name, request('k', schema, frame(row)), 'done')
    for path, op, line in (((0,), 'r', 'null'), ((0,), 'o', 'null'), ((1,), 'r', 'bytes 24 1'), ((0,), 't', '6e6f6e65'), ((1,), 't', 'ff')):
        cases.state('read under a null', request(op, NULLS[0][1], NULLS[0][2], path, third=b'none'), line)
    # Null for it zeroes its slot, and the rest stays.
    row = NULLS[0][2]
    cases.state('set under a null', request('s', NULLS[0][1], row, (0,), kind=0), 'done ' + (row[:8] + ZEROS + row[16:]).hex())


# --- Settings --------------------------------------------------------------------------

def settings(cases):
    """What is no text doesn't fit a string: 8, whatever the present length; a binary takes it at its own length."""
    null = b'\1' + bytes(7) + b'junkjunk'
    for row, size in ((C_ROW, 3), (D_ROW, 0), (null, None)):
        for bad in BAD + list(BAD_THREE):
            cases.state('bad setting', request('s', C_SCHEMA, row, (0,), kind=5, third=bad), 'refused 8 0 ' + row.hex())
            line = 'done ' + written_over(row, 16, bad).hex() if len(bad) == size else 'refused 9 0 ' + row.hex()
            cases.state('binary', request('s', BINARY_SCHEMA, row, (0,), kind=5, third=bad), line)
            # The bytes have no say for null, nor for a number, which doesn't fit.
            kept = 'refused 9 0 ' + row.hex() if size is not None else 'done ' + (b'\1' + bytes(15)).hex()
            cases.state('null', request('s', C_SCHEMA, row, (0,), kind=0, third=bad), kept)
            cases.state('number', request('s', C_SCHEMA, row, (0,), kind=2, third=bad), 'refused 8 0 ' + row.hex())
        for good in TEXTS:
            line = 'done ' + written_over(row, 16, good).hex() if len(good) == size else 'refused 9 0 ' + row.hex()
            cases.state('setting', request('s', C_SCHEMA, row, (0,), kind=5, third=good), line)
    # 5 and 6 come before; a number's place and a container take no bytes.
    schema, row = b'ro\x03i4ro\x01stst', b'\2' + bytes(7) + ONE + ZEROS + slot(32, 3) + letters(b'STK')
    for path, number in (((0,), 8), ((1,), 8), ((), 8), ((1, 0), 6), ((1, 1), 5), ((2, 0), 5), ((3,), 5), ((2,), 8)):
        cases.state('bad setting', request('s', schema, row, path, kind=5, third=b'ST\xff'), 'refused %d 0 %s' % (number, row.hex()))


def entry_cases(cases):
    for group in (every_entry, in_containers, orders, under_nulls, settings):
        group(cases)


def text_cases(cases):
    entry_cases(cases)
    sequence_cases(cases)
