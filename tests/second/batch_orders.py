"""Cases of batches about order and reach: which refusal comes first, which rows have no say, what a setting leaves."""

from answers import hex_or_dash, request
from batch_cases import (BROKEN, LIMIT_ROW, LONG_FRAME, LONG_ROW, NULL_ROW, PADDING_ROW, SETTINGS, SLOT_ROW, THREE, appending, frame,
                         in_row, refused_frames, refused_rows, written_over)
from table import C_ROW, C_SCHEMA, D_ROW, F_ROW, F_SCHEMA, ZEROS, fill, u

# A root that is no struct, a type past the root, no field, a leaf at depth 9, a cut, no bytes.
BAD_SCHEMAS = (b'st', C_SCHEMA + b'i1', b'ro\x00', b'ro\x01' * 8 + b'i1', F_SCHEMA[:-1], b'')


def orders(cases):
    """10 before 5, 3 and 7; 5 before 3 and 7; of rows the first that is wrong."""
    for rows_before in (frame(PADDING_ROW), frame(b''), LONG_FRAME, THREE):
        for behind in (b'\0', b'\0\0\0', bytes.fromhex('00000001'), THREE[:-1]):
            refused_frames(cases, '10 first', rows_before + behind)
    for wrong in (frame(PADDING_ROW), frame(b''), LONG_FRAME):
        batch = wrong + wrong
        for k in (2, 3, 70000):
            cases.state('5 first', in_row('f', C_SCHEMA, batch, k), 'refused 5 0')
            cases.state('5 first', in_row('g', C_SCHEMA, batch, k), 'refused 5 0')
            cases.state('5 first', in_row('z', C_SCHEMA, batch, k, kind=6), 'refused 5 0 ' + batch.hex())
    # Rows in turn: the earlier row's 7 before the later one's 3, and the other way round.
    for first, number, place in ((frame(PADDING_ROW), 7, 23), (LONG_FRAME, 3, 0)):
        for second in (frame(PADDING_ROW), LONG_FRAME, frame(b''), THREE):
            cases.state('in turn', request('k', C_SCHEMA, first + second), 'refused %d %d row 0' % (number, place))
            cases.state('in turn', request('k', C_SCHEMA, THREE + first + second), 'refused %d %d row 3' % (number, place))
            refused_rows(cases, 'in turn', THREE[:28] + first + second, 1, number, place)
    # A row that is too long is 3 even where it breaks the layout, and its bytes are still counted.
    batch = frame(bytes(16385)) + frame(D_ROW)
    refused_rows(cases, '3 before 7', batch, 0, 3)
    cases.state('3 before 7', in_row('f', C_SCHEMA, batch, 1), 'bytes 16393 16')


def neighbours(cases):
    """Wrong rows before and behind row k have no say, nor has their number."""
    for wrong, place in BROKEN + ((LONG_ROW, 0),):
        batch = frame(wrong) + frame(C_ROW) + frame(wrong)
        start = len(wrong) + 8
        cases.state('neighbours', request('n', C_SCHEMA, batch), 'count 3')
        cases.state('neighbours', in_row('f', C_SCHEMA, batch, 1), 'bytes %d 24' % start)
        cases.state('neighbours', in_row('g', C_SCHEMA, batch, 1), 'bytes 16 3')
        cases.state('neighbours', in_row('g', C_SCHEMA, batch, 1, ()), 'container 0 24 1')
        cases.state('neighbours', in_row('z', C_SCHEMA, batch, 1, kind=5, third=b'TPH'),
                    'done ' + written_over(batch, start + 16, b'TPH').hex())
        after = batch + frame(NULL_ROW)
        cases.state('neighbours', appending(batch, NULL_ROW, len(after)), 'done %d %s' % (len(after), after.hex()))
        for k in (0, 2):
            line = 'refused 3 0' if wrong is LONG_ROW else 'refused 7 %d' % place
            cases.state('neighbours', in_row('f', C_SCHEMA, batch, k), line)
            cases.state('neighbours', in_row('z', C_SCHEMA, batch, k, kind=5, third=b'TPH'),
                        '%s %s' % (line, batch.hex()))
    # A read judges its walk alone, in a batch as in a row.
    batch = frame(PADDING_ROW) + frame(SLOT_ROW)
    cases.state('walk', in_row('g', C_SCHEMA, batch, 0), 'bytes 16 3')
    cases.state('walk', in_row('g', C_SCHEMA, batch, 1), 'refused 7 8')
    cases.state('walk', in_row('g', C_SCHEMA, batch, 1, ()), 'container 0 24 1')
    cases.state('walk', in_row('g', C_SCHEMA, batch, 1, (1,)), 'refused 5 0')
    # A row's extent ends with the row: a slot must not reach into the next one.
    reaching = ZEROS + u(8, 4) + u(16, 4)
    batch = frame(reaching) + frame(C_ROW)
    cases.state('reach', in_row('g', C_SCHEMA, batch, 0), 'refused 7 8')
    refused_rows(cases, 'reach', batch, 0, 7, 8)
    nested = frame(F_ROW[:-8]) + frame(F_ROW)
    cases.state('reach', in_row('g', F_SCHEMA, nested, 0, (0,)), 'refused 7 8')
    cases.state('reach', in_row('g', F_SCHEMA, nested, 1, (0, 0, 2)), 'number 3')


def bad_schemas(cases):
    """1 before everything, but of count, which takes no schema."""
    for schema in BAD_SCHEMAS:
        for batch in (b'', THREE, THREE[:-1], frame(b''), LONG_FRAME, b'\xff' * 5):
            cases.state('1 first', request('k', schema, batch), 'refused 1 0')
            for k in (0, 70000):
                cases.state('1 first', in_row('f', schema, batch, k), 'refused 1 0')
                cases.state('1 first', in_row('g', schema, batch, k, (0,) * 17), 'refused 1 0')
                cases.state('1 first', in_row('z', schema, batch, k, kind=6), 'refused 1 0 ' + hex_or_dash(batch))
            for room in (0, len(batch), len(batch) + 30):
                for row in (D_ROW, PADDING_ROW, LONG_ROW):
                    cases.state('1 first', appending(batch, row, room, schema), 'refused 1 0 ' + fill(batch[:room], room))
        cases.state('no schema', request('n', schema, THREE), 'count 3')
        cases.state('no schema', request('n', schema, THREE[:-1]), 'refused 10 0')


def settings(cases):
    """In each row each kind; every other byte of the batch stays."""
    schema = b'ro\x03boi2st'
    row = ZEROS + u(1, 8) + u(5, 8) + u(2, 4) + u(32, 4) + b'ab' + bytes(6)
    batch = (bytes.fromhex('00000028') + row) * 3
    for k in range(3):
        at = 44 * k + 4

        def done(path, changes, **setting):
            after = batch
            for place, part in changes:
                after = written_over(after, at + place, part)
            cases.state('set', in_row('z', schema, batch, k, path, **setting), 'done ' + after.hex())

        done((0,), ((8, b'\0'),), kind=1, value=0)
        done((0,), ((0, b'\x01'), (8, ZEROS)), kind=0)
        done((1,), ((16, b'\xfe\xff'),), kind=2, value=(1 << 64) - 2)
        done((1,), ((0, b'\x02'), (16, ZEROS)), kind=0)
        done((2,), ((32, b'XY'),), kind=5, third=b'XY')
        refused = ((8, (0,), 1, 2), (8, (0,), 2, 1), (8, (0,), 6, 1), (8, (0,), 127, 0), (8, (1,), 2, 1 << 15), (8, (1,), 3, 1 << 32),
                   (8, (1,), 7, 0), (8, (2,), 2, 0), (8, (2,), 6, 0), (8, (), 0, 0), (8, (), 6, 0), (9, (2,), 0, 0), (9, (2,), 5, 0),
                   (5, (3,), 0, 0), (5, (3,), 6, 0), (5, (0, 0), 6, 0), (5, (0,) * 17, 127, 0))
        for number, path, kind, value in refused:
            cases.state('set', in_row('z', schema, batch, k, path, kind=kind, value=value), 'refused %d 0 %s' % (number, batch.hex()))
        # 5 for the row's number comes before the kind that is none.
        cases.state('set', in_row('z', schema, batch, k + 3, (0,), kind=6), 'refused 5 0 ' + batch.hex())
    # A null before the path's end, in the second row only.
    null = b'\x01' + bytes(15)
    batch = frame(F_ROW) + frame(null)
    for path in ((0, 0), (0, 1, 7)):
        cases.state('set', in_row('g', F_SCHEMA, batch, 1, path), 'refused 6 0')
        cases.state('set', in_row('z', F_SCHEMA, batch, 1, path, kind=6), 'refused 6 0 ' + batch.hex())
    cases.state('set', in_row('z', F_SCHEMA, batch, 0, (0, 1, 2), kind=2, value=31), 'done ' + written_over(batch, 100, b'\x1f').hex())
    cases.state('set', in_row('z', F_SCHEMA, batch, 0, (0, 1, 3), kind=6), 'refused 5 0 ' + batch.hex())
    # What a setting does in a row it does in that row of a batch, whatever the setting is.
    for kind in (0, 1, 2, 3, 4, 5, 6, 127):
        for value in (0, 1, 2, 1 << 31, 1 << 32, 1 << 63):
            for third in (b'', b'xyz'):
                for k in range(3):
                    cases.run('set', in_row('z', C_SCHEMA, THREE, k, kind=kind, value=value, third=third))


def again(cases):
    """A batch taken apart by fetching and appended again is the same bytes, under nulls too."""
    null_map = b'\x01' + bytes(7) + b'\xff' * 8
    for name, schema, parts in (('texts', C_SCHEMA, (C_ROW, D_ROW, NULL_ROW, NULL_ROW, C_ROW)),
                                ('maps', F_SCHEMA, (F_ROW, null_map, F_ROW)),
                                ('limit', C_SCHEMA, (LIMIT_ROW, D_ROW, LIMIT_ROW))):
        batch = b''.join(map(frame, parts))
        made = b''
        for k, part in enumerate(parts):
            start = sum(len(earlier) + 4 for earlier in parts[:k]) + 4
            cases.state('again: ' + name, in_row('f', schema, batch, k), 'bytes %d %d' % (start, len(part)))
            after = made + batch[start - 4:start + len(part)]
            cases.state('again: ' + name, appending(made, batch[start:start + len(part)], len(batch), schema),
                        'done %d %s' % (len(after), fill(after, len(batch))))
            made = after
        assert made == batch
        cases.state('again: ' + name, request('k', schema, made), 'done')


# How many single-bit changes of the three rows leave the batch whole and sound, counted by hand:
# of the sizes none leaves it whole, of the rows' 56 bytes all do; sound are C's 22, D's null bit, and 64 under the null.
WHOLE_FLIPS, SOUND_FLIPS = 448, 87


def bit_changes(cases):
    whole = sound = 0
    for bit in range(8 * len(THREE)):
        batch = bytearray(THREE)
        batch[bit // 8] ^= 1 << bit % 8
        batch = bytes(batch)
        whole += cases.run('bit', request('n', b'', batch)) == 'count 3'
        sound += cases.run('bit', request('k', C_SCHEMA, batch)) == 'done'
        for k in range(4):
            cases.run('bit', in_row('f', C_SCHEMA, batch, k))
            cases.run('bit', in_row('g', C_SCHEMA, batch, k))
            kind, third, _, _ = SETTINGS[k % 3]
            cases.run('bit', in_row('z', C_SCHEMA, batch, k, kind=kind, third=third))
        cases.run('bit', appending(batch, D_ROW, 88))
        cases.run('bit', appending(batch, D_ROW, 87))
    assert (whole, sound) == (WHOLE_FLIPS, SOUND_FLIPS), '%d whole, %d sound' % (whole, sound)


def order_cases(cases):
    for group in (orders, neighbours, bad_schemas, settings, again, bit_changes):
        group(cases)
