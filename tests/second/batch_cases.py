"""Cases of batches, with sizes, ranges and numbers written out by hand: framing, limits, row numbers, rooms."""

from answers import hex_or_dash, request
from table import A_ROW, A_SCHEMA, C_ROW, C_SCHEMA, D_ROW, F_ROW, F_SCHEMA, I_ROW_9, M_ROW, WRITTEN, ZEROS, fill, u

# Three rows of one string: STK, the empty string, and a null with junk under it.
NULL_ROW = bytes.fromhex('0100000000000000') + b'junkjunk'
THREE = (bytes.fromhex('00000018') + C_ROW + bytes.fromhex('00000010') + D_ROW
         + bytes.fromhex('00000010') + NULL_ROW)
RANGES = ('bytes 4 24', 'bytes 32 16', 'bytes 52 16')
READS = ('bytes 16 3', 'bytes 16 0', 'null')
# How many rows a batch has that ends where one of these rows ends.
ENDS = {0: 0, 28: 1, 48: 2, 68: 3}
# A setting for each row, and the batch's bytes that are other ones after it.
SETTINGS = ((5, b'TPH', 20, b'TPH'), (5, b'', 48, b''), (0, b'', 60, ZEROS))

# A check refuses these two; a read of the string refuses only the second.
PADDING_ROW = C_ROW[:-1] + b'\x01'
SLOT_ROW = I_ROW_9
# Rows that break the layout, each with its place.
BROKEN = ((PADDING_ROW, 23), (SLOT_ROW, 8), (C_ROW[:-8], 8), (b'', 0))

LIMIT_ROW = ZEROS + u(16368, 4) + u(16, 4) + b'x' * 16368
LONG_ROW = LIMIT_ROW + b'\0'
LIMIT_FRAME = bytes.fromhex('00004000') + LIMIT_ROW
LONG_FRAME = bytes.fromhex('00004001') + LONG_ROW


def frame(row):
    return len(row).to_bytes(4, 'big') + row


def written_over(data, at, part):
    return data[:at] + part + data[at + len(part):]


def in_row(op, schema, batch, k, path=(0,), **setting):
    """A request about row number k, which stands where other ops have a room."""
    return request(op, schema, batch, path, room=k, **setting)


def appending(batch, row, room, schema=C_SCHEMA):
    return request('A', schema, batch, room=room, third=row)


def refused_frames(cases, name, batch, schema=C_SCHEMA):
    """10 of every op, whatever the row's number, the path, the setting and the new row are."""
    line = 'refused 10 0'
    cases.state(name, request('n', schema, batch), line)
    cases.state(name, request('k', schema, batch), line)
    for k in (0, 1, 2, 3, 70000):
        cases.state(name, in_row('f', schema, batch, k), line)
        cases.state(name, in_row('g', schema, batch, k), line)
        cases.state(name, in_row('g', schema, batch, k, (0,) * 17), line)
        cases.state(name, in_row('z', schema, batch, k, kind=6), '%s %s' % (line, hex_or_dash(batch)))
    for row in (D_ROW, PADDING_ROW):
        for room in (len(batch), len(batch) + 40):
            cases.state(name, appending(batch, row, room, schema), '%s %s' % (line, fill(batch, room)))


def refused_rows(cases, name, batch, k, number, place=0, schema=C_SCHEMA):
    """Row k's own refusal, of every op that checks it; a place counts from that row's first byte."""
    line = 'refused %d %d' % (number, place)
    cases.state(name, request('k', schema, batch), '%s row %d' % (line, k))
    cases.state(name, in_row('f', schema, batch, k), line)
    cases.state(name, in_row('z', schema, batch, k, kind=6), '%s %s' % (line, batch.hex()))


def no_bytes(cases):
    cases.state('no bytes', request('n'), 'count 0')
    cases.state('no bytes', request('k', C_SCHEMA), 'done')
    for k in (0, 1, 255, 70000):
        cases.state('no bytes', in_row('f', C_SCHEMA, b'', k), 'refused 5 0')
        cases.state('no bytes', in_row('g', C_SCHEMA, b'', k, ()), 'refused 5 0')
        cases.state('no bytes', in_row('z', C_SCHEMA, b'', k, kind=6), 'refused 5 0 -')
    cases.state('no bytes', appending(b'', D_ROW, 20), 'done 20 00000010' + D_ROW.hex())
    cases.state('no bytes', appending(b'', D_ROW, 19), 'refused 4 20 ' + 'aa' * 19)
    cases.state('no bytes', appending(b'', D_ROW, 0), 'refused 4 20 -')
    # A size of 0 is a row of no bytes: it counts, and a check refuses it.
    for n in (1, 2, 3):
        batch = bytes(4 * n)
        cases.state('size 0', request('n', b'', batch), 'count %d' % n)
        refused_rows(cases, 'size 0', batch, 0, 7)
        cases.state('size 0', in_row('f', C_SCHEMA, batch, n - 1), 'refused 7 0')
        cases.state('size 0', in_row('f', C_SCHEMA, batch, n), 'refused 5 0')
        cases.state('size 0', in_row('g', C_SCHEMA, batch, n - 1, ()), 'refused 7 0')
        cases.state('size 0', in_row('g', C_SCHEMA, batch, n - 1, (1,)), 'refused 5 0')
        cases.state('size 0', appending(batch, b'', 40), 'refused 7 0 ' + fill(batch, 40))
        cases.state('size 0', appending(batch, D_ROW, 4 * n + 20), 'done %d %s' % (4 * n + 20, (batch + frame(D_ROW)).hex()))
        refused_frames(cases, 'size 0', bytes(4 * n - 1))
        refused_rows(cases, 'size 0', frame(D_ROW) + batch, 1, 7)


def one_row(cases):
    """The document's rows, each as a batch of its own, and set and read in there."""
    for name, schema, _, row, size in WRITTEN:
        batch = size.to_bytes(4, 'big') + row
        cases.state(name, request('n', schema, batch), 'count 1')
        cases.state(name, request('k', schema, batch), 'done')
        cases.state(name, in_row('f', schema, batch, 0), 'bytes 4 %d' % size)
        cases.state(name, in_row('f', schema, batch, 1), 'refused 5 0')
        # Ranges of a read count from the row's first byte, not from the batch's.
        cases.state(name, in_row('g', schema, batch, 0, ()), 'container 0 %d %d' % (size, schema[2]))
        cases.state(name, appending(b'', row, size + 4, schema), 'done %d %s' % (size + 4, batch.hex()))
        cases.state(name, appending(batch, row, 2 * size + 9, schema),
                    'done %d %saa' % (2 * size + 8, (batch + batch).hex()))
    a_batch = bytes.fromhex('00000018') + A_ROW
    cases.state('A', in_row('g', A_SCHEMA, a_batch, 0, (0,)), 'number -2')
    f_batch = bytes.fromhex('00000068') + F_ROW
    cases.state('F', in_row('g', F_SCHEMA, f_batch + f_batch, 1, (0, 1)), 'container 64 40 3')
    cases.state('F', in_row('g', F_SCHEMA, f_batch + f_batch, 1, (0, 1, 2)), 'number 30')
    c_batch = bytes.fromhex('00000018') + C_ROW
    cases.state('M', in_row('z', C_SCHEMA, c_batch, 0, kind=5, third=b'TPH'), 'done 00000018' + M_ROW.hex())
    for kind, third in ((5, b'TP'), (0, b'')):
        cases.state('M', in_row('z', C_SCHEMA, c_batch, 0, kind=kind, third=third), 'refused 9 0 ' + c_batch.hex())


def cuts(cases):
    """Every cut of the three rows, all of them included."""
    for n in range(len(THREE) + 1):
        batch = THREE[:n]
        if n not in ENDS:
            refused_frames(cases, 'cut', batch)
            continue
        cases.state('cut', request('n', C_SCHEMA, batch), 'count %d' % ENDS[n])
        cases.state('cut', request('k', C_SCHEMA, batch), 'done')
        for k in range(5):
            there = k < ENDS[n]
            cases.state('cut', in_row('f', C_SCHEMA, batch, k), RANGES[k] if there else 'refused 5 0')
            cases.state('cut', in_row('g', C_SCHEMA, batch, k), READS[k] if there else 'refused 5 0')
            kind, third, at, part = SETTINGS[k % 3]
            cases.state('cut', in_row('z', C_SCHEMA, batch, k, kind=kind, third=third),
                        'done ' + written_over(batch, at, part).hex() if there else 'refused 5 0 ' + hex_or_dash(batch))
        for row in (C_ROW, NULL_ROW):
            after = batch + frame(row)
            for room in (len(after), len(after) + 1, len(after) + 9):
                cases.state('cut', appending(batch, row, room), 'done %d %s' % (len(after), fill(after, room)))
            for room in (n, n + 3, n + 4, n + 5, len(after) - 1):
                cases.state('cut', appending(batch, row, room), 'refused 4 %d %s' % (len(after), fill(batch, room)))


def wrong_sizes(cases):
    for at in (0, 28, 48):
        size = int.from_bytes(THREE[at:at + 4], 'big')
        for wrong in (size - 1, size + 1):
            refused_frames(cases, 'size by one', written_over(THREE, at, wrong.to_bytes(4, 'big')))
        # The same size, little endian: over 268 million bytes.
        refused_frames(cases, 'little endian', written_over(THREE, at, u(size, 4)))
        for high in (1, 2, 128, 255):
            refused_frames(cases, 'size', written_over(THREE, at, bytes([high])))
    for n in range(1, 4):
        refused_frames(cases, 'bytes behind', THREE + bytes(n))
    # Sizes that wrap in 32 bits, with themselves or with the 4 bytes before the row.
    for size in (0xFFFFFFFF, 0xFFFFFFFE, 0xFFFFFFFD, 0xFFFFFFFC, 0xFFFFFFF8, 0x80000000, 0x7FFFFFFF):
        head = size.to_bytes(4, 'big')
        for behind in (b'', bytes(1), bytes(3), bytes(4), bytes(8), C_ROW):
            refused_frames(cases, 'wrapping size', head + behind)
        refused_frames(cases, 'wrapping size', THREE + head)
        refused_frames(cases, 'wrapping size', THREE + head + THREE)
    # A wrong size can frame other rows: what stands there is judged, and nothing else.
    batch = bytes.fromhex('00000008') + b'\x01' + bytes(15)
    cases.state('other rows', request('n', C_SCHEMA, batch), 'count 3')
    refused_rows(cases, 'other rows', batch, 0, 7)
    cases.state('other rows', in_row('f', C_SCHEMA, batch, 3), 'refused 5 0')
    batch = bytes.fromhex('0000002c') + THREE[4:]
    cases.state('other rows', request('n', C_SCHEMA, batch), 'count 2')
    refused_rows(cases, 'other rows', batch, 0, 7)
    cases.state('other rows', in_row('f', C_SCHEMA, batch, 1), 'bytes 52 16')
    cases.state('other rows', in_row('g', C_SCHEMA, batch, 0), 'bytes 16 3')
    cases.state('other rows', in_row('g', C_SCHEMA, batch, 0, ()), 'container 0 44 1')


def limits(cases):
    """The longest row and one byte more; the batch itself has no limit."""
    cases.state('limit', request('k', C_SCHEMA, LIMIT_FRAME), 'done')
    cases.state('limit', in_row('f', C_SCHEMA, LIMIT_FRAME, 0), 'bytes 4 16384')
    cases.state('limit', in_row('g', C_SCHEMA, LIMIT_FRAME, 0), 'bytes 16 16368')
    cases.state('limit', in_row('z', C_SCHEMA, LIMIT_FRAME, 0, kind=5, third=b'y' * 16368),
                'done ' + LIMIT_FRAME.replace(b'x', b'y').hex())
    cases.state('limit', request('n', C_SCHEMA, LONG_FRAME), 'count 1')
    for before, k in ((b'', 0), (THREE, 3), (LIMIT_FRAME, 1)):
        batch = before + LONG_FRAME
        refused_rows(cases, 'limit', batch, k, 3)
        for path in ((), (0,), (1,), (0,) * 17):
            cases.state('limit', in_row('g', C_SCHEMA, batch, k, path), 'refused 3 0')
        cases.state('limit', in_row('f', C_SCHEMA, batch, k + 1), 'refused 5 0')
        refused_frames(cases, 'limit', batch[:-1])
    four = LIMIT_FRAME * 4
    cases.state('limit', request('k', C_SCHEMA, four), 'done')
    cases.state('limit', in_row('f', C_SCHEMA, four, 3), 'bytes 49168 16384')
    cases.state('limit', appending(four, D_ROW, 65572), 'done 65572 ' + (four + frame(D_ROW)).hex())
    cases.state('limit', appending(four, LIMIT_ROW, 70000), 'refused 4 81940 ' + fill(four, 70000))
    for batch in (b'', THREE, LONG_FRAME):
        needed = len(batch) + 16388
        cases.state('limit', appending(batch, LIMIT_ROW, needed), 'done %d %s' % (needed, (batch + LIMIT_FRAME).hex()))
        cases.state('limit', appending(batch, LIMIT_ROW, needed - 1), 'refused 4 %d %s' % (needed, fill(batch, needed - 1)))
        # 3 comes before 7 and before 4.
        for row in (LONG_ROW, LONG_ROW + bytes(7), bytes(20000)):
            for room in (len(batch), 70000):
                cases.state('limit', appending(batch, row, room), 'refused 3 0 ' + fill(batch, room))


def row_numbers(cases):
    """Numbers at and past the end, and rows beyond 8 bits' count."""
    for k in (3, 4, 255, 256, 257, 258, 65535, 65536, 65538, 69999, 70000):
        cases.state('past the end', in_row('f', C_SCHEMA, THREE, k), 'refused 5 0')
        cases.state('past the end', in_row('g', C_SCHEMA, THREE, k), 'refused 5 0')
        cases.state('past the end', in_row('z', C_SCHEMA, THREE, k, kind=0), 'refused 5 0 ' + THREE.hex())
    schema = b'ro\x01i2'
    many = b''.join(bytes.fromhex('00000010') + ZEROS + u(n, 2) + bytes(6) for n in range(600))
    cases.state('many', request('n', schema, many), 'count 600')
    cases.state('many', request('k', schema, many), 'done')
    for k in (0, 1, 254, 255, 256, 257, 511, 512, 599):
        cases.state('many', in_row('f', schema, many, k), 'bytes %d 16' % (20 * k + 4))
        cases.state('many', in_row('g', schema, many, k), 'number %d' % k)
        cases.state('many', in_row('z', schema, many, k, kind=2, value=700),
                    'done ' + written_over(many, 20 * k + 12, u(700, 2)).hex())
        # The rest of a slot is not zero.
        wrong = written_over(many, 20 * k + 19, b'\x01')
        cases.state('many', request('k', schema, wrong), 'refused 7 15 row %d' % k)
    cases.state('many', in_row('f', schema, many, 600), 'refused 5 0')
    cases.state('many', request('n', b'', bytes(70000)), 'count 17500')
    cases.state('many', in_row('f', schema, bytes(70000), 17499), 'refused 7 0')
    cases.state('many', in_row('f', schema, bytes(70000), 17500), 'refused 5 0')
    cases.state('many', in_row('f', schema, bytes(69980) + many[:20], 17495), 'bytes 69984 16')


def rooms(cases):
    """The room that is lent for appending; a batch longer than it is 10, even where what is left of it is whole."""
    for room in range(len(THREE)):
        cases.state('used over', appending(THREE, D_ROW, room), 'refused 10 0 ' + hex_or_dash(THREE[:room]))
        cases.state('used over', appending(THREE, PADDING_ROW, room), 'refused 10 0 ' + hex_or_dash(THREE[:room]))
    cases.state('used over', appending(THREE, LONG_ROW, 0), 'refused 10 0 -')
    for room in range(len(THREE), len(THREE) + 28):
        cases.state('room', appending(THREE, C_ROW, room), 'refused 4 96 ' + fill(THREE, room))
        for row, place in BROKEN:
            cases.state('room', appending(THREE, row, room), 'refused 7 %d %s' % (place, fill(THREE, room)))
    after = THREE + bytes.fromhex('00000018') + C_ROW
    for room in range(96, 130):
        cases.state('room', appending(THREE, C_ROW, room), 'done 96 ' + fill(after, room))
    cases.state('room', appending(THREE, C_ROW, 70000), 'done 96 ' + fill(after, 70000))


def framing_cases(cases):
    for group in (no_bytes, one_row, cuts, wrong_sizes, limits, row_numbers, rooms):
        group(cases)
