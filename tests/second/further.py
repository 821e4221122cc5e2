"""The document's further cases: counts and limits, cuts, settings, slips that look right, single bits."""

import answers
import rows
import schemas
from answers import request
from schemas import LIST, MAP, STRUCT
from table import C_ROW, C_SCHEMA, F_LISTING, F_ROW, F_SCHEMA, WRITTEN, ZEROS, fill, text, u


def bool_bytes(cases):
    schema = b'ro\x02boi1'
    sound = ZEROS + u(1, 8) + u(9, 8)
    for byte in (0, 1, 2, 3, 128, 255):
        row = sound[:8] + bytes([byte]) + sound[9:]
        fine = byte < 2
        cases.state('bool', request('c', schema, row), 'done' if fine else 'refused 7 8')
        cases.state('bool', request('r', schema, row, (0,)), 'bool %d' % byte if fine else 'refused 7 8')
        # Off the path nothing is judged.
        cases.state('bool', request('r', schema, row, (1,)), 'number 9')
        cases.state('bool', request('w', schema, b'robo' + bytes([byte]) + b'i1\x09', room=24),
                    'done 24 ' + row.hex() if fine else 'refused 2 0 ' + 'aa' * 24)
        cases.state('bool', request('s', schema, sound, (0,), kind=1, value=byte),
                    'done ' + row.hex() if fine else 'refused 8 0 ' + sound.hex())
        # Under a null the byte may be anything.
        null = b'\x01' + row[1:]
        cases.state('bool', request('c', schema, null), 'done')
        cases.state('bool', request('r', schema, null, (0,)), 'null')
        # In a list a bool takes one byte.
        in_list = ZEROS + bytes.fromhex('1800000010000000') + u(2, 8) + ZEROS + bytes([1, byte]) + bytes(6)
        cases.state('bool', request('c', b'ro\x01libo', in_list), 'done' if fine else 'refused 7 33')
        cases.state('bool', request('r', b'ro\x01libo', in_list, (0, 0)), 'bool 1')
        cases.state('bool', request('r', b'ro\x01libo', in_list, (0, 1)),
                    'bool %d' % byte if fine else 'refused 7 33')
    # The rest of a slot is zero for check, and no affair of the walk's.
    row = sound[:9] + b'\x01' + sound[10:]
    cases.state('bool', request('c', schema, row), 'refused 7 9')
    cases.state('bool', request('r', schema, row, (0,)), 'bool 1')


def field_counts(cases):
    for count in (0, 1, 2, 127, 128, 129, 130, 255):
        schema = b'ro' + bytes([count]) + b'i1' * count
        fine = 1 <= count <= 128
        cases.state('fields', request('j', schema), 'done' if fine else 'refused 1 0')
        nested = b'ro\x01' + schema
        cases.state('fields', request('j', nested), 'done' if fine else 'refused 1 0')
        row = bytes((count + 63) // 64 * 8 + 8 * count)
        cases.state('fields', request('c', schema, row), 'done' if fine else 'refused 1 0')
        cases.state('fields', request('r', schema, row, (count,)), 'refused 5 0' if fine else 'refused 1 0')
        cases.state('fields', request('w', schema, b'ro' + b'i1\0' * count, room=0),
                    'refused 4 %d -' % len(row) if fine else 'refused 1 0 -')
        cases.state('fields', request('t', schema, row, (0,), third=b'x'), '78')


def depths(cases):
    for depth in range(2, 12):
        line = 'done' if depth <= 8 else 'refused 1 0'
        # The root has depth 1 and the leaf the depth itself.
        cases.state('depth', request('j', b'ro\x01' + b'li' * (depth - 2) + b'i4'), line)
        cases.state('depth', request('j', b'ro\x01' * (depth - 1) + b'st'), line)
        cases.state('depth', request('j', b'ro\x01' + b'mai1' * (depth - 2) + b'i4'), line)
        cases.state('depth', request('j', b'ro\x01' + b'ma' * (depth - 2) + b'i4' * (depth - 1)), line)
        mixed = (b'li', b'mai1', b'ro\x01')
        schema = b'ro\x01' + b''.join(mixed[i % 3] for i in range(depth - 2)) + b'bi'
        cases.state('depth', request('j', schema), line)
        listing = b'ro' + b''.join(
            (b'li' + u(1, 4), b'ma' + u(1, 4) + b'i1\x07', b'ro')[i % 3] for i in range(depth - 2)) + text(b'x', b'bi')
        path = (0,)
        for i in range(depth - 2):
            path += ((0,), (1, 0), (0,))[i % 3]
        if depth > 8:
            cases.state('depth', request('w', schema, listing, room=0), 'refused 1 0 -')
            cases.state('depth', request('r', schema, b'', path), 'refused 1 0')
            continue
        row = rows.write(schema, listing, rows.ROW_LIMIT)
        cases.run('depth', request('w', schema, listing, room=len(row)))
        cases.state('depth', request('c', schema, row), 'done')
        cases.state('depth', request('l', schema, row, room=len(listing)),
                    'done %d %s' % (len(listing), listing.hex()))
        cases.state('depth', request('r', schema, row, path), 'bytes %d 1' % (len(row) - 8))
        cases.state('depth', request('t', schema, row, path, third=b'none'), '78')
        changed = row[:-8] + b'y' + bytes(7)
        cases.state('depth', request('s', schema, row, path, kind=5, third=b'y'), 'done ' + changed.hex())


def cuts(cases):
    paths = ((), (0,), (0, 0), (0, 1), (0, 0, 0), (0, 1, 0), (0, 1, 2), (0, 2), (0, 0, 3))
    for n in range(len(F_ROW)):
        row = F_ROW[:n]
        # The root's own size is wrong, or the map runs past the cut: its slot stands at 8.
        checked = 'refused 7 0' if n < 16 or n % 8 else 'refused 7 8'
        cases.state('cut', request('c', F_SCHEMA, row), checked)
        cases.state('cut', request('l', F_SCHEMA, row, room=70), checked + ' ' + 'aa' * 70)
        cases.state('cut', request('s', F_SCHEMA, row, (0, 0, 0), kind=2, value=7),
                    '%s %s' % (checked, answers.hex_or_dash(row)))
        for path in paths:
            if path == ():
                line = 'container 0 %d 1' % n if n >= 16 else 'refused 7 0'
            elif path == (0, 2):
                line = 'refused 5 0'
            else:
                # The map's extent runs past the cut, and that is judged first.
                line = 'refused 7 8' if n >= 16 else 'refused 7 0'
            cases.state('cut', request('r', F_SCHEMA, row, path), line)
    for n in range(len(F_LISTING)):
        cases.state('cut', request('w', F_SCHEMA, F_LISTING[:n], room=104), 'refused 2 0 ' + 'aa' * 104)
    for n in range(len(F_SCHEMA)):
        cases.state('cut', request('j', F_SCHEMA[:n]), 'refused 1 0')


def list_counts(cases):
    for count in (0, 1, 7, 8, 9, 63, 64, 65, 127, 128, 129):
        for mark, width in ((b'i1', 1), (b'i2', 2), (b'i4', 4), (b'i8', 8)):
            schema = b'ro\x01li' + mark
            numbers = [(37 * i + 1) % 120 for i in range(count)]
            listing = b'roli' + u(count, 4) + b''.join(mark + u(n, width) for n in numbers)
            size = 8 + (count + 63) // 64 * 8 + (count * width + 7) // 8 * 8
            body = u(count, 8) + bytes((count + 63) // 64 * 8) + b''.join(u(n, width) for n in numbers)
            row = ZEROS + u(size, 4) + u(16, 4) + body + bytes(-len(body) % 8)
            cases.written('list of %d' % count, schema, listing, row)
            cases.state('list', request('r', schema, row, (0,)), 'container 16 %d %d' % (size, count))
            cases.state('list', request('r', schema, row, (0, count)), 'refused 5 0')
            cases.state('list', request('s', schema, row, (0, count), kind=0), 'refused 5 0 ' + row.hex())
            if not count:
                continue
            last = count - 1
            cases.state('list', request('r', schema, row, (0, last)), 'number %d' % numbers[-1])
            bit, slot = 24 + last // 8, 24 + (count + 63) // 64 * 8 + last * width
            null = bytearray(row)
            null[bit] |= 1 << last % 8
            null[slot:slot + width] = bytes(width)
            cases.state('list', request('s', schema, row, (0, last), kind=0), 'done ' + null.hex())
            cases.state('list', request('r', schema, bytes(null), (0, last)), 'null')
            if count % 64:
                # One bit past the last element.
                over = bytearray(row)
                over[24 + count // 8] |= 1 << count % 8
                cases.state('list', request('c', schema, bytes(over)), 'refused 7 %d' % (24 + count // 8))
                cases.state('list', request('r', schema, bytes(over), (0, last)), 'number %d' % numbers[-1])
        schema = b'ro\x01list'
        listing = b'roli' + u(count, 4) + text(b'ab') * count
        row = rows.write(schema, listing, rows.ROW_LIMIT)
        cases.run('list', request('w', schema, listing, room=len(row)))
        cases.state('list', request('l', schema, row, room=len(listing)),
                    'done %d %s' % (len(listing), listing.hex()))
        cases.state('list', request('c', schema, row), 'done')


def limits(cases):
    """Lengths at their limit and one beyond."""
    # Structs of three bytes and leaves of two; lists make up what 128 fields
    # cannot.  Two structs in all give an even size, three an odd one.
    even = b'ro\x80' + b'ro\x7f' + b'i1' * 127 + b'lilii1' * 127
    odd = b'ro\x80' + b'ro\x01i1' + b'ro\x7f' + b'i1' * 127 + b'lilii1' * 126
    for size in range(1021, 1029):
        schema = odd if size % 2 else even
        schema = schema.replace(b'lilii1', b'lililii1', (size - len(schema)) // 2)
        assert len(schema) == size
        cases.state('schema limit', request('j', schema), 'done' if size <= 1024 else 'refused 1 0')
    for size, fine in ((16368, True), (16369, False)):
        listing = b'ro' + text(b'x' * size)
        row = ZEROS + u(size, 4) + u(16, 4) + b'x' * size + bytes(-size % 8)
        n = len(row)
        cases.state('row limit', request('w', C_SCHEMA, listing, room=16400),
                    'done %d %s' % (n, fill(row, 16400)) if fine else 'refused 3 0 ' + fill(b'', 16400))
        cases.state('row limit', request('w', C_SCHEMA, listing, room=0),
                    'refused 4 %d -' % n if fine else 'refused 3 0 -')
        cases.state('row limit', request('c', C_SCHEMA, row), 'done' if fine else 'refused 3 0')
        cases.state('row limit', request('r', C_SCHEMA, row, (0,)),
                    'bytes 16 %d' % size if fine else 'refused 3 0')
        cases.state('row limit', request('r', C_SCHEMA, row, (1,)), 'refused 5 0' if fine else 'refused 3 0')
        cases.state('row limit', request('t', C_SCHEMA, row, (0,), third=b'none'),
                    'x'.encode().hex() * size if fine else b'none'.hex())
        cases.state('row limit', request('s', C_SCHEMA, row, (0,), kind=5, third=b'y' * size),
                    'done ' + row.replace(b'x', b'y').hex() if fine else 'refused 3 0 ' + row.hex())
    for size, number in ((65528, 3), (65529, 2)):
        listing = b'ro' + text(b'x' * size)
        assert len(listing) == size + 8
        cases.state('listing limit', request('w', C_SCHEMA, listing, room=8),
                    'refused %d 0 %s' % (number, 'aa' * 8))
    for length, schema in ((16, C_SCHEMA), (17, C_SCHEMA), (64, C_SCHEMA)):
        cases.state('path limit', request('r', schema, C_ROW, (0,) * length), 'refused 5 0')
        cases.state('path limit', request('r', schema, b'', (0,) * length), 'refused 5 0')
        cases.state('path limit', request('s', schema, C_ROW, (0,) * length, kind=9),
                    'refused 5 0 ' + C_ROW.hex())
        cases.state('path limit', request('s', schema, b'', (0,) * length), 'refused 7 0 -')


def settings(cases):
    """Every kind of setting at every kind of leaf, at the ends of its range."""
    values = []
    for width in (1, 2, 4, 8):
        half = 1 << (8 * width - 1)
        values += [half - 1, -half, half, -half - 1]
    values += [0, 1, 2, -1, 1 << 32, 0x7FC00001, 0x7F800001, 0xFFFFFFFF, 0x7FF8000000000001]
    values = sorted({value % (1 << 64) for value in values})
    for mark, kind, width in schemas.TABLE:
        if kind in (LIST, MAP, STRUCT):
            schema = {LIST: b'ro\x01lii1', MAP: b'ro\x01mai1i1', STRUCT: b'ro\x01ro\x01i1'}[kind]
            for listing in (b'ronu', {LIST: b'roli' + u(0, 4), MAP: b'roma' + u(0, 4),
                                      STRUCT: b'roronu'}[kind]):
                row = rows.write(schema, listing, rows.ROW_LIMIT)
                for number in (0, 1, 2, 3, 4, 5, 6, 127):
                    for path in ((), (0,)):
                        cases.state('container', request('s', schema, row, path, kind=number),
                                    'refused 8 0 ' + row.hex())
            continue
        for schema, holder in ((b'ro\x02' + mark + b'i1', 'struct'), (b'ro\x01li' + mark, 'list')):
            path = (0,) if holder == 'struct' else (0, 1)
            value = mark + (u(3, 4) + b'abc' if width is None else u(1, width))
            for middle in (value, b'nu'):
                if holder == 'struct':
                    listing = b'ro' + middle + b'i1\x05'
                else:
                    listing = b'roli' + u(3, 4) + value + middle + value
                row = rows.write(schema, listing, rows.ROW_LIMIT)
                for number in (0, 1, 2, 3, 4, 6, 127):
                    for v in values:
                        cases.run('setting', request('s', schema, row, path, kind=number, value=v))
                for third in (b'', b'x', b'xyz', b'xyzw', b'xyzwvuts'):
                    cases.run('setting', request('s', schema, row, path, kind=5, third=third))
                # An earlier number of the order wins over the setting.
                cases.state('setting', request('s', schema, row, path + (0,), kind=6), 'refused 5 0 ' + row.hex())
                cases.state('setting', request('s', schema, row + ZEROS, path, kind=6),
                            'refused 7 0 ' + (row + ZEROS).hex())
    null = rows.write(b'ro\x01mai1i1', b'ronu', rows.ROW_LIMIT)
    for path in ((0, 0), (0, 1), (0, 0, 0), (0, 1, 77)):
        cases.state('null before', request('r', b'ro\x01mai1i1', null, path), 'refused 6 0')
        cases.state('null before', request('s', b'ro\x01mai1i1', null, path, kind=6), 'refused 6 0 ' + null.hex())
    cases.state('null before', request('r', b'ro\x01mai1i1', null, (0,)), 'null')
    cases.state('null before', request('r', b'ro\x01mai1i1', null, (0, 2)), 'refused 5 0')
    # A null string takes null alone, and its slot becomes zero.
    row = b'\x01' + bytes(7) + b'junkjunk'
    cases.state('null string', request('s', C_SCHEMA, row, (0,), kind=0), 'done ' + (b'\x01' + bytes(15)).hex())
    for third in (b'', b'x', b'junk'):
        cases.state('null string', request('s', C_SCHEMA, row, (0,), kind=5, third=third),
                    'refused 9 0 ' + row.hex())
    cases.state('null string', request('s', C_SCHEMA, row, (0,), kind=2), 'refused 8 0 ' + row.hex())


def slips(cases):
    """The document's slips that look right, each with a row that shows it."""
    # A nested offset counts from its own container: the inner string stands at
    # 16 of a struct that stands at 24.
    schema = b'ro\x02i1ro\x01st'
    listing = b'roi1\xffro' + text(b'abc')
    row = (ZEROS + u(255, 8) + u(24, 4) + u(24, 4) + ZEROS + u(3, 4) + u(16, 4) + b'abc' + bytes(5))
    cases.written('nested offset', schema, listing, row)
    cases.state('nested offset', request('r', schema, row, (1, 0)), 'bytes 40 3')
    cases.state('nested offset', request('r', schema, row, (0,)), 'number -1')
    # Sign in the rest of a slot.
    wrong = row[:8] + b'\xff' * 8 + row[16:]
    cases.state('sign', request('c', schema, wrong), 'refused 7 9')
    cases.state('sign', request('r', schema, wrong, (0,)), 'number -1')
    # The values array stands where K says, even when K leaves a gap that check refuses.
    gap = (ZEROS + u(96, 4) + u(16, 4) + u(48, 8) + F_ROW[24:64] + u(99, 8) + F_ROW[64:])
    cases.state('K', request('c', F_SCHEMA, gap), 'refused 7 24')
    cases.state('K', request('r', F_SCHEMA, gap, (0, 0)), 'container 24 48 3')
    cases.state('K', request('r', F_SCHEMA, gap, (0, 1)), 'container 72 40 3')
    cases.state('K', request('r', F_SCHEMA, gap, (0, 1, 2)), 'number 30')
    # Unequal counts: each array is sound by itself.
    uneven = (ZEROS + u(80, 4) + u(16, 4) + F_ROW[16:64] + u(2, 8) + ZEROS + u(10, 8) + u(20, 8))
    cases.state('counts', request('c', F_SCHEMA, uneven), 'refused 7 64')
    cases.state('counts', request('r', F_SCHEMA, uneven, (0, 0, 2)), 'number 3')
    cases.state('counts', request('r', F_SCHEMA, uneven, (0, 1, 2)), 'refused 5 0')
    # Keys may be null or equal.
    schema = b'ro\x01mai1st'
    listing = b'roma' + u(3, 4) + b'nui1\x01i1\x01' + b'nu' + text(b'') + text(b'z')
    body = (u(24, 8) + u(3, 8) + u(1, 8) + bytes([0, 1, 1]) + bytes(5)
            + u(3, 8) + u(1, 8) + ZEROS + u(0, 4) + u(40, 4) + u(1, 4) + u(40, 4) + b'z' + bytes(7))
    row = ZEROS + u(len(body), 4) + u(16, 4) + body
    cases.written('keys', schema, listing, row)
    cases.state('keys', request('r', schema, row, (0, 1, 1)), 'bytes %d 0' % (len(row) - 8))
    cases.state('keys', request('r', schema, row, (0, 1, 0)), 'null')


# How many of a row's single-bit changes leave it sound, counted by hand:
# A, B: the two null bits, 32 bits of the int32, 64 of the int64 or under its null.
# C:    size 7 takes in four zeros, which are text; the lower 7 bits of the three letters.
# D:    the null bit, for then the slot may hold anything.
# E:    counts 11 and 14 take in zeros; ten null bits; 80 bits of elements.
# F:    three null bits and 192 bits of elements in each array.
# G:    two null bits and 128 bits of the numbers.
# N:    none.
SOUND_FLIPS = {'A': 98, 'B': 98, 'C': 22, 'D': 1, 'E': 92, 'F': 390, 'G': 130, 'N': 0}


def bit_changes(cases):
    for name, schema, listing, row, _ in WRITTEN:
        if name not in SOUND_FLIPS:
            continue
        root = schemas.judge(schema)
        paths = all_paths(root, row)
        sound = 0
        for bit in range(8 * len(row)):
            changed = bytearray(row)
            changed[bit // 8] ^= 1 << bit % 8
            changed = bytes(changed)
            sound += cases.run('bit of ' + name, request('c', schema, changed)) == 'done'
            cases.run('bit of ' + name, request('l', schema, changed, room=len(listing)))
            # Every path for the head, some for the many elements.
            for path in paths if bit < 256 else paths[bit % 3::3]:
                cases.run('bit of ' + name, request('r', schema, changed, path))
            cases.run('bit of ' + name, request('t', schema, changed, paths[-1], third=b'none'))
            kind, value, third = (5, 0, b'new') if schema == C_SCHEMA else (2, 77, b'')
            cases.run('bit of ' + name, request('s', schema, changed, paths[-1], kind=kind, value=value, third=third))
        assert sound == SOUND_FLIPS[name], '%s: %d sound bit changes, by hand %d' % (
            name, sound, SOUND_FLIPS[name])
        for bit in range(8 * len(listing)):
            changed = bytearray(listing)
            changed[bit // 8] ^= 1 << bit % 8
            cases.run('listing bit of ' + name, request('w', schema, bytes(changed), room=len(row)))
        for bit in range(8 * len(schema)):
            changed = bytearray(schema)
            changed[bit // 8] ^= 1 << bit % 8
            for op in 'jc':
                cases.run('schema bit of ' + name, request(op, bytes(changed), row))


def all_paths(root, row):
    """Every place of a sound row."""
    found = []

    def go(path):
        value = rows.value_at(row, rows.walk(root, row, path))
        found.append(path)
        if value[0] == 'container':
            for step in range(value[3]):
                go(path + (step,))

    go(())
    return found


def further_cases(cases):
    for group in (bool_bytes, field_counts, depths, cuts, list_counts, limits, settings, slips, bit_changes):
        group(cases)
