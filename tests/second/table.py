"""The document's table A to N: its schemas, listings and rows, and what must be answered about them."""

import answers
from answers import request


def u(value, width):
    return value.to_bytes(width, 'little')


def record(mark, *parts):
    return mark + b''.join(parts)


def text(data, mark=b'st'):
    return mark + u(len(data), 4) + data


def long(value):
    return b'i8' + u(value % (1 << 64), 8)


ZEROS = bytes(8)


def fill(row, room):
    return answers.hex_or_dash(row + b'\xaa' * (room - len(row)))


# --- The table: schema, listing, row as the document gives them --------------

A_SCHEMA = b'ro\x02i4i8'
A_LISTING = record(b'ro', b'i4' + bytes.fromhex('feffffff'), long(1))
A_ROW = ZEROS + bytes.fromhex('feffffff00000000') + bytes.fromhex('0100000000000000')

B_LISTING = record(b'ro', b'i4' + bytes.fromhex('feffffff'), b'nu')
B_ROW = bytes.fromhex('0200000000000000') + bytes.fromhex('feffffff00000000') + ZEROS

C_SCHEMA = b'ro\x01st'
C_LISTING = record(b'ro', text(b'STK'))
C_ROW = ZEROS + bytes.fromhex('0300000010000000') + bytes.fromhex('53544b0000000000')

D_LISTING = record(b'ro', text(b''))
D_ROW = ZEROS + bytes.fromhex('0000000010000000')

E_SCHEMA = b'ro\x01lii1'
E_NUMBERS = (0, 11, 22, 33, 44, 55, 66, 77, 88, 99)
E_LISTING = record(b'ro', b'li', u(10, 4), *(b'i1' + u(n, 1) for n in E_NUMBERS))
E_ROW = (ZEROS + bytes.fromhex('2000000010000000') + u(10, 8) + ZEROS + bytes(E_NUMBERS) + bytes(6))

F_SCHEMA = b'ro\x01mai8i8'
F_LISTING = record(b'ro', b'ma', u(3, 4), *(long(n) for n in (1, 2, 3, 10, 20, 30)))
F_ROW = (ZEROS + bytes.fromhex('5800000010000000') + u(40, 8)
         + u(3, 8) + ZEROS + u(1, 8) + u(2, 8) + u(3, 8)
         + u(3, 8) + ZEROS + u(10, 8) + u(20, 8) + u(30, 8))

G_SCHEMA = b'ro\x01ro\x02i8f8'
G_FLOAT = bytes.fromhex('000000000000f83f')
G_LISTING = record(b'ro', b'ro', long(-5), b'f8' + G_FLOAT)
G_ROW = (ZEROS + bytes.fromhex('1800000010000000') + ZEROS + bytes.fromhex('fbffffffffffffff') + G_FLOAT)

H_SCHEMA = b'ro\x02stst'
H_LISTING = record(b'ro', text(b'STK'), text(b'PWR'))
H_SOUND = (ZEROS + bytes.fromhex('0300000018000000') + bytes.fromhex('0300000020000000')
           + b'STK' + bytes(5) + b'PWR' + bytes(5))
H_ROW = H_SOUND[:20] + u(24, 4) + H_SOUND[24:]

I_ROW_8 = C_ROW[:8] + u(8, 4) + C_ROW[12:]
I_ROW_9 = C_ROW[:8] + u(9, 4) + C_ROW[12:]

J_ROW = C_ROW[:8] + u(16, 4) + u(0xFFFFFFF8, 4) + C_ROW[16:]

L_ROW = bytes.fromhex('0100000000000000') + ZEROS + bytes.fromhex('0100000000000000')

M_ROW = C_ROW[:16] + b'TPH' + bytes(5)

N_SCHEMA = b'ro\x01lii8'
N_LISTING = record(b'ro', b'li', u(0, 4))
N_ROW = ZEROS + bytes.fromhex('0800000010000000') + u(0, 8)

WRITTEN = (
    # name, schema, listing, row, the size that the document states
    ('A', A_SCHEMA, A_LISTING, A_ROW, 24),
    ('B', A_SCHEMA, B_LISTING, B_ROW, 24),
    ('C', C_SCHEMA, C_LISTING, C_ROW, 24),
    ('D', C_SCHEMA, D_LISTING, D_ROW, 16),
    ('E', E_SCHEMA, E_LISTING, E_ROW, 48),
    ('F', F_SCHEMA, F_LISTING, F_ROW, 104),
    ('G', G_SCHEMA, G_LISTING, G_ROW, 40),
    ('N', N_SCHEMA, N_LISTING, N_ROW, 24),
)


def table_cases(cases):
    for name, schema, listing, row, size in WRITTEN:
        assert len(row) == size, name
        cases.written(name, schema, listing, row)

    def reads(name, schema, row, path, line):
        for op in 'ro':
            cases.state(name, request(op, schema, row, path), line)

    reads('A', A_SCHEMA, A_ROW, (), 'container 0 24 2')
    reads('A', A_SCHEMA, A_ROW, (0,), 'number -2')
    reads('A', A_SCHEMA, A_ROW, (1,), 'number 1')
    reads('A', A_SCHEMA, A_ROW, (2,), 'refused 5 0')
    reads('A', A_SCHEMA, A_ROW, (0, 0), 'refused 5 0')
    reads('A', A_SCHEMA, A_ROW, (0,) * 17, 'refused 5 0')
    reads('B', A_SCHEMA, B_ROW, (1,), 'null')
    reads('C', C_SCHEMA, C_ROW, (0,), 'bytes 16 3')
    reads('D', C_SCHEMA, D_ROW, (0,), 'bytes 16 0')
    reads('E', E_SCHEMA, E_ROW, (0,), 'container 16 32 10')
    for i, n in enumerate(E_NUMBERS):
        reads('E', E_SCHEMA, E_ROW, (0, i), 'number %d' % n)
    reads('E', E_SCHEMA, E_ROW, (0, 10), 'refused 5 0')
    reads('F', F_SCHEMA, F_ROW, (0,), 'container 16 88 2')
    reads('F', F_SCHEMA, F_ROW, (0, 0), 'container 24 40 3')
    reads('F', F_SCHEMA, F_ROW, (0, 1), 'container 64 40 3')
    reads('F', F_SCHEMA, F_ROW, (0, 2), 'refused 5 0')
    for i in range(3):
        reads('F', F_SCHEMA, F_ROW, (0, 0, i), 'number %d' % (i + 1))
        reads('F', F_SCHEMA, F_ROW, (0, 1, i), 'number %d' % (10 * i + 10))
        reads('F', F_SCHEMA, F_ROW, (0, i % 2, 3), 'refused 5 0')
    reads('G', G_SCHEMA, G_ROW, (0,), 'container 16 24 2')
    reads('G', G_SCHEMA, G_ROW, (0, 0), 'number -5')
    reads('G', G_SCHEMA, G_ROW, (0, 1), 'float64 3ff8000000000000')
    reads('N', N_SCHEMA, N_ROW, (0,), 'container 16 8 0')
    reads('N', N_SCHEMA, N_ROW, (0, 0), 'refused 5 0')

    cases.written('H before', H_SCHEMA, H_LISTING, H_SOUND)
    cases.state('H', request('c', H_SCHEMA, H_ROW), 'refused 7 16')
    cases.state('H', request('l', H_SCHEMA, H_ROW, room=20), 'refused 7 16 ' + fill(b'', 20))
    cases.state('H', request('s', H_SCHEMA, H_ROW, (1,), kind=5, third=b'TPH'),
                'refused 7 16 ' + H_ROW.hex())
    # The walk has no rule about siblings.
    reads('H', H_SCHEMA, H_ROW, (0,), 'bytes 24 3')
    reads('H', H_SCHEMA, H_ROW, (1,), 'bytes 24 3')

    cases.state('I', request('c', C_SCHEMA, I_ROW_8), 'done')
    cases.state('I', request('c', C_SCHEMA, I_ROW_9), 'refused 7 8')
    reads('I', C_SCHEMA, I_ROW_8, (0,), 'bytes 16 8')
    reads('I', C_SCHEMA, I_ROW_9, (0,), 'refused 7 8')

    reads('J', C_SCHEMA, J_ROW, (0,), 'refused 7 8')
    cases.state('J', request('c', C_SCHEMA, J_ROW), 'refused 7 8')
    cases.state('J', request('t', C_SCHEMA, J_ROW, (0,), third=b'none'), b'none'.hex())

    for count, fixed in ((64, 520), (65, 536)):
        schema = b'ro' + bytes([count]) + b'i8' * count
        listing = b'ro' + b''.join(long(-n) for n in range(count))
        row = bytes(fixed - 8 * count) + b''.join(u(-n % (1 << 64), 8) for n in range(count))
        assert len(row) == fixed
        cases.written('K', schema, listing, row)
        reads('K', schema, row, (), 'container 0 %d %d' % (fixed, count))
        reads('K', schema, row, (count - 1,), 'number %d' % (1 - count))
        reads('K', schema, row, (count,), 'refused 5 0')
        reads('K', schema, row[:-1], (), 'refused 7 0')

    cases.state('L', request('s', A_SCHEMA, A_ROW, (0,), kind=0), 'done ' + L_ROW.hex())
    cases.state('L', request('c', A_SCHEMA, L_ROW), 'done')
    reads('L', A_SCHEMA, L_ROW, (0,), 'null')
    cases.state('L back', request('s', A_SCHEMA, L_ROW, (0,), kind=2, value=(1 << 64) - 2),
                'done ' + A_ROW.hex())

    cases.state('M', request('s', C_SCHEMA, C_ROW, (0,), kind=5, third=b'TPH'), 'done ' + M_ROW.hex())
    cases.state('M', request('s', C_SCHEMA, C_ROW, (0,), kind=5, third=b'TP'),
                'refused 9 0 ' + C_ROW.hex())
    cases.state('M', request('s', C_SCHEMA, C_ROW, (0,), kind=0), 'refused 9 0 ' + C_ROW.hex())
    for row, words in ((C_ROW, '53544b'), (M_ROW, '545048'), (D_ROW, '-')):
        cases.state('M', request('t', C_SCHEMA, row, (0,), third=b'none'), words)
