#!/usr/bin/env python3
"""The run that is kept beside the driver: each op, refusals with their bytes, a path of 17 steps, places, tables, stroke logs, catalogues, text.

    stored.py            whether crates/drive/stdin and stdout are what is made here
    stored.py --write    write them
"""

import pathlib
import sys

import answers
import catalogue_cases
import log_cases
import places
import table
from answers import request
from catalogue_bytes import lent, used
from log_cases import adding
from log_rows import crossed, framed
from text_cases import BINARY_SCHEMA, string_row
from worked_tables import table_of

DRIVE = pathlib.Path(__file__).resolve().parents[2] / 'crates' / 'drive'

# A batch of two rows of one int8 each.
SMALL = b'ro\x01i1'
FIVE, SIX = table.ZEROS + table.u(5, 8), table.ZEROS + table.u(6, 8)
ONE_ROW = bytes.fromhex('00000010') + FIVE
TWO_ROWS = ONE_ROW + bytes.fromhex('00000010') + SIX
CUT = TWO_ROWS[:-1]

# The rest of the second row's slot is not zero, at that row's byte 12.
BROKEN = SIX[:12] + b'\x01' + SIX[13:]
BROKEN_ROW = ONE_ROW + bytes.fromhex('00000010') + BROKEN

# A catalogue of three schemas, of which C's has the number 1; its used bytes alone are none.
CATALOGUE = catalogue_cases.SMALL
LENT = lent(CATALOGUE, b'junk')
FULL = lent(used(*catalogue_cases.MANY[:16]))

# A log of one row whose tick is null.
NULL_TICK = framed(log_cases.WRONG_NULLS[4][1])

# A string of a surrogate, with padding that is wrong too; one whose last character is cut; and three letters with one of two bytes behind.
SURROGATE = string_row(b'\xed\xa0\x80', b'\1' * 7)
CUT_TEXT = string_row(b'STKPWR\xe2\x80')
ACCENT = string_row(b'STK\xc3\xa9')


def by_their_tables(*plain):
    """Each by its schema's table, and by one word more."""
    return tuple(req._replace(table=table_of(req.schema) + behind) for req in plain for behind in ((), (0,)))


REQUESTS = (
    request('j', table.F_SCHEMA),
    request('c', table.H_SCHEMA, table.H_ROW),
    request('w', table.A_SCHEMA, table.B_LISTING, room=len(table.B_ROW) + 4),
    request('w', table.C_SCHEMA, table.C_LISTING, room=8),
    request('l', table.F_SCHEMA, table.F_ROW, room=len(table.F_LISTING)),
    request('s', table.A_SCHEMA, table.A_ROW, (0,), kind=0),
    request('s', table.C_SCHEMA, table.C_ROW, (0,), kind=5, third=b'TP'),
    request('r', table.A_SCHEMA, table.A_ROW, (0,)),
    request('r', table.E_SCHEMA, table.E_ROW, (0,) * 17),
    request('o', table.G_SCHEMA, table.G_ROW, (0, 1)),
    request('t', table.C_SCHEMA, table.C_ROW, (0,), third=b'none'),
    request('n'),
    request('n', second=TWO_ROWS),
    request('n', second=CUT),
    request('n', second=b'\xff' * 4 + FIVE),
    request('n', second=bytes(4)),
    request('f', SMALL, TWO_ROWS, room=1),
    request('f', SMALL, TWO_ROWS, room=2),
    request('f', b'x', CUT, room=2),
    request('f', SMALL, CUT),
    request('k', SMALL, TWO_ROWS),
    request('k', SMALL, ONE_ROW + bytes(4)),
    request('A', SMALL, ONE_ROW, room=len(TWO_ROWS) + 1, third=SIX),
    request('A', SMALL, ONE_ROW, room=len(TWO_ROWS) - 1, third=SIX),
    request('A', SMALL, ONE_ROW, room=10, third=SIX),
    request('A', SMALL, room=20, third=SIX),
    request('g', SMALL, TWO_ROWS, (0,), room=1),
    request('g', SMALL, TWO_ROWS, (0,), room=2),
    request('g', SMALL, TWO_ROWS, (1,), room=1),
    request('z', SMALL, TWO_ROWS, (0,), room=1, kind=2, value=7),
    request('z', SMALL, TWO_ROWS, (0,), room=2, kind=9),
    request('z', SMALL, TWO_ROWS, (0,), room=1, kind=9),
    request('c', places.STROKES, places.MARCH),
    request('l', places.STROKES, places.MARCH, room=3),
    request('s', places.STROKES, places.MARCH, (0, 0), kind=2, value=7),
    request('r', table.C_SCHEMA, table.J_ROW, (0,)),
    request('o', table.F_SCHEMA, table.F_ROW[:-8], (0, 1, 2)),
    request('r', b'ro\x01mai8i8', places.NO_VALUES, (0, 1)),
    request('f', SMALL, BROKEN_ROW, room=1),
    request('k', SMALL, BROKEN_ROW),
    request('A', SMALL, ONE_ROW, room=22, third=BROKEN),
    request('g', table.C_SCHEMA, bytes.fromhex('00000018') + table.J_ROW, (0,)),
    request('z', SMALL, BROKEN_ROW, (0,), room=1, kind=9),
    request('T', places.STROKES, room=8),
    request('T', places.STROKES, room=6),
    request('T', b'x', room=1),
    request('T', places.STROKES),
    adding(b'', log_cases.A, None, 52),
    adding(log_cases.SMALL, (0, 9), 16, 153),
    adding(log_cases.SMALL, (0, 9), 15, 180),
    adding(log_cases.SMALL, (0, 9), 15, 179),
    adding(log_cases.SMALL, (0, 9), 1001, 180),
    adding(log_cases.SMALL, (0, 9), 16, 127),
    adding(NULL_TICK, log_cases.A, 1001, 60),
    request('R'),
    request('R', second=log_cases.SMALL, room=6),
    request('R', second=log_cases.SMALL, room=5),
    request('R', second=framed(crossed(log_cases.A, log_cases.B)), room=17500),
    request('R', second=NULL_TICK + b'\0', room=2),
    request('R', second=NULL_TICK, room=2),
    request('C', second=log_cases.SMALL, room=1),
    request('C', second=log_cases.SMALL, room=2),
    request('C', second=log_cases.SMALL, room=3),
    request('a', table.F_SCHEMA, LENT),
    request('a', b'x', LENT),
    request('a', table.C_SCHEMA, CATALOGUE),
    request('a', table.C_SCHEMA, FULL),
    request('x', LENT, table.I_ROW_9, room=1),
    request('x', CATALOGUE, table.C_ROW, room=3),
    request('y', LENT, table.C_ROW, (0,), room=1),
    request('v', LENT, table.C_ROW, (0,), room=1, kind=5, third=b'TPH'),
    request('v', CATALOGUE, table.C_ROW, (0,), room=3),
    request('W', LENT, table.C_LISTING, room=25, value=1),
    request('W', LENT, table.C_LISTING, room=2, value=1 << 32),
    request('I', LENT, table.C_ROW, room=11, value=1),
    request('I', b'', table.C_ROW, room=2),
    request('c', table.C_SCHEMA, SURROGATE),
    request('c', table.C_SCHEMA, ACCENT),
    request('c', BINARY_SCHEMA, CUT_TEXT),
    request('l', table.C_SCHEMA, CUT_TEXT, room=3),
    request('w', table.C_SCHEMA, b'ro' + table.text(b'ST\xff'), room=2),
    request('r', table.C_SCHEMA, SURROGATE, (0,)),
    request('r', table.C_SCHEMA, SURROGATE),
    request('o', table.C_SCHEMA, CUT_TEXT, (0,)),
    request('t', table.C_SCHEMA, CUT_TEXT, (0,), third=b'none'),
    request('t', table.C_SCHEMA, ACCENT, (0,), third=b'none'),
    request('s', table.C_SCHEMA, table.C_ROW, (0,), kind=5, third=b'T\xc3\xa9'),
    request('s', table.C_SCHEMA, table.C_ROW, (0,), kind=5, third=b'TP\xff'),
    request('s', table.C_SCHEMA, table.C_ROW, (0,), kind=5, third=b'\xff'),
    request('s', BINARY_SCHEMA, table.C_ROW, (0,), kind=5, third=b'TP\xff'),
    request('s', table.C_SCHEMA, CUT_TEXT, (0,), kind=5, third=b'STKPWRTP'),
    request('k', table.C_SCHEMA, bytes.fromhex('00000018') + table.C_ROW + bytes.fromhex('00000018') + CUT_TEXT),
    request('x', LENT, CUT_TEXT, room=1),
) + by_their_tables(
    request('j', table.F_SCHEMA),
    request('c', table.H_SCHEMA, table.H_ROW),
    request('w', table.A_SCHEMA, table.B_LISTING, room=len(table.B_ROW) + 4),
    request('l', table.F_SCHEMA, table.F_ROW, room=len(table.F_LISTING)),
    request('s', table.A_SCHEMA, table.A_ROW, (0,), kind=2, value=(1 << 64) - 3),
    request('r', table.A_SCHEMA, table.A_ROW, (0,)),
    request('o', table.G_SCHEMA, table.G_ROW, (0, 1)),
    request('t', table.C_SCHEMA, table.C_ROW, (0,), third=b'none'),
    request('f', SMALL, TWO_ROWS, room=1),
    request('k', SMALL, BROKEN_ROW),
    request('A', SMALL, ONE_ROW, room=len(TWO_ROWS) + 1, third=SIX),
    request('g', SMALL, TWO_ROWS, (0,), room=1),
    request('z', SMALL, TWO_ROWS, (0,), room=1, kind=2, value=7),
    request('a', table.C_SCHEMA, LENT),
)


def stored_run():
    """What the driver reads, with one byte more that begins a request, and what it writes."""
    lines = [answers.answer(req) for req in REQUESTS] + ['end']
    return b''.join(map(answers.encode, REQUESTS)) + b'j', ''.join(line + '\n' for line in lines).encode()


def main():
    for name, data in zip(('stdin', 'stdout'), stored_run()):
        if sys.argv[1:] == ['--write']:
            (DRIVE / name).write_bytes(data)
        elif (DRIVE / name).read_bytes() != data:
            sys.exit('crates/drive/%s is not what stored.py makes' % name)
    print('%d requests are stored with the driver' % len(REQUESTS))


main()
