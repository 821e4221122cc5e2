"""Cases of strings that go through sequences of bytes and through lengths: what Python's decoder takes is text."""

import itertools

from answers import request
from places import letters, slot
from table import C_SCHEMA, ZEROS, fill, text
from texts import decodes

BINARY_SCHEMA = b'ro\x01bi'

# A byte that no text has, a tail, and a first byte; each is wrong wherever it stands among letters.
WRONG = (b'\xff', b'\x80', b'\xc3')

# One character of each length but one.
CHARACTERS = (b'\xc3\xa9', b'\xe2\x80\x94', b'\xf0\x9f\x98\x80')

LETTERS = (b'STKPWRHAOEUFRPBLGTSDZ' * 2)[:40]


def row_of(data):
    return ZEROS + slot(16, len(data)) + letters(data)


def checked(cases, name, data):
    cases.state(name, request('c', C_SCHEMA, row_of(data)), 'done' if decodes(data) else 'refused 7 8')


def checked_written_set(cases, name, data):
    """A string in a row, in a listing and as a setting of a string as long; and as a binary, which is accepted."""
    good, row, listing, other = decodes(data), row_of(data), b'ro' + text(data), row_of(b'x' * len(data))
    checked(cases, name, data)
    cases.state(name, request('w', C_SCHEMA, listing, room=len(row)),
                'done %d %s' % (len(row), row.hex()) if good else 'refused 2 0 ' + fill(b'', len(row)))
    cases.state(name, request('s', C_SCHEMA, other, (0,), kind=5, third=data), 'done ' + row.hex() if good else 'refused 8 0 ' + other.hex())


def one_wrong_byte(cases):
    """Strings of 0 to 40 letters, each place of them in turn wrong: whoever steps by eight bytes has every length and place."""
    for length in range(41):
        good = LETTERS[:length]
        checked_written_set(cases, 'letters', good)
        for at, wrong in itertools.product(range(length), WRONG):
            checked_written_set(cases, 'one wrong byte', good[:at] + wrong + good[at + 1:])


def one_character(cases):
    """A longer character at each place of strings of up to 24 bytes, whole, and with each of its bytes in turn another."""
    for character in CHARACTERS:
        for length in range(len(character), 25):
            for at in range(length - len(character) + 1):
                before, behind = LETTERS[:at], LETTERS[at:length - len(character)]
                checked(cases, 'a character', before + character + behind)
                for i in range(len(character)):
                    for wrong in (b'x', b'\xc0'):
                        checked(cases, 'a wrong character', before + character[:i] + wrong + character[i + 1:] + behind)


def cut_characters(cases):
    """A character cut at the string's end, right before its padding, and where there is none."""
    for character, before in itertools.product(CHARACTERS, range(25)):
        for kept in range(1, len(character) + 1):
            data = LETTERS[:before] + character[:kept]
            checked_written_set(cases, 'a cut character', data)
            # Where the rest of the character stands in the padding, the string is no better: its slot is told, and not the padding.
            room = -len(data) % 8
            rest = (character[kept:] + bytes(8))[:room]
            if any(rest):
                cases.state('the rest in the padding', request('c', C_SCHEMA, ZEROS + slot(16, len(data)) + data + rest), 'refused 7 8')
    # Two strings of eight bytes side by side: a character that begins in one and ends in the other is in neither.
    for character in CHARACTERS:
        for kept in range(1, len(character)):
            first, second = (LETTERS[:8 - kept] + character[:kept]), (character[kept:] + LETTERS)[:8]
            row = ZEROS + slot(24, 8) + slot(32, 8) + first + second
            cases.state('a character in two strings', request('c', b'ro\x02stst', row), 'refused 7 8')
            cases.state('a character in two strings', request('c', b'ro\x02bist', row), 'refused 7 16')
            cases.state('a character in two strings', request('c', b'ro\x02bibi', row), 'done')
            # In the other order each is read from its own slot.
            row = ZEROS + slot(32, 8) + slot(24, 8) + second + first
            cases.state('a character in two strings', request('c', b'ro\x02stst', row), 'refused 7 8')


def long_ones(cases):
    """The longest strings: sound, and wrong at one place near the start, in the middle and at the end."""
    size = 16368
    for whole in (b'x', b'\0', b'\xc3\xa9', b'\xe2\x80\x94', b'\xf0\x9f\x98\x80', b'x\xc3\xa9\xe2\x80\x94\xf0\x9f\x98\x80'):
        data = (whole * size)[:size // len(whole) * len(whole)]
        checked_written_set(cases, 'long', data)
        for at in (0, 7, 8, 9, 4095, 4096, 8191, len(data) - 9, len(data) - 8, len(data) - 1):
            checked(cases, 'long and wrong', data[:at] + b'\xff' + data[at + 1:])
        cases.state('long and cut', request('c', C_SCHEMA, row_of(data[:-1])), 'done' if len(whole) == 1 else 'refused 7 8')
    cases.state('long binary', request('c', BINARY_SCHEMA, row_of(b'\xff' * size)), 'done')


def around(*bounds):
    """Each bound with one below and one above, and the ends of a byte."""
    return sorted({near for bound in bounds for near in (bound - 1, bound, bound + 1)} | {0x00, 0xFF})


def longer_borders():
    """Sequences of three and four bytes around every bound of the RFC's table."""
    tails, ends = around(0x80, 0xBF), (0x7F, 0x80, 0xBF, 0xC0)
    seconds = around(0x80, 0x8F, 0x90, 0x9F, 0xA0, 0xBF)
    for first in [0xC2, 0xDF] + around(0xE0, 0xE1, 0xEC, 0xED, 0xEE, 0xEF):
        yield from (bytes((first,) + behind) for behind in itertools.product(seconds, tails))
    for first in (0xEF, 0xF0, 0xF1, 0xF3, 0xF4, 0xF5, 0xF7, 0xF8):
        yield from (bytes((first,) + behind) for behind in itertools.product(seconds, ends, ends))


def all_short_ones(cases):
    """Every sequence of one and of two bytes, and the longer ones around the bounds: alone, and across the eighth byte."""
    for length in (1, 2):
        for data in itertools.product(range(256), repeat=length):
            checked(cases, 'all of %d bytes' % length, bytes(data))
    for data in longer_borders():
        checked(cases, 'borders', data)
        checked(cases, 'borders', LETTERS[:6] + data)


def sequence_cases(cases):
    for group in (one_wrong_byte, one_character, cut_characters, long_ones, all_short_ones):
        group(cases)
