"""The table of text against Python's own decoder, and that the comparison finds slips with text."""

import by_tables
import requests
from table_checks import agree, find_in_cases
from text_cases import entry_cases
from text_slips import SLIPS
from texts import awaited_after, decodes, is_text

BYTES = [bytes([byte]) for byte in range(256)]

# Slips that few random requests show, without any case made for them.
IN_RANDOM = ('surrogates are text', 'a stray tail', 'no character of four bytes', 'a cut character at the end', 'no NUL', 'no noncharacters',
             'the first eight bytes alone', 'each eight by themselves', 'binary too', 'nothing is judged', 'told at its first byte', 'padding before text',
             'text after its siblings', 'a read of any string of the row', 'bad text in a listing', '9 before 8', 'any bytes by a table')
PORTIONS = 3


def check_short():
    """Every sequence of one, two and three bytes: the table takes it exactly if the decoder does.

    The table's judge goes on from what it awaits after two bytes, so what it
    says of all third bytes is found once for each thing awaited; the decoder is
    asked about every sequence.
    """
    taken = {}
    for awaited in {awaited_after((), a + b) for a in BYTES for b in BYTES} | {awaited_after((), a) for a in BYTES}:
        taken[awaited] = set() if awaited is None else {byte for byte in BYTES if awaited_after(awaited, byte) == ()}
    assert all(is_text(a) == decodes(a) for a in BYTES)
    count = len(BYTES)
    for a in BYTES:
        assert taken[awaited_after((), a)] == {b for b in BYTES if decodes(a + b)}
        for b in BYTES:
            assert taken[awaited_after((), a + b)] == {c for c in BYTES if decodes(a + b + c)}, (a + b).hex()
            count += 1 + len(BYTES)
    return count


def check_borders():
    """Sequences of four bytes around every bound of the RFC's table, and each of them with its last bytes cut off or one more behind."""
    count = 0
    for first in range(0xEF, 0xF6):
        for second in bounds(0x80, 0x8F, 0x90, 0x9F, 0xA0, 0xBF):
            for third in bounds(0x80, 0xBF):
                for fourth in bounds(0x80, 0xBF):
                    whole = bytes((first, second, third, fourth))
                    for data in [whole[:n] for n in range(1, 5)] + [whole + b'x', whole + b'\x80', b'x' + whole]:
                        assert is_text(data) == decodes(data), data.hex()
                        count += 1
    return count


def bounds(*values):
    """Each value, and one below and one above."""
    return sorted({near for value in values for near in (value - 1, value, value + 1)} | {0x00, 0xFF})


def check_slips():
    """The comparison finds every slip in the cases of the entries, and in random requests those that any show."""
    find_in_cases(entry_cases, SLIPS)
    some = [made for number in range(PORTIONS) for made in by_tables.portion(1, number, requests.PORTION)]
    for name in IN_RANDOM:
        assert not agree(some, SLIPS[name]), name
    return len(SLIPS)
