"""Answers about text with one slip each, as a driver could give them: the comparison must find every one."""

from functools import partial
from unittest import mock

import answers
import layouts
import rows
import texts
from log_slips import slip_in
from schemas import BYTES, Null, Refused, bitmap_size, broken_at, pad
from texts import TAIL, awaited_after, by_first_byte, is_text, may_hold

# What the slips below are put in the place of.
decode, decode_children = layouts.decode, layouts.decode_children
apply, fits, parse_listing, own_rules, read, text_or = rows.apply, rows.fits, rows.parse_listing, rows.own_rules, rows.read, rows.text_or

slip = partial(slip_in, texts)


def any_bytes(call, *args):
    """A call in which a string may hold any bytes."""
    with mock.patch.object(texts, 'may_hold', lambda t, data: True):
        return call(*args)


# --- Which bytes are text ------------------------------------------------------

def also(low, high, *behind):
    """The table with another line for these first bytes, in the place of what it says of them."""
    return slip(BEHIND={**texts.BEHIND, **by_first_byte([(low, high, behind)])})


def without(*sequences):
    """Text in which none of these sequences stands."""
    return slip(is_text=lambda data: is_text(data) and not any(sequence in data for sequence in sequences))


def as_far_as(cut):
    """Only these of the bytes are judged, a character cut there too."""
    return slip(is_text=lambda data: awaited_after((), cut(data)) is not None)


def eight_by_eight(data):
    """Each eight bytes by themselves."""
    return all(is_text(data[at:at + 8]) for at in range(0, len(data), 8))


def ascii_in_whole_eights(data):
    """Eight bytes at a time are passed over if the first of them is ASCII."""
    return is_text(b''.join(data[at:at + 8] for at in range(0, len(data), 8) if data[at] >= 0x80 or at + 8 > len(data)))


# --- Where a string is judged, and what is told ----------------------------------

def in_a_check(judge_string):
    """A slip in how a check judges a string: by its type, the row, where its bytes start and end, and its slot."""
    def judged(t, row, start, end, slot=0, count=None):
        if t.kind == BYTES:
            judge_string(t, row, start, end, slot)
            return row[start:end]
        return decode(t, row, start, end, slot, count)
    return slip_in(layouts, decode=judged)


def at_its_first_byte(t, row, start, end, slot):
    if not may_hold(t, row[start:end]):
        raise broken_at(start)


def at_the_wrong_byte(t, row, start, end, slot):
    if not may_hold(t, row[start:end]):
        raise broken_at(next(at for at in range(start, end) if at + 1 == end or awaited_after((), row[start:at + 1]) is None))


def after_the_padding(t, row, start, end, slot):
    layouts.zeros(row, end, start + pad(end - start))
    at_the_slot(t, row, start, end, slot)


def with_the_padding(t, row, start, end, slot):
    at_the_slot(t, row, start, start + pad(end - start), slot)


def at_the_slot(t, row, start, end, slot):
    if not may_hold(t, row[start:end]):
        raise broken_at(slot)


def after_its_siblings(row, start, end, slot, head, types, n, room):
    """The text of all strings of a container after everything else in it."""
    cells = any_bytes(decode_children, row, start, end, slot, head, types, n, room)
    for i, cell in enumerate(cells):
        if not isinstance(cell, Null) and types(i).kind == BYTES and not may_hold(types(i), cell):
            raise broken_at(start + head + bitmap_size(n) + i * room)
    return decode_children(row, start, end, slot, head, types, n, room)


def under_nulls_too(row, start, end, slot, head, types, n, room):
    cells = decode_children(row, start, end, slot, head, types, n, room)
    for i, cell in enumerate(cells):
        at = start + head + bitmap_size(n) + i * room
        if isinstance(cell, Null) and types(i).kind == BYTES:
            first, last = layouts.extent(row, start, at)
            if last <= end and not may_hold(types(i), row[first:last]):
                raise broken_at(at)
    return cells


def not_in_arrays(row, start, end, slot, head, types, n, room):
    """Elements, keys and values are not judged."""
    call = any_bytes if head else (lambda call, *args: call(*args))
    return call(decode_children, row, start, end, slot, head, types, n, room)


def off_the_path(schema, row, path):
    """A read refuses any string of the row that is no text, where nothing else is wrong."""
    value = read(schema, row, path)
    try:
        any_bytes(rows.check, schema, row)
    except Refused:
        return value
    rows.check(schema, row)
    return value


def beside_the_path(schema, row, path):
    """A read judges the string one field or element before its place, too."""
    value = read(schema, row, path)
    if path and path[-1]:
        before = path[:-1] + (path[-1] - 1,)
        try:
            any_bytes(read, schema, row, before)
        except Refused:
            return value
        read(schema, row, before)
    return value


def read_at_its_first_byte(t, row, start, size, slot):
    if t.kind == BYTES and not may_hold(t, row[start:start + size]):
        raise broken_at(start)
    return own_rules(t, row, start, size, slot)


# --- Settings ----------------------------------------------------------------------

def nine_before_eight(row, place, setting):
    """The length, and whether the string is null, before whether the bytes are text."""
    after = apply(row, place, setting)
    if setting[0] == 'bytes' and place.type.kind == BYTES and not may_hold(place.type, setting[1]):
        raise Refused(8)
    return after


def bad_text_is(number):
    """Bad text as a setting that fits otherwise has this number."""
    def judged(t, setting):
        if not fits(t, setting) and any_bytes(fits, t, setting):
            raise Refused(number)
        return fits(t, setting)
    return slip_in(rows, fits=judged)


def of_ops(ops, by_table=None):
    """A slip of these ops alone: a string may hold any bytes."""
    def answer(req):
        if req.op in ops and by_table in (None, req.table is not None):
            return any_bytes(answers.answer, req)
        return answers.answer(req)
    return answer


def seven_in_a_listing(req):
    line, free = answers.answer(req), any_bytes(answers.answer, req)
    return line.replace('refused 2 ', 'refused 7 ', 1) if req.op in 'wW' and line != free else line


SLIPS = {
    'surrogates are text': also(0xED, 0xED, TAIL, TAIL),
    'high surrogates are text': also(0xED, 0xED, (0x80, 0xAF), TAIL),
    'overlong forms of two bytes': also(0xC0, 0xC1, TAIL),
    'C0 80 for NUL': also(0xC0, 0xC0, (0x80, 0x80)),
    'C1 for ASCII': also(0xC1, 0xC1, TAIL),
    'overlong forms of three bytes': also(0xE0, 0xE0, TAIL, TAIL),
    'overlong forms of four bytes': also(0xF0, 0xF0, TAIL, TAIL, TAIL),
    'F4 90 and on': also(0xF4, 0xF4, TAIL, TAIL, TAIL),
    'F5 to F7': also(0xF5, 0xF7, TAIL, TAIL, TAIL),
    'forms of five bytes': also(0xF8, 0xFB, TAIL, TAIL, TAIL, TAIL),
    'forms of six bytes': also(0xFC, 0xFD, TAIL, TAIL, TAIL, TAIL, TAIL),
    'a stray tail': also(0x80, 0xBF),
    'any byte by itself': also(0x80, 0xFF),
    'no character of four bytes': slip(BEHIND={first: behind for first, behind in texts.BEHIND.items() if len(behind) < 3}),
    'no character but ASCII': slip(is_text=bytes.isascii),
    'a cut character at the end': slip(is_text=lambda data: awaited_after((), data) is not None),
    'no NUL': without(b'\0'),
    'no byte order mark': without(b'\xef\xbb\xbf'),
    'no noncharacters': without(b'\xef\xbf\xbe', b'\xef\xbf\xbf', b'\xef\xb7\x90', b'\xf0\x9f\xbf\xbe'),
    'no replacement character': without(b'\xef\xbf\xbd'),
    'no last code point': without(b'\xf4\x8f\xbf\xbf'),
    'up to a NUL': slip(is_text=lambda data: is_text(data.partition(b'\0')[0])),
    'the first eight bytes alone': as_far_as(lambda data: data[:8]),
    'whole eights alone': as_far_as(lambda data: data[:len(data) // 8 * 8]),
    'all but the last byte': as_far_as(lambda data: data[:-1]),
    'each eight by themselves': slip(is_text=eight_by_eight),
    'eights that begin with ASCII': slip(is_text=ascii_in_whole_eights),
    'no bytes are no text': slip(is_text=lambda data: data != b'' and is_text(data)),
    'binary too': slip(may_hold=lambda t, data: is_text(data)),
    'nothing is judged': slip(may_hold=lambda t, data: True),
    'told at its first byte': in_a_check(at_its_first_byte),
    'told at the wrong byte': in_a_check(at_the_wrong_byte),
    'padding before text': in_a_check(after_the_padding),
    'text with its padding': in_a_check(with_the_padding),
    'a read tells the first byte': slip_in(rows, own_rules=read_at_its_first_byte),
    'text after its siblings': slip_in(layouts, decode_children=after_its_siblings),
    'text under a null': slip_in(layouts, decode_children=under_nulls_too),
    'no text in arrays': slip_in(layouts, decode_children=not_in_arrays),
    'a read of any string of the row': slip_in(rows, read=off_the_path),
    'a read of the strings beside': slip_in(rows, read=beside_the_path),
    'bad text for the stand-in': slip_in(rows, text_or=partial(any_bytes, text_or)),
    'bad text in a listing': slip_in(rows, parse_listing=partial(any_bytes, parse_listing)),
    '7 for a listing': seven_in_a_listing,
    '9 before 8': slip_in(rows, fits=partial(any_bytes, fits), apply=nine_before_eight),
    '9 for bad text as a setting': bad_text_is(9),
    '2 for bad text as a setting': bad_text_is(2),
    '7 for bad text as a setting': bad_text_is(7),
    'any bytes by a table': of_ops(answers.OPS_BY_TABLE, by_table=True),
}
SLIPS.update(('any bytes of %s' % op, of_ops(op)) for op in 'cwlsrotfkAgzxyvWI')
