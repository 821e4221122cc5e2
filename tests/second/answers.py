"""From a request of the driver to the line that it must print."""

import struct
from collections import namedtuple

import batches
import catalogue
import rows
import strokes
import worked_tables
from schemas import Refused, judge

# Every op of the driver with the numbers that the document lets it refuse with,
# in their order; text falls back on its stand-in and refuses nothing.
NUMBERS = {
    'j': (1,), 'c': (1, 3, 7), 'w': (1, 2, 3, 4), 'l': (1, 3, 7, 4), 's': (1, 3, 7, 5, 6, 8, 9),
    'r': (1, 3, 5, 7, 6), 'o': (1, 3, 5, 7, 6), 't': (),
    'n': (10,), 'f': (1, 10, 5, 3, 7), 'k': (1, 10, 3, 7), 'A': (1, 10, 3, 7, 4),
    'g': (1, 10, 5, 3, 7, 6), 'z': (1, 10, 5, 3, 7, 6, 8, 9), 'T': (1, 4),
    'L': (10, 3, 7, 11), 'R': (10, 3, 7, 11), 'C': (10, 3, 7, 5),
    'a': (1, 12), 'x': (1, 13, 3, 7), 'W': (1, 13, 2, 3, 4), 'I': (1, 13, 3, 7, 4),
    'y': (1, 13, 3, 5, 7, 6), 'v': (1, 13, 3, 7, 5, 6, 8, 9),
}
OPS = ''.join(NUMBERS)

# The ops that take a schema, which also work from a table lent beside it.
OPS_BY_TABLE = 'jcwlszrotfkAga'

# The ops by a number, each with the op of one row that it answers as.
BY_NUMBER = {'x': 'c', 'y': 'r', 'v': 's', 'W': 'w', 'I': 'l'}

# A request: `second` is the listing, the row, the batch, the log or the catalogue
# to add to, `third` the stand-in, the setting's bytes or the row to append,
# `room` the length of the lent output, in words or numbers where it has those,
# or, where the op asks for one row of a batch or one chord of a log, its number.
# Of a chord to add, `value` is the tick and, in the upper half, the keys, and the
# first step the window. Of an op by a number, `schema` is the catalogue and `room`
# the number, or `value` where the op lends an output. `table` is the lent table's
# words, None where none is lent.
Request = namedtuple('Request', 'op schema second steps room third kind value table')

HEAD = struct.Struct('<c5IBQ')

# The bit of a kind that says: by a table, which then stands behind the head.
BY_TABLE = 0x80

# What the driver takes; beyond these a request ends its run.
SCHEMA_ROOM, SECOND_ROOM, STEPS_ROOM, OUT_ROOM, THIRD_ROOM, WORDS_ROOM, NUMBERS_ROOM = 20000, 70000, 64, 70000, 20000, 1024, 17500

FILL = 0xAA
FILL_WORD = int.from_bytes(bytes([FILL]) * 8, 'little')


def request(op, schema=b'', second=b'', steps=(), room=0, third=b'', kind=0, value=0, table=None):
    return Request(op, schema, second, tuple(steps), room, third, kind, value, table)


def room_limit(op):
    return {'T': WORDS_ROOM, 'R': NUMBERS_ROOM}.get(op, OUT_ROOM)


def within_rooms(req):
    return (len(req.schema) <= SCHEMA_ROOM and len(req.second) <= SECOND_ROOM
            and len(req.steps) <= STEPS_ROOM and req.room <= room_limit(req.op)
            and len(req.third) <= THIRD_ROOM and len(req.table or ()) <= WORDS_ROOM)


def encode(req):
    assert req.kind < BY_TABLE
    kind, table = req.kind, b''
    if req.table is not None:
        kind |= BY_TABLE
        table = struct.pack('<I%dQ' % len(req.table), len(req.table), *req.table)
    head = HEAD.pack(req.op.encode(), len(req.schema), len(req.second), len(req.steps),
                     req.room, len(req.third), kind, req.value)
    steps = struct.pack('<%dI' % len(req.steps), *req.steps)
    return b''.join((head, table, req.schema, req.second, steps, req.third))


def decode_at(data, at):
    """The request that stands at `at`, and where it ends."""
    def part(size):
        nonlocal at
        at += size
        if at > len(data):
            raise ValueError('%d bytes where its head announces %d' % (len(data), at))
        return data[at - size:at]

    op, schema, second, steps, room, third, kind, value = HEAD.unpack(part(HEAD.size))
    table = None
    if kind & BY_TABLE:
        count, = struct.unpack('<I', part(4))
        table = struct.unpack('<%dQ' % count, part(8 * count))
    schema, second = part(schema), part(second)
    steps = struct.unpack('<%dI' % steps, part(4 * steps))
    return Request(op.decode(), schema, second, steps, room, part(third), kind % BY_TABLE, value, table), at


def decode(data):
    """The request that `encode` made these bytes from, to repeat it by hand."""
    req, end = decode_at(data, 0)
    if end != len(data):
        raise ValueError('%d bytes where its head announces %d' % (len(data), end))
    return req


def setting_of(kind, value, third):
    """The setting by the C convention; None for a kind or a value that is none.

    A null and bytes have no use for the value, so any value will do there.
    """
    if kind == 0:
        return ('null',)
    if kind == 1:
        return ('bool', value) if value <= 1 else None
    if kind == 2:
        return ('number', value - (1 << 64) if value >> 63 else value)
    if kind == 3:
        return ('float32', value) if value < 1 << 32 else None
    if kind == 4:
        return ('float64', value)
    if kind == 5:
        return ('bytes', third)
    return None


def hex_or_dash(data):
    return data.hex() or '-'


def hex_words(words):
    return ''.join('%016x' % word for word in words) or '-'


def refusal(r):
    """The number, and the length that 4 carries or the place that 7 carries, else 0."""
    return 'refused %d %d' % (r.number, r.place if r.number == 7 else r.length)


def output_line(call, req):
    """Write and list: the lent output is shown whole, with what it held before."""
    out = bytes([FILL]) * req.room
    try:
        result = call(req.schema, req.second, req.room)
    except Refused as r:
        return '%s %s' % (refusal(r), hex_or_dash(out))
    return 'done %d %s' % (len(result), hex_or_dash(result + out[len(result):]))


def lent_room(req):
    """A room with the batch at its start; of a longer batch it has what fits."""
    return (req.second + bytes([FILL]) * (req.room - len(req.second)))[:req.room]


def room_line(call, room):
    """Append and add: the room is shown whole after the call, a refused one as it was."""
    try:
        after, length = call(room)
    except Refused as r:
        return '%s %s' % (refusal(r), hex_or_dash(room))
    return 'done %d %s' % (length, hex_or_dash(after))


def append_line(req):
    """`used` says how long the batch is, of which the room may have less."""
    return room_line(lambda room: batches.append(req.schema, room, len(req.second), req.third), lent_room(req))


def add_line(req):
    """The chord stands in the value, its tick in the lower half; the window is the first step, 0 where there is none."""
    keys, tick = divmod(req.value, 1 << 32)
    window = req.steps[0] if req.steps else 0
    return room_line(lambda room: strokes.add(room, len(req.second), strokes.Chord(tick, keys), window), lent_room(req))


def numbers_line(numbers):
    return ' '.join(map(str, ['done', len(numbers)] + numbers))


def table_line(req):
    """The lent words are shown whole, with what they held before."""
    lent = (FILL_WORD,) * req.room
    try:
        words = worked_tables.table(req.schema, req.room)
    except Refused as r:
        return '%s %s' % (refusal(r), hex_words(lent))
    return 'done %d %s' % (len(words), hex_words(words + lent[len(words):]))


def set_line(call, req, *where):
    """The row or the batch is shown whole after the call, a refused one as it was."""
    setting = setting_of(req.kind, req.value, req.third)
    try:
        return 'done ' + hex_or_dash(call(req.schema, req.second, *where, req.steps, setting))
    except Refused as r:
        return '%s %s' % (refusal(r), hex_or_dash(req.second))


def number_of(req):
    """The number of an op by a number."""
    return req.value if req.op in 'WI' else req.room


def number_line(req):
    """The used bytes of the catalogue stand behind, after the call or as they were; `-` where it is none."""
    after = req.second
    try:
        number, after = catalogue.add(after, req.schema)
        line = 'number %d' % number
    except Refused as r:
        line = refusal(r)
    return '%s %s' % (line, used_or_dash(after))


def used_or_dash(lent):
    try:
        return lent[:len(catalogue.used_bytes(catalogue.schemas_of(lent)))].hex()
    except Refused:
        return '-'


def value_line(value):
    name = value[0]
    if name == 'float32':
        return 'float32 %08x' % value[1]
    if name == 'float64':
        return 'float64 %016x' % value[1]
    return ' '.join(map(str, value))


# No bytes break the schema's rules.
NO_SCHEMA = b''


def by_schema(req):
    """The plain request that a request by a table is answered as: 1 where the table is not the schema's."""
    fits = worked_tables.gives(req.schema, req.table)
    return req._replace(schema=req.schema if fits else NO_SCHEMA, table=None)


def answer(req):
    if req.table is not None:
        if req.op not in OPS_BY_TABLE:
            raise ValueError('no op by a table: %r' % req.op)
        req = by_schema(req)
    op, schema, second = req.op, req.schema, req.second

    def entry(call):
        """The entry of one row, by a number where the op is."""
        return catalogue.by_number(call, number_of(req)) if op in BY_NUMBER else call

    if op == 'T':
        return table_line(req)
    if op == 'a':
        return number_line(req)
    if op in 'wW':
        return output_line(entry(rows.write), req)
    if op in 'lI':
        return output_line(entry(rows.list_back), req)
    if op == 't':
        return hex_or_dash(rows.text_or(schema, second, req.steps, req.third))
    if op in 'sv':
        return set_line(entry(rows.set_leaf), req)
    if op == 'z':
        return set_line(batches.set_leaf, req, req.room)
    if op == 'A':
        return append_line(req)
    if op == 'L':
        return add_line(req)
    try:
        if op == 'j':
            judge(schema)
            return 'done'
        if op in 'cx':
            entry(rows.check)(schema, second)
            return 'done'
        if op in 'roy':
            return value_line(entry(rows.read)(schema, second, req.steps))
        if op == 'n':
            return 'count %d' % batches.count(second)
        if op == 'f':
            return 'bytes %d %d' % batches.fetch(schema, second, req.room)
        if op == 'k':
            batches.check(schema, second)
            return 'done'
        if op == 'g':
            return value_line(batches.read(schema, second, req.room, req.steps))
        if op == 'R':
            return numbers_line(strokes.numbers(second, req.room))
        if op == 'C':
            return 'chord %d %d' % strokes.chord_at(second, req.room)
    except batches.RowRefused as r:
        return '%s row %d' % (refusal(r), r.row)
    except Refused as r:
        return refusal(r)
    raise ValueError('no such op: %r' % op)
