"""The document's table A to N, its further cases, those of batches, places, lent tables, stroke logs, catalogues and text, as requests with answers.

Where the document states bytes, sizes or numbers they are written out by hand
and not computed; the rest is answered by the second reading.  Making the cases
asserts the one against the other.
"""

import answers
from answers import request
from batch_cases import THREE, framing_cases
from batch_orders import order_cases
from catalogue_bytes import lent
from catalogue_cases import SMALL as CATALOGUE, catalogue_cases
from further import further_cases
from lent_tables import lent_table_cases
from log_cases import SMALL, log_cases
from places import place_cases
from table import A_ROW, A_SCHEMA, C_ROW, C_SCHEMA, ZEROS, fill, table_cases
from text_cases import text_cases
from worked_tables import table_of


class Cases:
    def __init__(self):
        self.made = []

    def state(self, name, req, line):
        """A case whose answer the document states."""
        got = answers.answer(req)
        assert got == line, '%s: the document says %s, this program %s' % (name, line, got)
        assert answers.decode(answers.encode(req)) == req, name
        self.made.append((name, req, line))

    def run(self, name, req):
        """A case that the document asks to run; the second reading answers it."""
        line = answers.answer(req)
        self.made.append((name, req, line))
        return line

    def written(self, name, schema, listing, row):
        """Everything that follows from a listing and the row that it gives."""
        n, m = len(row), len(listing)
        self.state(name, request('j', schema), 'done')
        self.state(name, request('w', schema, listing, room=n), 'done %d %s' % (n, row.hex()))
        self.state(name, request('w', schema, listing, room=n + 5), 'done %d %s' % (n, fill(row, n + 5)))
        self.state(name, request('w', schema, listing, room=n - 1),
                   'refused 4 %d %s' % (n, fill(b'', n - 1)))
        self.state(name, request('w', schema, listing), 'refused 4 %d -' % n)
        self.state(name, request('c', schema, row), 'done')
        self.state(name, request('l', schema, row, room=m), 'done %d %s' % (m, listing.hex()))
        self.state(name, request('l', schema, row, room=m + 1), 'done %d %s' % (m, fill(listing, m + 1)))
        self.state(name, request('l', schema, row, room=m - 1),
                   'refused 4 %d %s' % (m, fill(b'', m - 1)))
        self.state(name, request('w', schema, listing + b'\0', room=n), 'refused 2 0 ' + fill(b'', n))
        self.state(name, request('w', schema, listing[:-1], room=n), 'refused 2 0 ' + fill(b'', n))
        self.state(name, request('w', schema, b'nu', room=n), 'refused 2 0 ' + fill(b'', n))
        self.state(name, request('c', schema, row + ZEROS), 'refused 7 0')
        self.state(name, request('c', schema, b''), 'refused 7 0')
        self.state(name, request('c', schema + b'i1', row), 'refused 1 0')


def requests_and_answers():
    """Name, request and line of every case, the document's own first."""
    cases = Cases()
    table_cases(cases)
    further_cases(cases)
    framing_cases(cases)
    order_cases(cases)
    place_cases(cases)
    lent_table_cases(cases)
    log_cases(cases)
    catalogue_cases(cases)
    text_cases(cases)
    assert all(answers.within_rooms(req) for _, req, _ in cases.made)
    return cases.made


def runs(ops=answers.OPS):
    """Whole inputs that end a run, of these ops: name, input, lines."""
    good = answers.encode(request('c', A_SCHEMA, A_ROW))
    made = [('nothing', b'', []), ('two', good + good, ['done', 'done']),
            ('unknown op', good + b'q' + good[1:], ['done', 'end']),
            ('op zero', b'\0' + good[1:], ['end'])]
    setting = request('s', C_SCHEMA, C_ROW, (0,), kind=5, third=b'TPH')
    for req in (setting, setting._replace(table=table_of(C_SCHEMA)), request('A', C_SCHEMA, THREE, room=92, third=C_ROW),
                request('L', second=SMALL, steps=(5,), room=180, value=7), request('a', C_SCHEMA, b'\0'),
                request('v', b'\0', C_ROW, (0,), kind=5, third=b'TPH')):
        full = answers.encode(req)
        for n in range(1, len(full)):
            made.append(('cut of %s after %d' % (req.op, n), good + full[:n], ['done', 'end']))
    head = answers.HEAD
    for at, room in enumerate((answers.SCHEMA_ROOM, answers.SECOND_ROOM, answers.STEPS_ROOM,
                               answers.OUT_ROOM, answers.THIRD_ROOM)):
        for size, line in ((room, None), (room + 1, 'end'), (0xFFFFFFFF, 'end')):
            sizes = [len(A_SCHEMA), len(A_ROW), 0, 0, 0]
            sizes[at] = size
            data = head.pack(b'j', *sizes, 0, 0)
            if line is None:
                schema = A_SCHEMA + bytes(sizes[0] - len(A_SCHEMA))
                rest = bytes(sizes[1] + 4 * sizes[2] + sizes[4])
                line = 'refused 1 0' if at == 0 else 'done'
                made.append(('length %d at its limit' % at, data + schema + rest + good, [line, 'done']))
            else:
                made.append(('length %d over its limit' % at, data + bytes(80000), [line]))
    # A row's, a chord's or a schema's number has the limit of the room, whose field it stands in; where the op has no use for it, too.
    for op in filter(ops.__contains__, 'nfkAgzLRCaxyvWI'):
        limit = answers.room_limit(op)
        schema = lent(CATALOGUE) if op in answers.BY_NUMBER else C_SCHEMA
        second = {'L': SMALL, 'R': SMALL, 'C': SMALL, 'a': lent(CATALOGUE)}.get(op, THREE)
        at_limit = request(op, schema, second, room=limit, third=C_ROW)
        made.append(('room of %s at its limit' % op, answers.encode(at_limit) + good, [answers.answer(at_limit), 'done']))
        for room in sorted({limit + 1, answers.OUT_ROOM + 1, 0xFFFFFFFF}):
            made.append(('room of %s over its limit' % op, good + answers.encode(at_limit._replace(room=room)), ['done', 'end']))
    return made + table_runs(good)


def table_runs(good):
    """Whole inputs that end a run for what they say of a table."""
    made = [('%s by a table' % op, good + answers.encode(request(op, A_SCHEMA, table=table_of(A_SCHEMA))), ['done', 'end']) for op in 'nTLRCxyvWIq']
    for room in (answers.WORDS_ROOM + 1, answers.OUT_ROOM, answers.OUT_ROOM + 1, 0xFFFFFFFF):
        made.append(('room of T over its limit', good + answers.encode(request('T', A_SCHEMA, room=room)), ['done', 'end']))
    table = (0,) * answers.WORDS_ROOM
    at_limit = answers.encode(request('j', A_SCHEMA, table=table)) + good
    made.append(('table at its limit', at_limit, ['refused 1 0', 'done']))
    for count in (answers.WORDS_ROOM + 1, 0xFFFFFFFF):
        over = at_limit[:answers.HEAD.size] + count.to_bytes(4, 'little') + bytes(20000)
        made.append(('table of %d words' % count, good + over, ['done', 'end']))
    return made


if __name__ == '__main__':
    print('%d cases hold, %d runs' % (len(requests_and_answers()), len(runs())))
