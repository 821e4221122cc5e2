"""The random requests, each also by a lent table: the schema's own mostly, now and then another."""

import answers
import requests
from making import Chooser
from schemas import Refused
from worked_tables import COLUMNS, column, gives, table_of, word

# The share of lent tables that are damaged.
DAMAGED = 0.06


def portion(seed, number, count, ops=answers.OPS):
    """The first requests of a portion, of these ops: the index, the request, and the line that it must get.

    Behind each that takes a schema stands the same by a table, and before the
    first of a schema the request for its table.
    """
    choose = Chooser('by tables/%d/%d' % (seed, number))
    made = []
    schema, before = None, ()
    for i, req in enumerate(requests.portion(seed, number)[:count], number * requests.PORTION):
        if req.schema != schema and req.op not in answers.BY_NUMBER:
            schema = req.schema
            if 'T' in ops:
                asked = table_request(choose, schema)
                made.append((i, asked, answers.answer(asked)))
        if req.op not in ops:
            continue
        line = answers.answer(req)
        made.append((i, req, line))
        if req.op not in answers.OPS_BY_TABLE:
            continue
        twin = req._replace(table=lent_table(choose, schema, before))
        fits = gives(schema, twin.table)
        # By its own table a request is answered as by the schema.
        made.append((i, twin, line if fits else answers.answer(twin)))
        if fits:
            before = twin.table
    return made


def table_request(choose, schema):
    try:
        needed = len(table_of(schema))
    except Refused:
        needed = choose.below(6)
    room = choose.one((needed, needed, needed - 1, 0, choose.below(needed + 1), needed + 1 + choose.below(8)))
    return answers.request('T', schema, room=max(0, room))


def lent_table(choose, schema, before):
    """A table to lend with a schema; `before` is the last that was right, often of what a refused schema was before its damage."""
    try:
        table = table_of(schema)
    except Refused:
        return before
    return damaged(choose, table, before) if choose.chance(DAMAGED) else table


def damaged(choose, table, before):
    """Mostly a table that the schema does not give, but for one thing as it gives it."""
    p = choose.below(8)
    i, j = choose.below(len(table)), choose.below(len(table))
    if p == 0:
        return before
    if p == 1:
        return table[:i]
    if p == 2:
        return table[:i] + table[i + 1:]
    if p == 3:
        return table + choose.one(((0,), (table[-1],), (choose.getrandbits(64),)))
    if p == 4:
        return table[:i] + (table[j],) + table[i + 1:]
    if p == 5:
        return with_column(table, i, choose.one(('depth', 'first', 'after', 'count')), choose.one((-1, 1)))
    if p == 6:
        return table[:i] + (choose.getrandbits(64),) + table[i + 1:]
    return table[:i] + (table[i] ^ 1 << choose.below(64),) + table[i + 1:]


def with_column(table, i, name, by):
    """The table with one column of one word made more or less, as far as it can be."""
    columns = {key: column(table[i], key) for key in COLUMNS}
    columns[name] = max(0, columns[name] + by)
    return table[:i] + (word(**columns),) + table[i + 1:]
