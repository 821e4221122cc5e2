"""Answers about tables with one slip each, as a driver could give them: the comparison must find every one."""

import answers
from schemas import Refused, judge
from worked_tables import COLUMNS, column, table_of


def accepted(schema):
    try:
        judge(schema)
    except Refused:
        return False
    return True


def taken_by(alike):
    """A slip that takes a table of an accepted schema wherever this says that the two are alike."""
    def answer(req):
        if req.table is not None and accepted(req.schema) and alike(table_of(req.schema), req.table):
            req = req._replace(table=None)
        return answers.answer(req)
    return answer


def alike_but_for(name):
    """Whether two tables differ in this column alone, if at all."""
    low, bits = COLUMNS[name]
    others = ~((1 << bits) - 1 << low)
    return lambda own, lent: len(own) == len(lent) and all(a & others == b & others for a, b in zip(own, lent))


def alike_where_both_are(own, lent):
    return all(a == b for a, b in zip(own, lent))


def no_longer(own, lent):
    return own == lent[:len(own)]


def schema_of(table):
    """The schema that a table's marks and counts say."""
    return b''.join(column(word, 'mark').to_bytes(2, 'little') + (bytes([column(word, 'count')]) if column(word, 'kind') == 11 else b'')
                    for word in table)


def table_alone(req):
    """What the table says is believed, and the lent schema not looked at."""
    if req.table is not None and req.table and table_of_itself(req.table):
        req = req._replace(schema=schema_of(req.table), table=None)
    return answers.answer(req)


def table_of_itself(table):
    schema = schema_of(table)
    return accepted(schema) and table_of(schema) == table


def nothing_beside_nothing(req):
    """A refused schema by the empty table: both say nothing, and so agree."""
    if req.table == () and not accepted(req.schema) and req.op == 'j':
        return 'done'
    return answers.answer(req)


def one_byte_altered(req):
    """A refusal of a table after which the first lent byte is another."""
    line = answers.answer(req)
    head, _, lent = line.rpartition(' ')
    if req.table is None or head != 'refused 1 0' or lent == '-':
        return line
    return '%s %02x%s' % (head, int(lent[:2], 16) ^ 1, lent[2:])


def refused_as_7(req):
    line = answers.answer(req)
    return line.replace('refused 1 ', 'refused 7 ', 1) if req.table is not None else line


def filled_before_refused(req):
    """The words that a room has are filled, although it is too short."""
    line = answers.answer(req)
    if req.op != 'T' or not line.startswith('refused 4 ') or not req.room:
        return line
    return '%s %s' % (line.rpartition(' ')[0], answers.hex_words(table_of(req.schema)[:req.room]))


def rest_cleared(req):
    line = answers.answer(req)
    if req.op != 'T' or not line.startswith('done '):
        return line
    words = table_of(req.schema)
    return 'done %d %s' % (len(words), answers.hex_words(words + (0,) * (req.room - len(words))))


SLIPS = {
    'any table is taken': taken_by(lambda own, lent: True),
    'only the length counts': taken_by(lambda own, lent: len(own) == len(lent)),
    'what is left off has no say': taken_by(alike_where_both_are),
    'what stands behind has no say': taken_by(no_longer),
    'the table alone is believed': table_alone,
    'the empty table is a refused schema\'s': nothing_beside_nothing,
    'a byte is altered': one_byte_altered,
    'another number': refused_as_7,
    'too short a room is filled': filled_before_refused,
    'the rest of a room is cleared': rest_cleared,
}
SLIPS.update(('the column %s has no say' % name, taken_by(alike_but_for(name))) for name in COLUMNS)
