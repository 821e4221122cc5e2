#!/usr/bin/env python3
"""Rows whose values stand in any order: judged thrice, and read, set, listed and written.

    any_order.py DRIVER..          compare the driver with both readings
    any_order.py --cards FOLDER    write the long sound rows as inputs of the card tool

The judges of each row are the reading that tries all orders, the one that
sorts, and the library.  Of most rows it is also known from how they were made
whether they are sound, and of some broken ones where, by the account that lists
all faults.
"""

import pathlib
import sys

import all_orders
import answers
import faults
import layouts
import long_rows
import order_rows
from answers import request
from driving import compare_lines
from rows import type_at
from schemas import INT, judge
from trees import plain, replaced, tree_values

# Requests in one run of the driver.
TOGETHER = 20000

# Of every so many broken rows all faults are listed, which is slow.
LISTED_EVERY = 9


class Comparison:
    """Requests with their lines, driven many at once; the first difference ends the run."""

    def __init__(self, driver):
        self.driver = driver
        self.waiting = []
        self.agreed = 0

    def expect(self, where, req, line):
        self.waiting.append((where, req, line))
        if len(self.waiting) >= TOGETHER:
            self.drive()

    def drive(self):
        wheres, made, lines = zip(*self.waiting)
        if not compare_lines(self.driver, made, lines, wheres.__getitem__):
            sys.exit(1)
        self.agreed += len(made)
        self.waiting = []


def differ(what, schema, row):
    print('DIFFERENT: %s' % what)
    print('schema %s' % schema.hex())
    sys.exit('row %s' % row.hex())


def done_with(data):
    return 'done %d %s' % (len(data), data.hex())


def judged(comparison, schema, row, sound, where):
    """Whether a row is accepted, by all judges alike; `sound` is what is known of it, or None."""
    by_all_orders = all_orders.accepted(judge(schema), row)
    if sound is not None and by_all_orders != sound:
        differ('%s, sound is %s, all orders say otherwise' % (where, sound), schema, row)
    sorted_and_driven(comparison, schema, row, by_all_orders, where)
    return by_all_orders


def place_listed(schema, row, where):
    """The line of a check, which the library is held to, has the place that comes first of all faults."""
    place = faults.place(judge(schema), row)
    line = answers.answer(request('c', schema, row))
    if line != ('done' if place is None else 'refused 7 %d' % place):
        differ('%s, listing all faults says %s, sorting %s' % (where, place, line), schema, row)


def sorted_and_driven(comparison, schema, row, sound, where):
    asked = request('c', schema, row)
    line = answers.answer(asked)
    if (line == 'done') != sound:
        differ('%s, sound is %s, sorting says %s' % (where, sound, line), schema, row)
    comparison.expect(where, asked, line)


def read_value(line):
    """A driver's line of a reading as rows.read gives it."""
    name, *numbers = line.split(' ')
    base = 16 if name.startswith('float') else 10
    return (name,) + tuple(int(number, base) for number in numbers)


def asked_everywhere(comparison, schema, cells, row, rank, where):
    """Reading each place and setting each leaf of a sound row: what its contents say."""
    root = judge(schema)
    values = {}
    tree_values(root, cells, (), values)
    for path, value in values.items():
        asked = request('r', schema, row, path)
        line = answers.answer(asked)
        found = read_value(line)
        if plain(row, found) != value:
            differ('%s, place %s reads as %s' % (where, path, line), schema, row)
        comparison.expect(where, asked, line)
        t = type_at(root, path)
        if t.parts:
            continue
        kind, number, third = new_setting(t, value)
        set_cells = replaced(root, cells, path, answers.setting_of(kind, number, third))
        after = layouts.content(root, set_cells, (), rank)
        if value[0] == 'bytes':
            start = found[1]
            if after != row[:start] + third + row[start + len(third):]:
                differ('%s, a setting at %s alters more' % (where, path), schema, row)
        if not all_orders.accepted(root, after):
            differ('%s, not accepted after a setting at %s' % (where, path), schema, row)
        setting = request('s', schema, row, path, third=third, kind=kind, value=number)
        comparison.expect(where, setting, 'done ' + after.hex())


def new_setting(t, value):
    """Kind, value and bytes of a setting that the leaf takes: what no row here holds, or null."""
    if value[0] == 'bytes':
        return 5, 0, b'#' * len(value[1])
    return (2, 99, b'') if t.kind == INT else (0, 0, b'')


def all_shapes(comparison):
    tally = dict.fromkeys(('contents', 'orders', 'broken', 'sound'), 0)
    for shape in order_rows.shapes():
        for cells in shape.contents:
            tally['contents'] += 1
            all_rows(comparison, shape, cells, tally)
    return tally


def all_rows(comparison, shape, cells, tally):
    """All rows of these contents, and what they break into."""
    schema = shape.schema
    root = judge(schema)
    listing = layouts.listing_of(root, cells)
    made = order_rows.rows_in_all_orders(root, cells)
    field_order = next(iter(made))
    count = order_rows.row_count(root, cells)
    if len(made) != count:
        differ('all orders give %d rows, by hand %d' % (len(made), count), schema, field_order)
    written = request('w', schema, listing, room=len(field_order))
    comparison.expect('a listing', written, done_with(field_order))
    for row, ranks in made.items():
        tally['orders'] += 1
        where = 'a row in %s order' % ('field' if row is field_order else 'another')
        judged(comparison, schema, row, True, where)
        listed = request('l', schema, row, room=len(listing))
        comparison.expect(where, listed, done_with(listing))
        asked_everywhere(comparison, schema, cells, row, ranks.get, where)
        for broken, sound in order_rows.broken_rows(root, row) if shape.broken else ():
            tally['broken'] += 1
            where = 'a row broken at one place'
            tally['sound'] += judged(comparison, schema, broken, sound, where)
            if tally['broken'] % LISTED_EVERY == 0:
                place_listed(schema, broken, where)


def long_ones(comparison):
    """Rows of too many values for all orders; how they were made says whether they are sound."""
    sound = broken = 0
    for name, schema, listing, row in long_rows.sound_rows():
        sound += 1
        sorted_and_driven(comparison, schema, row, True, name)
        listed = request('l', schema, row, room=len(listing))
        comparison.expect(name, listed, done_with(listing))
    for name, schema, row in long_rows.broken_rows():
        broken += 1
        sorted_and_driven(comparison, schema, row, False, name)
    return sound, broken


def main():
    if sys.argv[1:2] == ['--cards'] and len(sys.argv) == 3:
        long_rows.write_cards(pathlib.Path(sys.argv[2]))
        return
    if len(sys.argv) < 2:
        sys.exit(__doc__)
    comparison = Comparison(sys.argv[1:])
    tally = all_shapes(comparison)
    sound, broken = long_ones(comparison)
    comparison.drive()
    print('any order: %(contents)d contents in all %(orders)d orders accepted, %(broken)d rows '
          'broken at one place (%(sound)d sound)' % tally, end='; ')
    print('%d long rows accepted, %d broken; %d requests agree'
          % (sound, broken, comparison.agreed))


main()
