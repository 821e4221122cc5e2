#!/usr/bin/env python3
"""What must hold of the second reading by itself, on random input.

    selftest.py [--seed S] [--scenes N]

A comparison says only that two programs differ; these checks make it likely
that this one is right, so that a difference is worth following.
"""

import argparse
import struct

import all_orders
import answers
import batches
import cases
import catalogue
import catalogue_checks
import faults
import layouts
import log_checks
import places
import requests
import rows
import schemas
import sequences
import strokes
import table
import table_checks
import text_checks
from batch_requests import bad_frames, batch_scene
from damage import bad_listing, bad_row
from making import Chooser, any_order, sound_schema
from scenes import path_for, setting_for, some_scene
from schemas import BYTES, LIST, MAP, Null
from trees import plain, replaced, tree_values


def refusal(call, *args):
    """The number that a call is refused with, None if it answers."""
    try:
        call(*args)
    except schemas.Refused as r:
        assert r.length == 0 or r.number == 4
        assert r.place == 0 or r.number == 7
        return r.number
    return None


def broken_place(call, *args):
    """The place that a call's 7 carries, None where it answers or is refused otherwise."""
    try:
        call(*args)
    except schemas.Refused as r:
        return r.place if r.number == 7 else None
    return None


def all_values(schema, row, paths):
    return {path: plain(row, rows.read(schema, row, path)) for path in paths}


class TooMany(Exception):
    pass


def rebuilt(root, row):
    """The row that the contents found by reading alone would give, or None.

    A row is sound exactly if this is the row itself: reading finds the contents
    of a sound row and where they stand, and the layout has one row for them in
    that order.  So the strict judge is held against the walk and the writer,
    which follow other rules.
    """
    ranks = {}

    # A sound row has fewer places than bytes; an unsound one may lead to
    # endlessly many.
    left = [2 * len(row) + 16]

    def cell(path):
        left[0] -= 1
        if left[0] < 0:
            raise TooMany
        place = rows.walk(root, row, path)
        if not place.null and place.type.varying:
            # Of two that start at one byte the empty one comes first.
            ranks[path] = (place.start, place.size > 0)
        if place.null:
            return Null(row[place.slot:place.slot + place.room])
        if place.type.kind == BYTES:
            return row[place.start:place.start + place.size]
        if not place.type.varying:
            return row[place.slot:place.slot + place.type.width]
        if place.count > left[0]:
            raise TooMany
        return [cell(path + (i,)) for i in range(place.count)]

    def equal_counts(t, c):
        if isinstance(c, Null) or not t.parts:
            return True
        if t.kind == MAP and len(c[0]) != len(c[1]):
            return False
        return all(equal_counts(t.parts[0] if t.kind == LIST else t.parts[i], part)
                   for i, part in enumerate(c))

    try:
        tree = cell(())
    except (schemas.Refused, TooMany):
        return None
    return layouts.content(root, tree, (), ranks.get) if equal_counts(root, tree) else None


def check_contents(root, schema, cells, row, listing):
    """Writing, listing back and reading of sound contents."""
    assert layouts.decode(root, row, 0, len(row)) == cells
    assert refusal(rows.check, schema, row) is None
    cleaned = schemas.clean(cells)
    assert layouts.parse_listing(root, listing) == cleaned
    assert layouts.listing_of(root, cleaned) == listing
    clean_row = layouts.content(root, cleaned)
    assert rows.write(schema, listing, len(row)) == clean_row
    assert rows.list_back(schema, row, len(listing)) == listing
    assert rows.list_back(schema, clean_row, len(listing)) == listing
    assert refusal(rows.write, schema, listing, len(row) - 1) == 4
    assert refusal(rows.list_back, schema, row, len(listing) - 1) == 4
    assert len(listing) <= 3 * len(row)
    values = {}
    tree_values(root, cells, (), values)
    assert all_values(schema, row, values) == values
    assert all_values(schema, clean_row, values) == values
    return values


def check_row(root, schema, row, tally):
    """Any row: accepted exactly if it is the row of its own contents, as trying all orders says."""
    number = refusal(rows.check, schema, row)
    if len(row) > rows.ROW_LIMIT:
        assert number == 3
        return False
    again = rebuilt(root, row)
    assert number == (None if again == row else 7), (schema, row, number)
    try:
        assert all_orders.accepted(root, row) == (number is None), (schema, row, number)
        tally['rows of which all orders were tried'] += 1
    except all_orders.TooMany:
        pass
    place = broken_place(rows.check, schema, row)
    assert place == faults.place(root, row), (schema, row, place)
    if number is not None:
        assert place <= len(row)
        assert broken_place(rows.list_back, schema, row, 70000) == place
        assert broken_place(rows.set_leaf, schema, row, (0,), None) == place
        return False
    cells = layouts.decode(root, row, 0, len(row))
    check_contents(root, schema, cells, row, layouts.listing_of(root, cells))
    return True


def check_read(root, schema, row, path):
    """A read of any row: its 7 has the place that the second account gives, and no other read has one."""
    if len(row) > rows.ROW_LIMIT or refusal(rows.type_at, root, path) is not None:
        return False
    place = broken_place(rows.read, schema, row, path)
    assert place == faults.place(root, row, path), (schema, row, path, place)
    return place is not None


def check_places():
    """The second account of places against those that were counted by hand, and on each bit of the document's rows."""
    for name, schema, row, place in places.broken_rows():
        root = schemas.judge(schema)
        assert faults.place(root, row) == place, name
        assert not all_orders.accepted(root, row), name
    for schema, row, path, line in places.READS:
        assert check_read(schemas.judge(schema), schema, row, path) == line.startswith('refused 7'), (schema, row, path)
    found = 0
    for _, schema, _, row, _ in table.WRITTEN:
        root = schemas.judge(schema)
        for bit in range(8 * len(row)):
            changed = bytearray(row)
            changed[bit // 8] ^= 1 << bit % 8
            place = broken_place(rows.check, schema, bytes(changed))
            assert place == faults.place(root, bytes(changed)), (schema, changed)
            found += place is not None
    return found


def check_set(choose, scene, cells, values):
    """One or two settings in a sound row."""
    schema, root, row = scene.schema, scene.root, scene.row

    def any_setting():
        path = path_for(choose, scene)
        if choose.chance(0.6):
            path = choose.one(list(values))
        kind, value, third = setting_for(choose, scene, path)
        return path, answers.setting_of(kind, value, third)

    path, setting = any_setting()
    try:
        rows.type_at(root, path)
        by_tree = layouts.content(root, replaced(root, cells, path, setting), (), scene.rank)
    except schemas.Refused as r:
        by_tree = r.number
    try:
        after = rows.set_leaf(schema, row, path, setting)
    except schemas.Refused as r:
        assert r.number == by_tree, (schema, row, path, setting)
        return None
    assert after == by_tree
    assert refusal(rows.check, schema, after) is None
    expected = dict(values)
    expected[path] = setting
    assert all_values(schema, after, values) == expected
    # The last of two settings of one place alone counts.
    kind, value, third = setting_for(choose, scene, path)
    other = answers.setting_of(kind, value, third)
    if refusal(rows.set_leaf, schema, row, path, other) is None:
        assert (rows.set_leaf(schema, after, path, other)
                == rows.set_leaf(schema, row, path, other))
    # Settings of two places commute, refused ones too.
    path2, setting2 = any_setting()
    if path2 != path:
        number = refusal(rows.set_leaf, schema, row, path2, setting2)
        assert refusal(rows.set_leaf, schema, after, path2, setting2) == number
        if number is None:
            assert (rows.set_leaf(schema, after, path2, setting2)
                    == rows.set_leaf(schema, rows.set_leaf(schema, row, path2, setting2), path, setting))
    return after


def check_scene(choose, tally):
    schema = sound_schema(choose)
    root = schemas.judge(schema)
    table_checks.check_table(schema)
    scene = some_scene(choose, schema, 20 + choose.below(60))
    cells = scene.cells
    if len(scene.row) > rows.ROW_LIMIT:
        assert refusal(rows.write, schema, scene.listing, 70000) == 3
        assert refusal(rows.check, schema, scene.row) == 3
        return
    values = check_contents(root, schema, cells, scene.row, scene.listing)
    assert check_row(root, schema, scene.row, tally)
    # The same contents in another order: as long, and read alike.
    other = layouts.content(root, cells, (), any_order(choose))
    assert len(other) == len(scene.row)
    assert check_contents(root, schema, cells, other, scene.listing) == values
    tally['places'] += len(values)
    for _ in range(8):
        row, near = bad_row(choose, scene)
        tally['damaged rows'] += 1
        tally['of them sound'] += check_row(root, schema, row, tally)
        for path in {path_for(choose, scene, near) for _ in range(3)}:
            tally['broken reads'] += check_read(root, schema, row, path)
    for _ in range(8):
        tally['settings'] += 1
        tally['of them done'] += check_set(choose, scene, cells, values) is not None
    # A damaged listing that is taken after all is the listing of what it gives.
    for _ in range(4):
        listing = bad_listing(choose, scene)
        tally['damaged listings'] += 1
        if refusal(rows.write, schema, listing, 70000) is None:
            tally['of them taken'] += 1
            row = rows.write(schema, listing, 70000)
            assert rows.list_back(schema, row, 70000) == listing
    # Requests of every kind are answered and survive their encoding.
    for req in requests.Maker(choose).requests(scene, 8):
        answers.answer(req)
        assert answers.decode(answers.encode(req)) == req
        assert answers.within_rooms(req)


# --- Batches -----------------------------------------------------------------

def whole_rows(batch):
    """The rows of a batch, None where it ends inside a size or a row; frames are taken off its front."""
    found = []
    while batch:
        if len(batch) < 4:
            return None
        size, = struct.unpack('>I', batch[:4])
        if size > len(batch) - 4:
            return None
        found.append(batch[4:4 + size])
        batch = batch[4 + size:]
    return found


def line_by_rows(req):
    """The line of a request about a batch, from the lines of requests about single rows."""
    op, schema, k = req.op, req.schema, req.room
    lent = ''
    if op == 'z':
        lent = ' ' + answers.hex_or_dash(req.second)
    if op == 'A':
        room = (req.second + b'\xaa' * req.room)[:req.room]
        lent = ' ' + answers.hex_or_dash(room)
    if op != 'n' and refusal(schemas.judge, schema) is not None:
        return 'refused 1 0' + lent
    found = whole_rows(req.second)
    if found is None or op == 'A' and len(req.second) > req.room:
        return 'refused 10 0' + lent
    if op == 'n':
        return 'count %d' % len(found)

    def checked(row):
        return answers.answer(answers.request('c', schema, row))

    if op == 'k':
        return next(('%s row %d' % (checked(row), i) for i, row in enumerate(found) if checked(row) != 'done'), 'done')
    if op == 'A':
        after = req.second + struct.pack('>I', len(req.third)) + req.third
        if checked(req.third) != 'done':
            return checked(req.third) + lent
        if len(after) > req.room:
            return 'refused 4 %d%s' % (len(after), lent)
        return 'done %d %s' % (len(after), (after + room[len(after):]).hex())
    if k >= len(found):
        return 'refused 5 0' + lent
    row, start = found[k], sum(len(earlier) + 4 for earlier in found[:k]) + 4
    if op == 'f':
        return 'bytes %d %d' % (start, len(row)) if checked(row) == 'done' else checked(row)
    if op == 'g':
        return answers.answer(req._replace(op='r', second=row))
    line = answers.answer(req._replace(op='s', second=row))
    if line.startswith('refused'):
        return ' '.join(line.split(' ')[:3]) + lent
    return 'done %s%s%s' % (req.second[:start].hex(), line.split(' ')[1], req.second[start + len(row):].hex())


def check_batch(choose, tally):
    """The framing and its inverse, every op against the rows by themselves, and taking apart."""
    made = batch_scene(choose, None)
    for req in made:
        line = answers.answer(req)
        assert line == line_by_rows(req), req
        tally['requests about batches'] += 1
        rows_there = whole_rows(req.second)
        assert refusal(batches.ranges, req.second) == (10 if rows_there is None else None)
        if rows_there is None:
            continue
        assert batches.framed(req.second) == rows_there
        assert batches.framing(rows_there) == req.second
        if req.op == 'k' and line == 'done':
            tally['batches taken apart'] += 1
            check_again(req.schema, req.second)
    # No frames but those of the rows themselves give their bytes.
    parts = [choose.junk(choose.below(12)) for _ in range(choose.below(5))]
    batch = batches.framing(parts)
    assert batches.framed(batch) == parts
    changed = bad_frames(choose, parts, batch)
    if changed != batch and whole_rows(changed) is not None:
        assert batches.framed(changed) != parts


def check_again(schema, batch):
    """An accepted batch, fetched row by row and appended again, in a room that has other bytes."""
    room, used = b'\x55' * len(batch), 0
    for k in range(batches.count(batch)):
        start, size = batches.fetch(schema, batch, k)
        room, used = batches.append(schema, room, used, batch[start:start + size])
        assert room == batch[:used] + b'\x55' * (len(batch) - used)
        assert batches.count(room[:used]) == k + 1
    assert room == batch


def check_numbers(req):
    """A refusal has one of its op's numbers, a length only with 4, a place with 7, a row's number only of a check of all."""
    words = answers.answer(req).split(' ')
    if words[0] == 'refused' and req.op != 't':
        assert int(words[1]) in answers.NUMBERS[req.op], req
        assert words[2] == '0' or words[1] in '47', req
        assert ('row' in words) == (req.op == 'k' and words[1] in '37'), req


def check_junk(rng):
    """Any bytes at all: an answer or a refusal, never anything else."""
    schema = rng.choice((b'ro\x02stli', b'ro\x01st', b'ro\x01mastst', b'ro\x01liro\x01bo',
                         rng.randbytes(rng.randrange(8))))
    data = rng.randbytes(rng.randrange(60))
    path = tuple(rng.randrange(3) for _ in range(rng.randrange(20)))
    refusal(schemas.judge, schema)
    refusal(rows.check, schema, data)
    refusal(rows.write, schema, data, 100)
    refusal(rows.list_back, schema, data, 100)
    refusal(rows.read, schema, data, path)
    rows.text_or(schema, data, path, b'')
    refusal(batches.fetch, schema, data, 0)
    refusal(batches.check, schema, data)
    refusal(batches.append, schema, data, rng.randrange(70), rng.randbytes(8))
    refusal(strokes.add, data, rng.randrange(70), strokes.Chord(rng.getrandbits(32), 1), rng.randrange(1200))
    refusal(strokes.numbers, bytes(3) + bytes([len(data)]) + data, 4)
    refusal(strokes.chord_at, data, 0)
    refusal(catalogue.add, data, schema)
    refusal(catalogue.schema_at, (bytes([rng.randrange(4), len(data), 0]) + data).ljust(catalogue.LENGTH, b'\1'), rng.randrange(4))
    refusal(batches.read, schema, bytes(3) + bytes([len(data)]) + data, 0, path)
    for setting in (None, ('null',), ('bool', 1), ('number', 5), ('float32', 1), ('bytes', b'x')):
        refusal(rows.set_leaf, schema, data, path, setting)
        refusal(batches.set_leaf, schema, bytes(3) + bytes([len(data)]) + data, 0, path, setting)


def main():
    parser = argparse.ArgumentParser()
    parser.add_argument('--seed', type=int, default=1)
    parser.add_argument('--scenes', type=int, default=3000)
    args = parser.parse_args()
    print('%d cases hold' % len(cases.requests_and_answers()))
    print('%d places of single bits agree' % check_places())
    print('%d slips with tables are found' % table_checks.check_slips())
    print('%d slips with logs are found' % log_checks.check_slips(log_checks.check_runs(args.seed)))
    print('%d slips with catalogues are found' % catalogue_checks.check_slips(catalogue_checks.check_runs(args.seed)))
    print('%d slips with text are found' % text_checks.check_slips())
    print('%d sequences of bytes are text as Python\'s decoder has it, or not' % (text_checks.check_short() + text_checks.check_borders()))
    choose = Chooser('selftest/%d' % args.seed)
    tally = dict.fromkeys(('places', 'damaged rows', 'of them sound', 'broken reads',
                           'rows of which all orders were tried', 'settings', 'of them done',
                           'damaged listings', 'of them taken', 'requests about batches', 'batches taken apart',
                           'requests about logs', 'chords added', 'requests about catalogues', 'schemas added'), 0)
    for number in range(args.scenes):
        check_scene(choose, tally)
        check_junk(choose)
        if number % 4 == 0:
            check_batch(choose, tally)
        if number % 10 == 0:
            log_checks.check_log(choose, tally)
            catalogue_checks.check_catalogue(choose, tally)
    for number in range(3):
        for req in table_checks.check_requests(args.seed, number):
            check_numbers(req)
    # Settings of the tree and of the bytes, and readings of both, many in a row.
    for number in range(30):
        for req, line in sequences.sequence(args.seed, number):
            assert answers.answer(req) == line
            assert answers.within_rooms(req)
            assert answers.decode(answers.encode(req)) == req
    print(', '.join('%s %d' % item for item in tally.items()))
    print('%d scenes hold' % args.scenes)


if __name__ == '__main__':
    main()
