#!/usr/bin/env python3
"""The card by the second reading of the documents, and the tool against it.

    second.py [--seed S] [--count N] [--batches M] [--pictures L] PROGRAM [WORDS..]

Runs the tool on the rows of N random check requests and on M random batches,
sound and damaged ones, and has it show L random rows, most of them damaged.
"""

import argparse
import os
import subprocess
import sys

sys.path.insert(0, os.path.join(os.path.dirname(__file__), '..', 'second'))
import batches
import requests
import rows
from damage import bad_row, bad_schema
from layouts import decode
from making import Chooser, sound_schema
from picture import picture
from scenes import some_scene
from schemas import BOOL, BYTES, FLOAT, INT, LIST, Null, Refused, judge


def contents(t, cell):
    if isinstance(cell, Null):
        return 'null'
    if t.kind == BYTES:
        return cell.hex() or '-'
    if t.kind == FLOAT:
        return cell[::-1].hex()
    return str(int.from_bytes(cell, 'little', signed=t.kind == INT))


def lines(t, cell, path, found):
    if isinstance(cell, Null) or t.kind in (BOOL, INT, FLOAT, BYTES):
        found.append('%s %s %s\n' % ('.'.join(map(str, path)), t.mark.decode(), contents(t, cell)))
        return
    for i, part in enumerate(cell):
        lines(t.parts[0] if t.kind == LIST else t.parts[i], part, path + (i,), found)


def parts(data):
    """The schema and what stands behind it."""
    size = int.from_bytes(data[:2], 'little')
    if len(data) < 2 + size:
        raise Refused(1)
    return data[2:2 + size], data[2 + size:]


def row_text(schema, row):
    root = judge(schema)
    found = []
    lines(root, decode(root, row, 0, len(row)), (), found)
    return ''.join(found)


def card(data):
    """What the tool prints for this input, and what it says of a row that breaks the layout."""
    try:
        schema, row = parts(data)
        rows.check(schema, row)
    except Refused as refused:
        return 'refused %d\n' % refused.number, 'the row is broken at byte %d\n' % refused.place if refused.number == 7 else ''
    return row_text(schema, row), ''


def where(data):
    """What the tool prints and says for this input under --where."""
    try:
        return picture(*parts(data))
    except Refused as refused:
        return 'refused %d\n' % refused.number, ''


# --- Batches --------------------------------------------------------------------

def cards(data):
    """What the tool prints for this input under --batch, and what it says of a refused row."""
    try:
        schema, batch = parts(data)
        batches.check(schema, batch)
    except batches.RowRefused as refused:
        how = 'broken at byte %d' % refused.place if refused.number == 7 else 'refused'
        return 'refused %d\n' % refused.number, 'row %d of the batch is %s\n' % (refused.row, how)
    except Refused as refused:
        return 'refused %d\n' % refused.number, ''
    return ''.join('row %d\n%s' % (k, row_text(schema, row)) for k, row in enumerate(batches.framed(batch))), ''


def random_batch(choose):
    """Up to four rows of one schema; in most batches one of them, the frames or the schema are damaged."""
    schema = sound_schema(choose)
    scenes = [some_scene(choose, schema, 20) for _ in range(choose.below(5))]
    found = [scene.row for scene in scenes]
    for _ in range(choose.below(3)):
        if scenes:
            k = choose.below(len(scenes))
            found[k] = bad_row(choose, scenes[k])[0] if choose.chance(0.8) else b''
    batch = batches.framing(found)
    p = choose.random()
    if p < 0.10:
        batch = batch[:choose.below(len(batch) + 1)]
    elif p < 0.15:
        batch += choose.junk(choose.below(9))
    elif p < 0.20:
        schema = bad_schema(choose, schema)
    return len(schema).to_bytes(2, 'little') + schema + batch


def checked_rows(seed, count):
    number = 0
    while True:
        for request in requests.portion(seed, number):
            if request.op == 'c':
                if count == 0:
                    return
                count -= 1
                yield len(request.schema).to_bytes(2, 'little') + request.schema + request.second
        number += 1


def random_batches(seed, count):
    for number in range(count):
        yield random_batch(Chooser('batches %d/%d' % (seed, number)))


def random_rows(seed, count):
    """Rows for pictures: in most of them the damage is at one place, so that much of the row can be named."""
    for number in range(count):
        choose = Chooser('pictures %d/%d' % (seed, number))
        scene = some_scene(choose, sound_schema(choose), 20)
        row = bad_row(choose, scene)[0] if choose.chance(0.8) else scene.row
        yield len(scene.schema).to_bytes(2, 'little') + scene.schema + row


def compare(name, inputs, program, expected):
    """Runs the program on each input, and answers how many of them it accepted; None where it prints something else."""
    accepted = 0
    for number, data in enumerate(inputs):
        want = expected(data)
        run = subprocess.run(program, input=data, stdout=subprocess.PIPE, stderr=subprocess.PIPE)
        got = run.stdout.decode('latin-1'), run.stderr.decode('latin-1')
        if got != want:
            print('DIFFERENT: %s %d\nexpected:\n%s%sprinted:\n%s%sinput: %s' % ((name, number) + want + got + (data.hex(),)))
            return None
        accepted += not want[0].startswith('refused') and not want[1]
    return accepted


def main():
    parser = argparse.ArgumentParser()
    parser.add_argument('--seed', type=int, default=1)
    parser.add_argument('--count', type=int, default=1000)
    parser.add_argument('--batches', type=int, default=500)
    parser.add_argument('--pictures', type=int, default=500)
    parser.add_argument('program', nargs='+')
    options = parser.parse_args()
    for name, inputs, count, program, expected in (
            ('row', checked_rows(options.seed, options.count), options.count, options.program, card),
            ('batch', random_batches(options.seed, options.batches), options.batches, options.program + ['--batch'], cards),
            ('picture', random_rows(options.seed, options.pictures), options.pictures, options.program + ['--where'], where)):
        accepted = compare('seed %d, %s' % (options.seed, name), inputs, program, expected)
        if accepted is None:
            return 1
        print('card: %d random inputs of a %s agree, %d of them accepted' % (count, name, accepted))
    return 0


if __name__ == '__main__':
    sys.exit(main())
