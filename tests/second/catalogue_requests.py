"""Seeded random requests about catalogues: schemas that are there, new ones and none, numbers given and not, sound catalogues and damaged ones.

A scene is one catalogue of 0 to 16 schemas, rows of some of them and one of a schema that is not there.
"""

import answers
import catalogue
import layouts
import rows
from damage import bad_listing, bad_row, bad_schema, flip, lengthened
from making import sound_schema
from scenes import mostly_leaf, path_for, room_for, setting_for, some_scene
from schemas import BYTES

COUNTS = (0, 1, 1, 2, 2, 3, 8, 15, 15, 16, 16)

# A longer row or listing costs more than it shows.
LONGEST = 4000


def catalogue_scene(choose):
    """Requests about one catalogue."""
    kept = different_schemas(choose, choose.one(COUNTS))
    new = different_schemas(choose, 1, kept)[0]
    # Each with its number; the new schema's is the first that is not given.
    numbers = {choose.below(len(kept) + 1) for _ in range(3)} | {len(kept)}
    scenes = [(number, small_scene(choose, (kept + [new])[number])) for number in sorted(numbers)]
    behind = some_rest(choose)
    return [catalogue_request(choose, kept, new, scenes, behind) for _ in range(16)]


def different_schemas(choose, count, beside=()):
    """So many schemas that keep their rules, no two alike and none of those beside."""
    made = []
    while len(made) < count:
        schema = sound_schema(choose)
        if schema not in made and schema not in beside:
            made.append(schema)
    return made


def small_scene(choose, schema):
    while True:
        scene = some_scene(choose, schema, 5 + choose.below(30))
        if len(scene.row) <= LONGEST:
            return scene


def catalogue_request(choose, kept, new, scenes, behind):
    op = choose.one('aaaaaxxxyyyvvvvWWII')
    lent = lent_bytes(kept, behind)
    if choose.chance(0.25 if op == 'a' else 0.12):
        lent = bad_catalogue(choose, kept, behind)
    if op == 'a':
        return answers.request(op, schema_to_add(choose, kept, new), lent)
    given = [place for place in scenes if place[0] < len(kept)]
    number, scene = choose.one(given) if given and choose.chance(0.9) else choose.one(scenes)
    number = some_number(choose, op, number, len(kept))
    if op == 'W':
        listing = bad_listing(choose, scene) if choose.chance(0.4) else long_listing(scene) if choose.chance(0.1) else scene.listing
        return answers.request(op, lent, listing, room=room_for(choose, len(scene.row)), value=number)
    row, near = bad_row(choose, scene) if choose.chance(0.3) else (scene.row, ())
    if choose.chance(0.06):
        row = lengthened(choose, row)
    if op == 'I':
        return answers.request(op, lent, row, room=room_for(choose, len(scene.listing)), value=number)
    if op == 'x':
        return answers.request(op, lent, row, room=number)
    path = path_for(choose, scene, near)
    if op == 'y':
        return answers.request(op, lent, row, path, room=number)
    path = mostly_leaf(choose, scene, path)
    kind, value, third = setting_for(choose, scene, path)
    return answers.request(op, lent, row, path, room=number, third=third, kind=kind, value=value)


def some_number(choose, op, number, count):
    """Mostly this one; an op with an output has a number of 64 bits."""
    if choose.chance(0.88):
        return number
    near = (count, count, count + 1, max(0, count - 1), choose.below(16), 16, 17, 255, 256 + number, 65536 + choose.below(16))
    far = (1 << 32, (1 << 32) + number, 1 << 63, (1 << 64) - 1, (1 << 64) - 16 + number) if op in 'WI' else (answers.OUT_ROOM,)
    return choose.one(near + far)


def long_listing(scene):
    """The listing with its first string or binary so long that the row is over its limit; as it is where the root has none."""
    for i, field in enumerate(scene.root.parts):
        if field.kind == BYTES:
            return layouts.listing_of(scene.root, scene.cells[:i] + [bytes(rows.ROW_LIMIT)] + scene.cells[i + 1:])
    return scene.listing


def schema_to_add(choose, kept, new):
    p = choose.random()
    if p < 0.35 and kept:
        return choose.one(kept)
    if p < 0.45 and kept:
        # Like one that is there but for a little; it may keep its rules.
        return choose.one((bad_schema(choose, choose.one(kept)), choose.one(kept)[:-2] + new[-2:]))
    return bad_schema(choose, new) if p < 0.55 else new


# --- Lent bytes --------------------------------------------------------------

def some_rest(choose):
    """What may lie behind the used bytes: nothing, or junk, or what looks like more schemas."""
    p = choose.below(3)
    if p == 0:
        return bytes(catalogue.LENGTH)
    return choose.junk(catalogue.LENGTH) if p == 1 else (b'\x05\0ro\x01i4\x07\0ro\x02stst' * 1200)[:catalogue.LENGTH]


def lent_bytes(kept, behind):
    """The catalogue of these schemas, with such bytes behind."""
    used = catalogue.used_bytes(kept)
    return used + behind[len(used):]


def bad_catalogue(choose, kept, behind):
    """Mostly bytes that no run of adding leaves, each wrong at one place; or a catalogue that is another one."""
    used = catalogue.used_bytes(kept)
    whole = lent_bytes(kept, behind)
    p = choose.below(12)
    if p < 2:
        return flip(choose, used) + whole[len(used):]
    if p == 2:
        # Zeros from some place on; of no place but the first and the last is that a catalogue.
        return used[:choose.below(len(used) + 1)].ljust(catalogue.LENGTH, b'\0')
    if p == 3:
        length = choose.one((catalogue.LENGTH - 1, catalogue.LENGTH + 1, 0, 1, len(used), catalogue.LENGTH - 2, 2 * len(used), 16384))
        return (whole + bytes(catalogue.LENGTH))[:length]
    if p == 4:
        return bytes([choose.one((17, 18, 32, 255, 128 + len(kept), 16 + len(kept)))]) + whole[1:]
    if p == 5 or not kept:
        return bytes([choose.one((len(kept) + 1, max(0, len(kept) - 1), choose.below(17)))]) + whole[1:]
    i = choose.below(len(kept))
    before, schema = kept[:i], kept[i]
    if p == 6:
        # A schema twice, right behind itself or further on, in the place of another or as one more.
        j = i + choose.below(len(kept) - i)
        others = kept[:j + 1] + [schema] + kept[j + 1 + choose.below(2):]
        return lent_bytes(others[:catalogue.SCHEMAS], behind)
    if p == 7:
        broken = bad_schema(choose, schema)
        rest = [other for other in kept[i + 1:] if other != broken]
        return (lent_bytes(before + [broken] + rest, behind) + bytes(catalogue.LENGTH))[:catalogue.LENGTH]
    if p == 8:
        # The schemas in another order, or without one: sound, and by other numbers.
        others = list(kept)
        choose.shuffle(others)
        return lent_bytes(others[choose.below(2):], behind)
    at = len(catalogue.used_bytes(before))
    sizes = (1025, 1026, 0xFFFF, catalogue.LENGTH - at, len(schema) + 1, len(schema) - 1, len(schema) + 2, 0, 256 * len(schema) % 65536,
             len(schema) + 256, len(schema) + 1024, 0x8000 + len(schema))
    return whole[:at] + choose.one(sizes).to_bytes(catalogue.SIZE, 'little') + whole[at + catalogue.SIZE:]
