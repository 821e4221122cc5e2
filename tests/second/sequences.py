"""Seeded runs of settings of one row or one batch, each after a setting checked and read.

The contents are kept as trees and the settings made there: a row is always the
one that its tree lays out, in the order that it began with, a batch holds the
rows of its trees, and a place reads as the tree holds it.
"""

import answers
import batches
import rows
from making import Chooser, sound_schema
from scenes import Scene, path_for, setting_for, some_scene
from schemas import Refused
from trees import plain, replaced, tree_values

SETTINGS = 30

# Every so many runs one is of a batch.
BATCH_EVERY = 3


def sequence(seed, number):
    """The requests of one run of settings, each with the line that it must get."""
    choose = Chooser('sequence/%d/%d' % (seed, number))
    return batch_sequence(choose) if number % BATCH_EVERY == 0 else row_sequence(choose)


def row_sequence(choose):
    scene = first_scene(choose)
    made = []
    for _ in range(SETTINGS):
        path, kind, value, third = setting_of_scene(choose, scene)
        asked = answers.request('s', scene.schema, scene.row, path, third=third, kind=kind, value=value)
        scene, refused = after_setting(scene, path, answers.setting_of(kind, value, third))
        made.append((asked, '%s %s' % (refused or 'done', answers.hex_or_dash(scene.row))))
        made.append((answers.request('c', scene.schema, scene.row), 'done'))
        for place, line in reads(choose, scene, path, 2):
            made.append((answers.request(choose.one('ro'), scene.schema, scene.row, place), line))
    return made


def batch_sequence(choose):
    """Settings in the rows of a batch; all rows are checked, and read in the row that was set and in the others."""
    first = first_scene(choose)
    schema = first.schema
    # Four rows at their limit still fit into the driver's room.
    scenes = [first] + [some_scene(choose, schema, budget(choose)) for _ in range(1 + choose.below(3))]
    # Of the first it is known that it is accepted and has a leaf to set.
    scenes = [scene for scene in scenes if len(scene.row) <= rows.ROW_LIMIT and leaves(scene)]
    choose.shuffle(scenes)
    batch = batches.framing([scene.row for scene in scenes])
    made = []
    for _ in range(SETTINGS):
        k = choose.below(len(scenes))
        path, kind, value, third = setting_of_scene(choose, scenes[k])
        asked = answers.request('z', schema, batch, path, room=k, third=third, kind=kind, value=value)
        scenes[k], refused = after_setting(scenes[k], path, answers.setting_of(kind, value, third))
        batch = batches.framing([scene.row for scene in scenes])
        made.append((asked, '%s %s' % (refused or 'done', answers.hex_or_dash(batch))))
        made.append((answers.request('k', schema, batch), 'done'))
        start = 0
        for i, scene in enumerate(scenes):
            for place, line in reads(choose, scene, path if i == k else None, 1):
                made.append((answers.request('g', schema, batch, place, room=i), line))
            start += batches.SIZE
            if i == k:
                made.append((answers.request('f', schema, batch, room=i), 'bytes %d %d' % (start, len(scene.row))))
            start += len(scene.row)
    return made


def budget(choose):
    return 20 + choose.below(60)


def first_scene(choose):
    """An accepted row with a leaf to set."""
    while True:
        scene = some_scene(choose, sound_schema(choose), budget(choose))
        if len(scene.row) <= rows.ROW_LIMIT and leaves(scene):
            return scene


def leaves(scene):
    return [path for path, t, _ in scene.places if not t.parts]


def setting_of_scene(choose, scene):
    """Nearly always of a leaf: what else a path may be, single requests try."""
    path = choose.one(leaves(scene)) if choose.chance(0.9) else path_for(choose, scene)
    return (path,) + setting_for(choose, scene, path)


def after_setting(scene, path, setting):
    """The scene after a setting of its tree, and the refusal if there is one."""
    try:
        rows.type_at(scene.root, path)
        cells = replaced(scene.root, scene.cells, path, setting)
    except Refused as r:
        return scene, answers.refusal(r)
    return Scene(scene.schema, scene.root, cells, scene.rank), None


def reads(choose, scene, path, others):
    """Readings of the place that was set, where there is one, and of some other leaves."""
    values = {}
    tree_values(scene.root, scene.cells, (), values)
    places = [path] if path in values else []
    places += [choose.one(leaves(scene)) for _ in range(others)]
    for place in places:
        value = rows.read(scene.schema, scene.row, place)
        assert plain(scene.row, value) == values[place], (scene.schema, scene.row, place)
        yield place, answers.value_line(value)
