"""Seeded random requests about batches: sound ones, broken frames, broken rows, and questions near both.

A scene is some rows of one schema, 0 to 6 of them, and one more to append.
"""

import answers
import batches
from damage import bad_row, bad_schema, cut, flip, grow, lengthened
from making import sound_schema
from scenes import full_scene, mostly_leaf, path_for, room_for, setting_for, some_scene

# A batch beyond this would crowd out the others in the driver's room.
LONGEST = 60000


def batch_scene(choose, before):
    """Requests about one batch; `before` is a scene of another schema, if there is one."""
    new = full_scene(choose) if choose.chance(0.03) else small_scene(choose, sound_schema(choose))
    scenes = [small_scene(choose, new.schema) for _ in range(choose.below(7))]
    if scenes and choose.chance(0.1):
        # The row to append is in the batch already: rows may be alike.
        scenes[choose.below(len(scenes))] = new
    while sum(len(scene.row) for scene in scenes) > LONGEST:
        scenes.pop()
    # Long batches cost more than they show: fewer questions about each.
    count = 16 if sum(len(scene.row) for scene in scenes + [new]) < 2000 else 6
    return [batch_request(choose, scenes, new, before) for _ in range(count)]


def small_scene(choose, schema):
    return some_scene(choose, schema, 5 + choose.below(30))


def batch_request(choose, scenes, new, before):
    op = choose.one('nffffkkkAAAAAggggggzzzzzzz')
    schema = new.schema
    p = choose.random()
    if p < 0.02:
        schema = bad_schema(choose, schema)
    elif p < 0.03 and before is not None:
        schema = before.schema
    k = row_number(choose, len(scenes))
    parts = [scene.row for scene in scenes]
    near = damage_rows(choose, op, scenes, parts, k)
    batch = batches.framing(parts)
    if choose.chance(0.5 if op == 'n' else 0.15):
        batch = bad_frames(choose, parts, batch)
    if op == 'A':
        return append_request(choose, schema, batch, new)
    if op in 'nk':
        return answers.request(op, schema, batch, room=choose.one((0, 0, 1, k)))
    if op == 'f':
        return answers.request(op, schema, batch, room=k)
    scene = scenes[k] if k < len(scenes) else new
    path = path_for(choose, scene, near)
    if op == 'g':
        return answers.request(op, schema, batch, path, room=k)
    path = mostly_leaf(choose, scene, path)
    kind, value, third = setting_for(choose, scene, path)
    return answers.request(op, schema, batch, path, room=k, third=third, kind=kind, value=value)


def row_number(choose, count):
    """Mostly a row that is there."""
    if count and choose.chance(0.85):
        return choose.below(count)
    return choose.one((count, count, count, count + 1, count + 2, 255, 256 + choose.below(6), 65535, 65536, answers.OUT_ROOM))


def damage_rows(choose, op, scenes, parts, k):
    """Damage some of the rows, row k more than others; the path near the damage in row k."""
    near = ()
    for i, scene in enumerate(scenes):
        if op == 'k':
            often = 0.8 / len(scenes)
        elif i == k:
            often = {'f': 0.6, 'g': 0.6, 'z': 0.25}.get(op, 0.1)
        else:
            often = 0.1
        if choose.chance(often):
            parts[i], around = bad_row(choose, scene)
            if i == k:
                near = around
        if choose.chance(0.02 if i == k or op == 'k' else 0.002):
            parts[i] = lengthened(choose, parts[i])
    return near


# --- Frames ------------------------------------------------------------------

def bad_frames(choose, parts, batch):
    """The rows in frames that mostly break, or that frame other rows."""
    p = choose.below(11)
    if p < 2 or not parts:
        return choose.one((cut, flip, grow))(choose, batch) if batch else choose.junk(choose.below(9))
    if p == 2:
        # A size cut short behind the last row, or nothing behind a size.
        return batch + choose.one((1, 16, 255, 0xFFFFFFFF)).to_bytes(4, 'big')[:1 + choose.below(4)]
    i = choose.below(len(parts))
    before, row, behind = batches.framing(parts[:i]), parts[i], batches.framing(parts[i + 1:])
    size = len(row).to_bytes(4, 'big')
    if p == 3:
        return before + size + behind
    if p == 4:
        return before + row + behind
    if p == 5:
        # A row of no bytes more.
        return before + bytes(4) + size + row + behind
    if p == 6:
        return before + size[::-1] + row + behind
    if p == 7:
        return before + flip(choose, size) + row + behind
    if p == 8:
        # Another row's size, or that of all that stands behind.
        other = choose.one((len(choose.one(parts)), len(row + behind), len(row + behind) + 1))
        return before + other.to_bytes(4, 'big') + row + behind
    wrong = choose.one((len(row) + 1, len(row) - 1, len(row) + 4, len(row) - 4, len(row) + 8, len(row) - 8, 0, 4, 16384, 16385,
                        0xFFFFFFFF, 0xFFFFFFFC, 0xFFFFFFF8, 0x80000000, 1 << 16, 1 << 24, (1 << 32) - len(before) - 4))
    return before + (wrong % (1 << 32)).to_bytes(4, 'big') + row + behind


def append_request(choose, schema, batch, new):
    row = new.row
    p = choose.random()
    if p < 0.25:
        row = bad_row(choose, new)[0]
    elif p < 0.30:
        row = lengthened(choose, row)
    elif p < 0.32:
        row = b''
    room = room_for(choose, len(batch) + batches.SIZE + len(row))
    p = choose.random()
    if p < 0.05:
        room = len(batch) + choose.below(5)
    elif p < 0.10 and batch:
        # Less than the batch, here and there up to the end of one of its rows.
        room = choose.one((len(batch) - 1, choose.below(len(batch)), batches.SIZE + int.from_bytes(batch[:batches.SIZE], 'big')))
    return answers.request('A', schema, batch, room=min(room, answers.OUT_ROOM), third=row)
