"""Seeded random requests for the driver, sound ones and damaged ones.

Requests come in scenes.  A scene has one schema, contents for it, their
listing, and their row in field order or in some other, with junk under the
nulls; its requests use these as they are or damage them.  A damaged row is
asked about near the damage, because a random change at one place and a random
question at another seldom meet.
"""

import answers
import layouts
import rows
import schemas
from batch_requests import batch_scene
from catalogue_requests import catalogue_scene
from damage import bad_listing, bad_row, bad_schema, lengthened
from log_requests import log_scene
from making import Chooser, Contents, mark_bytes, root_cell, sound_schema, struct_tree
from scenes import Scene, full_scene, mostly_leaf, path_for, room_for, setting_for, some_scene
from schemas import BYTES, Null

PORTION = 1000

# The shares of scenes that are about batches, logs and catalogues: about a quarter, a tenth and a twelfth of the requests.
BATCHES = 0.25
LOGS = 0.1
CATALOGUES = 0.08


def portion(seed, number):
    """Requests number*PORTION up to (number+1)*PORTION of a seed's stream.

    Each portion starts afresh from the seed and its own number, so that one can
    be made again without those before it.
    """
    maker = Maker(Chooser('%d/%d' % (seed, number)))
    made = []
    while len(made) < PORTION:
        # One request beyond the driver's lengths would end the whole run.
        made.extend(filter(answers.within_rooms, maker.scene()))
    return made[:PORTION]


class Maker:
    """Makes the requests of one scene after another."""

    def __init__(self, choose):
        self.choose = choose
        self.before = None      # the scene before, whose schema fits this row seldom

    def scene(self):
        choose = self.choose
        p = choose.random()
        if p < BATCHES:
            return batch_scene(choose, self.before)
        if p < BATCHES + LOGS:
            return log_scene(choose)
        if p < BATCHES + LOGS + CATALOGUES:
            return catalogue_scene(choose)
        p = choose.random()
        if p < 0.06:
            return self.limit_scene()
        scene = some_scene(choose, sound_schema(choose), 20 + choose.below(60) if p < 0.95 else 400)
        # Long rows cost more than they show: fewer questions about each.
        made = self.requests(scene, 16 if len(scene.row) < 600 else 6)
        self.before = scene
        return made

    def limit_scene(self):
        """A few requests about a row or a listing at its very limit."""
        choose = self.choose
        p = choose.below(5)
        if p == 0:
            return self.long_listing()
        if p == 1:
            return self.long_list()
        return self.requests(full_scene(choose), 5)

    def long_list(self):
        """One long list or map, at the limit or just over it."""
        choose = self.choose
        element = choose.one((b'bo', b'i1', b'i2', b'i4', b'i8', b'f4', b'st', b'ro\x01i1', b'lii2'))
        is_map = choose.chance(0.3)
        schema = b'ro\x01' + (b'ma' + element + b'i1' if is_map else b'li' + element)
        root = schemas.judge(schema)
        array = root.parts[0].parts[0] if is_map else root.parts[0]
        one = array.parts[0]
        null = Null(bytes(one.room))
        # A null where the contents vary: then each element has one known size.
        sample = null if one.varying else Contents(choose, 0, 0).cell(one, one.room)
        other = Null(b'\0') if choose.chance(0.1) else b'\x05'

        def cells(n):
            made = [sample] * n
            return [[made, [other] * n]] if is_map else [made]

        low, high = 0, rows.ROW_LIMIT
        while low + 1 < high:
            middle = (low + high) // 2
            if len(layouts.content(root, cells(middle))) <= rows.ROW_LIMIT:
                low = middle
            else:
                high = middle
        n = low + choose.one((0, 0, 1, -1))
        return self.requests(Scene(schema, root, cells(n)), 3)

    def long_listing(self):
        """A listing at its limit: its row is always too long, but 2 comes before 3."""
        choose = self.choose
        tree = struct_tree(choose, 1, 3, 2) + ((choose.one((b'st', b'bi')),),)
        schema = mark_bytes(tree)
        root = schemas.judge(schema)
        cells = schemas.clean(root_cell(choose, root, 20))
        cells[-1] = b''
        short = len(layouts.listing_of(root, cells))
        made = []
        for size in (layouts.LISTING_LIMIT, layouts.LISTING_LIMIT + 1):
            cells[-1] = bytes(size - short)
            listing = layouts.listing_of(root, cells)
            room = choose.one((0, 24, 100))
            made.append(answers.request('w', schema, listing, room=room))
        made.append(answers.request('w', schema, listing + bytes(70000 - len(listing)), room=8))
        return made

    def requests(self, scene, count):
        return [self.request(scene) for _ in range(count)]

    def request(self, scene):
        choose = self.choose
        op = choose.one('jcccwwwllllssssssrrrrrroott')
        schema = scene.schema
        p = choose.random()
        if op == 'j':
            if p < 0.8:
                schema = bad_schema(choose, schema)
            return answers.request(op, schema)
        if p < 0.02:
            schema = bad_schema(choose, schema)
        elif p < 0.03 and self.before is not None:
            schema = self.before.schema
        if op == 'w':
            listing = scene.listing
            if choose.chance(0.5):
                listing = bad_listing(choose, scene)
            return answers.request(op, schema, listing, room=room_for(choose, len(scene.row)))
        near = ()
        row = scene.row
        if choose.chance(0.3 if op == 's' else 0.5 if op == 'l' else 0.65):
            row, near = bad_row(choose, scene)
        if choose.chance(0.004):
            row = lengthened(choose, row)
        if op == 'c':
            return answers.request(op, schema, row)
        if op == 'l':
            return answers.request(op, schema, row, room=room_for(choose, len(scene.listing)))
        path = path_for(choose, scene, near)
        if op == 't' and choose.chance(0.6):
            texts = [place[0] for place in scene.places if place[1].kind == BYTES]
            if texts:
                path = choose.one(texts)
        if op == 't':
            return answers.request(op, schema, row, path, third=choose.junk(choose.one((0, 1, 3, 8, 9))))
        if op == 's':
            path = mostly_leaf(choose, scene, path)
            kind, value, third = setting_for(choose, scene, path)
            return answers.request(op, schema, row, path, third=third, kind=kind, value=value)
        return answers.request(op, schema, row, path)
