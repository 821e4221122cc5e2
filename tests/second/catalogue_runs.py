"""Seeded runs of one catalogue that two parties share: each adds from a list of its own, in any turn, and then uses the numbers that it was told.

Beside the lent bytes the schemas are kept in the order of their first adding:
what a run expects is laid out by hand from these.  Each request lends the used
bytes that the line before told, with other bytes behind.  Between the adds, and
at the end for every number, the same is asked by number and with the schema
itself, and must get the same line.
"""

import answers
from catalogue_bytes import LENGTH, used
from catalogue_requests import different_schemas, small_scene, some_rest
from damage import bad_row, bad_schema
from making import Chooser
from scenes import mostly_leaf, path_for, room_for, setting_for
from schemas import Refused, judge

# How many schemas each party adds, of which some are there already, and how many there are to choose from, in one run after another: few for many
# repeats, or more than there are places.
ADDS = 16
POOLS = (3, 8, 15, 17, 24, 40)

PLACES = 16


def catalogue_run(seed, number):
    """The requests of one run, each with the line that it must get."""
    return Run(Chooser('catalogue run/%d/%d' % (seed, number))).requests(POOLS[number % len(POOLS)])


class Run:
    def __init__(self, choose):
        self.choose = choose
        self.kept = []                 # the schemas by their numbers
        self.line = '00'               # the last line; an empty catalogue at first
        self.scenes = {}               # a row of each schema that was asked about
        self.made = []

    def requests(self, schemas):
        choose = self.choose
        pool = different_schemas(choose, schemas)
        left = [[choose.one(pool) for _ in range(ADDS)] for _ in range(2)]
        told = [{}, {}]
        while left[0] or left[1]:
            party = choose.one([party for party in (0, 1) if left[party]])
            self.add(left[party].pop(), told[party])
            # What the other was told before still holds.
            if told[1 - party]:
                self.ask(choose.one(sorted(told[1 - party])), told[1 - party], choose.one('xyvWI'))
        for numbers in told:
            for number in sorted(numbers):
                for op in 'xyvWI':
                    self.ask(number, numbers, op)
        self.ask_past_the_last()
        return self.made

    def add(self, schema, told):
        """One adding: the party keeps the number and the schema, if it is told one."""
        if self.choose.chance(0.05):
            schema = bad_schema(self.choose, schema)
        asked = answers.request('a', schema, self.lent())
        try:
            judge(schema)
        except Refused:
            answer = 'refused 1 0'
        else:
            if schema not in self.kept and len(self.kept) < PLACES:
                self.kept.append(schema)
            answer = 'refused 12 0'
            if schema in self.kept:
                number = self.kept.index(schema)
                told[number] = schema
                answer = 'number %d' % number
        self.line = '%s %s' % (answer, used(*self.kept).hex())
        self.made.append((asked, self.line))

    def lent(self):
        """The used bytes as the last line told them, and behind them something else than before."""
        told = bytes.fromhex(self.line.rpartition(' ')[2])
        return (told + some_rest(self.choose)[len(told):])[:LENGTH]

    def ask(self, number, told, op):
        """The same by number and with the schema that the party added, which the library must answer alike."""
        plain = self.question(told[number], answers.BY_NUMBER[op])
        line = answers.answer(plain)
        place = {'value': number} if op in 'WI' else {'room': number}
        self.made += [(plain, line), (plain._replace(op=op, schema=self.lent(), **place), line)]

    def question(self, schema, op):
        choose = self.choose
        if schema not in self.scenes:
            self.scenes[schema] = small_scene(choose, schema)
        scene = self.scenes[schema]
        if op == 'w':
            return answers.request(op, schema, scene.listing, room=room_for(choose, len(scene.row)))
        row, near = bad_row(choose, scene) if choose.chance(0.2) else (scene.row, ())
        if op == 'l':
            return answers.request(op, schema, row, room=room_for(choose, len(scene.listing)))
        if op == 'c':
            return answers.request(op, schema, row)
        path = path_for(choose, scene, near)
        if op == 'r':
            return answers.request(op, schema, row, path)
        path = mostly_leaf(choose, scene, path)
        kind, value, third = setting_for(choose, scene, path)
        return answers.request(op, schema, row, path, third=third, kind=kind, value=value)

    def ask_past_the_last(self):
        """The next number, which nobody was told; where all are there, one schema more, and one that is among them."""
        count = len(self.kept)
        self.made.append((answers.request('x', self.lent(), b'', room=count), 'refused 13 0'))
        if count == PLACES:
            new, = different_schemas(self.choose, 1, self.kept)
            old = self.choose.below(count)
            self.made.append((answers.request('a', new, self.lent()), 'refused 12 0 ' + used(*self.kept).hex()))
            self.made.append((answers.request('a', self.kept[old], self.lent()), 'number %d %s' % (old, used(*self.kept).hex())))
