"""The picture of a row by the second reading of the documents: its bytes, what they are, and the first wrong one.

What stands where is found by reading alone: a container's bitmap, header and
slots and a string's bytes are named where a read of their place finds it, so a
broken row has its names as far as the reads go.
"""

import rows
from schemas import BYTES, LIST, MAP, Refused, bitmap_size, judge

LINE = 8


class Names:
    """What each 8 bytes of a row are, by the place of the first of them."""

    def __init__(self, root, row):
        self.root, self.row = root, row
        self.found = {}
        self.follow(())

    def name(self, first, last, word, path, link=' of '):
        """Names the bytes from `first` up to `last`; what is named already keeps its name."""
        for at in range(first, last, LINE):
            ends_inside = last < at + LINE
            where = link + '.'.join(map(str, path)) if path else ''
            self.found.setdefault(at, word + ' and padding' * ends_inside + where)

    def follow(self, path):
        """Names what a place holds, if a read finds it, and then its children in order."""
        try:
            place = rows.walk(self.root, self.row, path)
        except Refused:
            return
        t = place.type
        if place.null or not t.varying:
            return
        start = place.start
        # In a broken row two places may start on one line: the second is named as far as there is room, and not followed.
        fresh = start not in self.found
        if t.kind == BYTES:
            self.name(start, start + place.size, 'text' if t.mark == b'st' else 'binary', path)
        elif t.kind == MAP:
            self.name(start, start + LINE, 'size of keys', path)
            if fresh:
                self.follow(path + (0,))
                self.follow(path + (1,))
        elif t.kind == LIST:
            self.name(start, start + LINE, 'count', path)
            self.children(start + LINE, place.count, t.parts * place.count, t.parts[0].room, path, fresh)
        else:
            self.children(start, place.count, t.parts, LINE, path, fresh)

    def children(self, bitmap, count, types, room, path, fresh):
        slots = bitmap + bitmap_size(count)
        slots_end = slots + count * room
        self.name(bitmap, slots, 'bitmap', path)
        for first in range(slots, slots_end, LINE):
            last = min(first + LINE, slots_end)
            word, link = ('slot', ' of ') if room == LINE else ('slots', ' from ')
            self.name(first, last, word, path + ((first - slots) // room,), link)
        for i, t in enumerate(types):
            if fresh and t.varying:
                self.follow(path + (i,))


def picture_of(root, row, place):
    """The lines of a row, and the mark under its first wrong byte where there is one."""
    names = Names(root, row).found
    lines = []
    for at in range(0, len(row), LINE):
        part = row[at:at + LINE]
        line = '%5d  %s' % (at, part.hex(' '))
        if at in names:
            line += '   ' * (LINE - len(part)) + '  ' + names[at]
        lines.append(line)
    if place is not None:
        mark = ' ' * (7 + 3 * (place % LINE)) + '^^'
        lines.insert(place // LINE + 1, mark)
    return ''.join(line + '\n' for line in lines)


def picture(schema, row):
    """What the tool prints for this row under --where, and what it says of one that breaks the layout."""
    root = judge(schema)
    rows.within_limit(row)
    place = None
    try:
        rows.check(schema, row)
    except Refused as refused:
        place = refused.place
    said = '' if place is None else 'the row is broken at byte %d\n' % place
    return picture_of(root, row, place), said
