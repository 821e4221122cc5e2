"""Contents as a tree: what each place reads as, and a setting of one leaf.

Reading and setting in rows.py go by the bytes of a row.  Here they go by the
contents, so that the two can be held against each other.
"""

from rows import fits
from schemas import BOOL, BYTES, FLOAT, INT, LIST, MAP, STRUCT, Null, Refused


def tree_values(t, cell, path, found):
    """What each path of the contents must read as, without ranges."""
    if isinstance(cell, Null):
        found[path] = ('null',)
    elif t.kind == BOOL:
        found[path] = ('bool', cell[0])
    elif t.kind == INT:
        found[path] = ('number', int.from_bytes(cell, 'little', signed=True))
    elif t.kind == FLOAT:
        found[path] = ('float%d' % (8 * t.width), int.from_bytes(cell, 'little'))
    elif t.kind == BYTES:
        found[path] = ('bytes', cell)
    else:
        found[path] = ('container', len(cell))
        for i, part in enumerate(cell):
            tree_values(t.parts[0] if t.kind == LIST else t.parts[i], part, path + (i,), found)


def plain(row, value):
    """An answer without its ranges: a string's bytes, a container's count."""
    if value[0] == 'bytes':
        return ('bytes', row[value[1]:value[1] + value[2]])
    if value[0] == 'container':
        return ('container', value[3])
    return value


def replaced(root, cell, path, setting):
    """The contents with one leaf set, or a refusal; by the tree, not by the bytes."""
    if not path:
        raise Refused(8)
    cell = list(cell)
    step = path[0]
    t = root.parts[0] if root.kind == LIST else root.parts[step]
    if step >= len(cell):
        raise Refused(5)
    part = cell[step]
    if len(path) > 1:
        if isinstance(part, Null):
            raise Refused(6)
        cell[step] = replaced(t, part, path[1:], setting)
        return cell
    if root.kind == MAP or not fits(t, setting):
        raise Refused(8)
    room = 8 if root.kind == STRUCT else t.room
    if setting[0] == 'null':
        if t.kind == BYTES and not isinstance(part, Null):
            raise Refused(9)
        cell[step] = Null(bytes(room))
    elif t.kind == BYTES:
        if isinstance(part, Null) or len(part) != len(setting[1]):
            raise Refused(9)
        cell[step] = setting[1]
    else:
        cell[step] = (setting[1] % (1 << 8 * t.width)).to_bytes(t.width, 'little')
    return cell
