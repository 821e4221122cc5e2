"""Text: the table of RFC 3629, section 4, and which bytes a string or a binary may hold (request Q-7)."""

TAIL = (0x80, 0xBF)

# UTF8-1 to UTF8-4, a line for each of the table's alternatives: the first and the last of its first bytes, and from where to where each
# byte behind goes.
FORMS = (
    (0x00, 0x7F, ()),
    (0xC2, 0xDF, (TAIL,)),
    (0xE0, 0xE0, ((0xA0, 0xBF), TAIL)),
    (0xE1, 0xEC, (TAIL, TAIL)),
    (0xED, 0xED, ((0x80, 0x9F), TAIL)),
    (0xEE, 0xEF, (TAIL, TAIL)),
    (0xF0, 0xF0, ((0x90, 0xBF), TAIL, TAIL)),
    (0xF1, 0xF3, (TAIL, TAIL, TAIL)),
    (0xF4, 0xF4, ((0x80, 0x8F), TAIL, TAIL)),
)


def by_first_byte(forms):
    """What must stand behind each byte that a character may begin with."""
    return {first: behind for low, high, behind in forms for first in range(low, high + 1)}


BEHIND = by_first_byte(FORMS)


def awaited_after(awaited, data):
    """What must still come after these bytes where `awaited` must come first: () between two characters, None where they are no text."""
    for byte in data:
        if awaited:
            low, high = awaited[0]
            if not low <= byte <= high:
                return None
            awaited = awaited[1:]
        elif byte in BEHIND:
            awaited = BEHIND[byte]
        else:
            return None
    return awaited


def is_text(data):
    return awaited_after((), data) == ()


STRING_MARK = b'st'


def may_hold(t, data):
    """Whether a string or a binary of this type may hold these bytes: a string text alone, a binary any."""
    return t.mark != STRING_MARK or is_text(data)


# --- Python's own decoder ------------------------------------------------------

def decodes(data):
    """Whether Python's strict decoder takes these bytes: what the table above is held against."""
    try:
        data.decode('utf-8')
    except UnicodeDecodeError:
        return False
    return True


def may_hold_by_decoder(t, data):
    return t.mark != STRING_MARK or decodes(data)
