"""Seeded random text of a given length in bytes, and bytes of that length that mostly are none."""

# Characters that are text although they look odd: NUL, the borders of each length, the neighbours of the surrogates, noncharacters, a byte order mark.
ODD = [chr(code).encode() for code in (
    0, 1, 0x7F, 0x80, 0x7FF, 0x800, 0xD7FF, 0xE000, 0xFDD0, 0xFEFF, 0xFFFD, 0xFFFE, 0xFFFF, 0x10000, 0x1FFFE, 0x1F600, 0xFFFFF, 0x10FFFF)]

# The code points of each length in bytes; the surrogates among those of three are none.
CODES = ((0x20, 0x7F), (0x80, 0x800), (0x800, 0x10000), (0x10000, 0x110000))
SURROGATES = range(0xD800, 0xE000)

# What stands for a character and is none: stray tails, overlong forms, surrogates, beyond the last code point, bytes that never come.
WRONG = [bytes.fromhex(word) for word in (
    '80 bf ff fe c0 c1 f5 f8 c080 c1bf c2c0 c27f e08080 e09fbf eda080 edbfbf e2827f e282c0 f0808080 f08fbfbf f4908080 f5808080 f09f987f').split()]

# Longer text is the same piece again and again.
PIECE = 61


def character(choose, length):
    low, high = CODES[length - 1]
    while True:
        code = low + choose.below(high - low)
        if code not in SURROGATES:
            return chr(code).encode()


def text_of(choose, size):
    """Text of exactly so many bytes: ASCII alone, characters of all lengths, or odd ones too."""
    if size > 2 * PIECE:
        return text_of(choose, PIECE) * (size // PIECE) + text_of(choose, size % PIECE)
    p = choose.random()
    if p < 0.35:
        return bytes(0x20 + choose.below(0x5F) for _ in range(size))
    made = b''
    while len(made) < size:
        left = min(4, size - len(made))
        if p < 0.7:
            made += character(choose, 1 + choose.below(left))
        else:
            made += choose.one([odd for odd in ODD if len(odd) <= left])
    return made


def bad_text_of(choose, size):
    """So many bytes that are no text, or seldom by chance: any bytes, one wrong byte or character, a character cut at the end."""
    p = choose.below(4)
    if size == 0 or p == 0:
        return choose.junk(size)
    text = text_of(choose, size)
    if p == 1:
        at = choose.below(size)
        return text[:at] + bytes([choose.one((text[at] ^ 1 << choose.below(8), 0x80, 0xBF, 0xC0, 0xE2, 0xED, 0xF4, 0xFF))]) + text[at + 1:]
    if p == 2:
        wrong = choose.one([wrong for wrong in WRONG if len(wrong) <= size])
        before = choose.below(size - len(wrong) + 1)
        return text_of(choose, before) + wrong + text_of(choose, size - before - len(wrong))
    cut = character(choose, 2 + choose.below(3))
    cut = cut[:1 + choose.below(len(cut) - 1)][:size]
    return text_of(choose, size - len(cut)) + cut


def string_bytes(choose, t, size, bad):
    """Bytes for a setting or a value of a string or a binary: of a string mostly text, `bad` being the chance of others; of a binary any."""
    if t.mark != b'st':
        return choose.junk(size)
    return bad_text_of(choose, size) if choose.chance(bad) else text_of(choose, size)
