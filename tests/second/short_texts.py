"""Which sequences of one, two and three bytes Python's strict decoder takes: a bit each, in order, the first byte of a sequence counting most."""

import sys

from texts import decodes

BYTES = [bytes([byte]) for byte in range(256)]


def bits(before):
    """The 256 sequences that begin so, a bit each, the first in the lowest bit of the first byte."""
    return sum(decodes(before + byte) << number for number, byte in enumerate(BYTES)).to_bytes(32, 'little')


sys.stdout.buffer.write(bits(b''))
for a in BYTES:
    sys.stdout.buffer.write(bits(a))
for a in BYTES:
    for b in BYTES:
        sys.stdout.buffer.write(bits(a + b))
