"""Catalogues laid out by hand: the used bytes of some schemas, and these lent with any bytes behind."""

import struct

LENGTH = 16417


def entry(schema, size=None):
    """A schema behind its size, or behind another one."""
    return struct.pack('<H', len(schema) if size is None else size) + schema


def used(*schemas):
    return bytes([len(schemas)]) + b''.join(map(entry, schemas))


def lent(data, behind=b'\0'):
    """All bytes that are lent: these, and behind them others over and over."""
    return (data + behind * LENGTH)[:LENGTH]
