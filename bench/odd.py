"""Traces that say all that a trace may say, in odd spellings too: quotes, leading zeros, all line ends, a missing page."""

import random


def trace(lines, sectors, seed):
    """So many commands, as bytes."""
    seeded = random.Random(seed)
    return b"".join(line(seeded, int(seeded.random() * sectors)) for _ in range(lines))


def line(seeded, sector):
    percent = int(seeded.random() * 100)
    if percent < 4:
        count = int(seeded.random() * 9)
        return b'0,new,%d,%b\n' % (sector, seeded.randbytes(count).hex().upper().encode())
    if percent < 60:
        count = int(seeded.random() * 9)
        return b"0,write,%d,%b\n" % (sector, seeded.randbytes(count).hex().encode())
    if percent < 75:
        return b"0,read,%d,\n" % sector
    if percent < 80:
        return b"0,trim,%d,\n" % sector
    if percent < 82:
        return b"0,meet,0,\n"
    if percent < 86:
        return b'007,"read",%07d,\r\n' % sector
    if percent < 90:
        return b'0,write,"%d","aB"cD\r\r' % sector
    if percent < 94:
        return b'\n"1"2,"tr"im,%d,""\n' % sector
    if percent < 98:
        return b'499,write,%d,""\n' % sector
    return b'"00"0,"me"et,"0",\n'
