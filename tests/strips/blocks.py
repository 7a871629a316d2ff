#!/usr/bin/env python3
"""Block records that are the same on every run: blocks.py SEED COUNT. Most are idle, the rest data, control blocks of listed
and of other types, and bad headers, with octets at random."""
import random
import sys

seed, count = int(sys.argv[1]), int(sys.argv[2])
draw = random.Random(seed)
IDLE = bytes([1, 0x1E, 0, 0, 0, 0, 0, 0, 0])
TYPES = [0x1E, 0x78, 0x4B, 0x87, 0x99, 0xAA, 0xB4, 0xCC, 0xD2, 0xE1, 0xFF]
for _ in range(count):
    sort = draw.randrange(16)
    octets = draw.randbytes(8)
    if sort < 8:
        record = IDLE
    elif sort < 12:
        record = b"\x02" + octets
    elif sort < 14:
        record = bytes([1, draw.choice(TYPES)]) + octets[1:]
    elif sort == 14:
        record = b"\x01" + octets
    else:
        record = bytes([draw.choice([0, 3])]) + octets
    sys.stdout.buffer.write(record)
