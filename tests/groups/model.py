#!/usr/bin/env python3
"""What the program groups prints of standard input, by arithmetic on long numbers; it shares nothing with the library.

    model.py < RECORDS
"""
import sys


def group(blocks):
    """The 257 bits of four blocks, bit 0 lowest. A block is a kind and eight octets."""
    bits = int.from_bytes(b"".join(octets for _, octets in blocks), "little")
    kinds = [kind for kind, _ in blocks]
    if kinds == [2, 2, 2, 2]:
        return 1 | bits << 1
    if 0 in kinds or 3 in kinds:
        flags, cut = 15, 4
    else:
        flags, cut = sum((kind == 2) << i for i, kind in enumerate(kinds)), 64 * kinds.index(1) + 4
    return flags << 1 | (bits % (1 << cut) | bits >> cut + 4 << cut) << 5


def main():
    data = sys.stdin.buffer.read()
    print(257)
    at, index, blocks = 0, 0, []
    while at < len(data):
        kind = data[at]
        size = 8 if kind < 4 else 3 if kind == 16 else None
        if size is None or kind == 16 and at + 4 <= len(data):
            print(4, index)
            sys.exit(1)
        if at + 1 + size > len(data):
            print(3, 0)
            sys.exit(1)
        blocks.append((kind, data[at + 1:at + 9]))
        at, index = at + 9, index + 1
        if len(blocks) == 4:
            bits = group(blocks)
            print(bits & 1, (bits >> 1).to_bytes(32, "little").hex())
            blocks = []
    if blocks:
        print(3, 0)
        sys.exit(1)


main()
