#!/usr/bin/env python3
"""What the program repair prints, with a code of its own: products bit by bit, and a division by the generator.

    model.py COUNT
"""
import sys


def times(a, b):
    product = 0
    while b:
        if b & 1:
            product ^= a
        a <<= 1
        if a & 1024:
            a ^= 0x409
        b >>= 1
    return product


def generator():
    """The product of x - alpha^i for i below 30, coefficients from degree 30 down."""
    g, root = [1], 1
    for _ in range(30):
        g = [a ^ times(b, root) for a, b in zip(g + [0], [0] + g)]
        root = times(root, 2)
    return g


def codeword(message):
    g = generator()
    word = message + [0] * 30
    for i in range(514):
        lead = word[i]
        if lead:
            for j in range(31):
                word[i + j] ^= times(lead, g[j])
    return message + word[514:]


def main():
    count = min(int(sys.argv[1]), 544)
    seed = 1

    def symbol():
        nonlocal seed
        seed = (seed * 1664525 + 1013904223) % (1 << 32)
        return seed >> 22

    sent = codeword([symbol() for _ in range(514)])
    word = list(sent)
    print("encoded: true")
    for i in range(count):
        at = 17 * i % 544
        old = word[at]
        word[at] ^= 1 + symbol() % 1023
        print(f"symbol {at}: {old} became {word[at]}")
    changed = sum(a != b for a, b in zip(sent, word))
    if changed <= 15:
        print(f"corrected {changed} symbols; the word sent is back: true")
    else:
        print("refused: 8 0")


main()
