#!/usr/bin/env python3
"""A model of the sender that shares nothing with the library: bits are those of long numbers, codewords come from a
division by the generator, and lanes are filled symbol by symbol. It prints what the program strips has to print.

    model.py RATE SCRAMBLER-START PAD-START STATUS PREFIX < BLOCKS
"""
import hashlib
import sys

LETTERS_8 = """05D6B3C08C 04675ADE7E 46FE3EF356 5A848680D0 E1192A51F2 F24E124FD1 3DEE429CA1 2232D6765B"""
LETTERS_16 = """B6D90171F3 04675ADE7E 46FE3EF356 5A848680D0 E1192A51F2 F24E124FD1 3DEE429CA1 2232D6765B
    609FE17375 6BA271C43C FA0495EBD8 6C71226638 185BA2F695 14CC3197C3 D0B1CAFBA6 B456A6BA79"""
RATES = {"200": (8, 2048, LETTERS_8), "400": (16, 4096, LETTERS_16), "short": (8, 16, LETTERS_8)}


def markers(letters):
    for lane in letters.split():
        a, b, u, v, w = bytes.fromhex(lane)
        octets = [0x9A, 0x4A, 0x26, a, 0x65, 0xB5, 0xD9, b, u, v, w, b ^ 255, u ^ 255, v ^ 255, w ^ 255]
        yield int.from_bytes(bytes(octets), "little")


def times(a, b):
    product = 0
    while b:
        if b & 1:
            product ^= a
        a <<= 1
        if a & 1024:
            a ^= 0x409
        b >>= 1
    return product


def generator():
    """The product of x - alpha^i for i below 30, coefficients from degree 29 down; the leading 1 is left out."""
    g, root = [1], 1
    for _ in range(30):
        g = [a ^ times(b, root) for a, b in zip(g + [0], [0] + g)]
        root = times(root, 2)
    return g[1:]


def row(a, g):
    number = 0
    for coefficient in g:
        number = number << 10 | times(a, coefficient)
    return number


ROWS = [row(a, generator()) for a in range(1024)]
REGISTER = (1 << 300) - 1


def codeword(message):
    remainder = 0
    for symbol in message:
        remainder = (remainder << 10 & REGISTER) ^ ROWS[symbol ^ remainder >> 290]
    return message + [remainder >> 10 * (29 - i) & 1023 for i in range(30)]


def group(blocks):
    """The 257 bits of four blocks, bit 0 lowest. A block is a kind and eight octets."""
    payloads = b"".join(octets for _, octets in blocks)
    bits = int.from_bytes(payloads, "little")
    kinds = [kind for kind, _ in blocks]
    if all(kind == 2 for kind in kinds):
        return 1 | bits << 1
    if all(kind in (1, 2) for kind in kinds):
        flags, c = sum((kind == 2) << i for i, kind in enumerate(kinds)), kinds.index(1)
    else:
        flags, c = 15, 0
    cut = 64 * c + 4
    return flags << 1 | ((bits & (1 << cut) - 1) | bits >> cut + 4 << cut) << 5


class Scrambler:
    def __init__(self, start):
        # the bit k before the next at place 58 - k: the newest is the highest
        self.last = int(format(start, "058b")[::-1], 2)

    def pass_bits(self, bits, count):
        out, done = 0, 0
        while done < count:
            n = min(39, count - done)
            new = (bits >> done ^ self.last >> 19 ^ self.last) & (1 << n) - 1
            out |= new << done
            self.last = (self.last | new << 58) >> n
            done += n
        return out


def pad_bits(last, count):
    """The next pad bits and the nine last ones, the newest lowest."""
    out = 0
    for i in range(count):
        bit = (last >> 4 ^ last >> 8) & 1
        last = (last << 1 | bit) & 511
        out |= bit << i
    return out, last


def refused(rate, number, place, report):
    for line in report:
        print(line)
    print(number, place)
    sys.exit(1)


def main():
    name, scramble, pad, status, prefix = sys.argv[1:6]
    scramble, last_pad, status = int(scramble, 0), int(pad, 0), int(status, 0)
    lanes, period, letters = RATES[name]
    marker = list(markers(letters))
    if not (scramble < 1 << 58 and 1 <= last_pad <= 511 and status <= 7):
        refused(name, 5, 0, [])
    scrambler = Scrambler(scramble)
    data = sys.stdin.buffer.read()
    strips = [[] for _ in range(lanes)]
    at = pairs = blocks = 0
    refusal = None
    while at < len(data):
        opens = pairs % period == 0
        want = 160 - 2 * lanes if opens else 160
        records = data[at:at + 9 * want]
        bad = [i for i in range(0, len(records), 9) if records[i] > 3]
        if len(records) < 9 * want:
            refusal = (3, 0)
            break
        if bad:
            refusal = (4, blocks + bad[0] // 9)
            break
        message, size = 0, 0
        if opens:
            for k in range(12):
                for i in range(lanes):
                    lane = i ^ 1 if k % 2 else i
                    message |= (marker[lane] >> 10 * k & 1023) << size
                    size += 10
            count = {8: 65, 16: 133}[lanes]
            padding, last_pad = pad_bits(last_pad, count)
            message |= padding << size | status << size + count
            size += count + 3
        for i in range(0, len(records), 36):
            four = [(records[j], records[j + 1:j + 9]) for j in range(i, i + 36, 9)]
            message |= scrambler.pass_bits(group(four), 257) << size
            size += 257
        assert size == 10280
        octets = message.to_bytes(1285, "little")
        symbols = []
        for i in range(0, 1285, 5):
            five = int.from_bytes(octets[i:i + 5], "little")
            symbols += [five >> 10 * j & 1023 for j in range(4)]
        words = [iter(codeword(symbols[0::2])), iter(codeword(symbols[1::2]))]
        for k in range(1088 // lanes):
            for lane in range(lanes):
                strips[lane].append(next(words[(lane + k) % 2]))
        at += 9 * want
        pairs += 1
        blocks += want
    report = [f"pairs {pairs}", f"blocks {blocks}", f"bits a lane {pairs * 10880 // lanes}"]
    for lane, symbols in enumerate(strips):
        octets = bytearray()
        for i in range(0, len(symbols), 4):
            a, b, c, d = symbols[i:i + 4]
            octets += (a | b << 10 | c << 20 | d << 30).to_bytes(5, "little")
        report.append(f"{hashlib.sha256(octets).hexdigest()}  {prefix}{lane:02}")
    if refusal:
        refused(name, *refusal, report)
    for line in report:
        print(line)


main()
