"""A model of records, groups and scrambler, bit by bit, written from the rules alone.

It prints the cases that crates/group_cases tries, each with the model's answer."""
import random

TYPES = [0x1E, 0x78, 0x4B, 0x87, 0x99, 0xAA, 0xB4, 0xCC, 0xD2, 0xE1, 0xFF]
LETTERS = {0: "z", 1: "c", 2: "d", 3: "t", 16: "n"}


def bits_of(octets):
    return [(x >> i) & 1 for x in octets for i in range(8)]


def octets_of(bits):
    return bytes(sum(bits[8 * i + j] << j for j in range(8)) for i in range(len(bits) // 8))


def write(records):
    kinds = [r[0] for r in records]
    payloads = [b for r in records for b in bits_of(r[1:])]
    if all(k == 2 for k in kinds):
        return [1] + payloads
    if all(k in (1, 2) for k in kinds):
        c = kinds.index(1)
        return [0] + [k >> 1 for k in kinds] + payloads[: 64 * c + 4] + payloads[64 * c + 8 :]
    return [0, 1, 1, 1, 1] + payloads[:4] + payloads[8:]


def read(group):
    if group[0]:
        headers, payloads = [2] * 4, group[1:]
    else:
        flags, rest = group[1:5], group[5:]
        if all(flags):
            headers, payloads = [0, 3, 0, 3], rest[:4] + [0] * 4 + rest[4:]
        else:
            c = flags.index(0)
            low = sum(rest[64 * c + j] << j for j in range(4))
            fitting = [t for t in TYPES if t % 16 == low]
            high = fitting[0] // 16 if fitting else 0
            headers = [2 if f else 1 for f in flags]
            if not fitting:
                headers[c] = 3
            payloads = rest[: 64 * c + 4] + [(high >> j) & 1 for j in range(4)] + rest[64 * c + 4 :]
    return [bytes([headers[i]]) + octets_of(payloads[64 * i : 64 * i + 64]) for i in range(4)]


def sound(records):
    if any(r[0] in (0, 3) for r in records):
        return False
    return next((r[1] in TYPES for r in records if r[0] == 1), True)


def walk(data):
    at, index, text = 0, 0, ""
    while at < len(data):
        kind = data[at]
        if kind not in LETTERS:
            return f"{text}4:{index}."
        size = 3 if kind == 16 else 8
        if at + 1 + size > len(data):
            return f"{text}3:0."
        text += f"{index}{LETTERS[kind]}{data[at + 1 : at + 1 + size].hex()};"
        at, index = at + 1 + size, index + 1
    return text + "."


def scramble(start, stream, reverse=False):
    past = [(start >> k) & 1 for k in range(58)]
    out = []
    for b in stream:
        y = b ^ past[38] ^ past[57]
        out.append(y)
        past = [b if reverse else y] + past[:57]
    return out


def buffer(group):
    return bytes([group[0]]) + octets_of(group[1:])


def hexed(data):
    return data.hex() or "-"


def groups_text(stream):
    return b"".join(buffer(stream[i : i + 257]) for i in range(0, len(stream), 257)).hex()


def start_text(start):
    return start.to_bytes(8, "little").hex()


def four(records):
    data, group = b"".join(records), write(records)
    back = read(group)
    assert back == records or not sound(records)
    print(f"write - {data.hex()} {buffer(group).hex()}")
    print(f"sound - {data.hex()} {'yes' if sound(records) else 'no'}")
    print(f"read - {buffer(group).hex()} {b''.join(back).hex()}")


def group_or_refusal(data):
    """What a group is made of, or why none is made."""
    if len(data) != 36:
        return "length"
    records = [data[i : i + 9] for i in range(0, 36, 9)]
    bad = next((i for i in range(4) if records[i][0] > 3), None)
    return ("kind", bad) if bad is not None else write(records)


def block_or_refusal(data):
    return ("kind", data[0]) if data[0] > 3 else data


def bad_header(data):
    return data[0] if data[0] in (0, 3) else None


def same(what, model, a, b):
    print(f"{what} {hexed(a)} {hexed(b)} {'yes' if model(a) == model(b) else 'no'}")


def flipped(data, bit):
    changed = bytearray(data)
    changed[bit // 8] ^= 1 << bit % 8
    return bytes(changed)


def record(kind, body):
    return bytes([kind]) + body


def main():
    random.seed(7)
    octets = random.randbytes

    # every first octet of a control block
    for t in range(256):
        records = [record(2, octets(8)) for _ in range(4)]
        records[t % 4] = record(1, bytes([t]) + octets(7))
        four(records)

    # every pattern of headers
    for p in range(256):
        four([record((p >> 2 * i) & 3, random.choice([bytes([random.choice(TYPES)]) + octets(7), octets(8)])) for i in range(4)])

    # groups at random, with bits set that are not read
    for i in range(200):
        group = bytearray(octets(33))
        if i % 2:
            group[0] &= 0xFE
        if i % 3 == 0:
            group[1] |= 0x0F
        print(f"read - {group.hex()} {b''.join(read([group[0] & 1] + bits_of(group[1:]))).hex()}")

    # refusals
    good = b"".join(record(2, octets(8)) for _ in range(4))
    for n in (0, 1, 9, 35, 37, 72):
        print(f"write - {hexed((good * 2)[:n])} 3:0")
        print(f"sound - {hexed((good * 2)[:n])} 3:0")
    for n in (0, 1, 32, 34):
        print(f"read - {hexed(octets(n))} 3:0")
    for i in range(4):
        for kind in (4, 16, 255):
            data = bytearray(good)
            data[9 * i] = kind
            if i < 3:
                data[9 * i + 9] = 200
            print(f"write - {data.hex()} 4:{i}")
            print(f"sound - {data.hex()} 4:{i}")

    # walks: whole, with an unknown kind, and cut short
    for i in range(120):
        kinds = [random.choice(list(LETTERS)) for _ in range(random.randrange(6))]
        data = b"".join(record(k, octets(3 if k == 16 else 8)) for k in kinds)
        if i % 4 == 0:
            data += record(random.choice([4, 5, 15, 17, 255]), octets(random.randrange(4)))
        elif i % 4 == 1:
            data = data[: max(0, len(data) - random.randrange(1, 4))]
        print(f"walk - {hexed(data)} {walk(data)}")

    # the scrambler and its reverse over one to three groups
    for _ in range(40):
        start = random.getrandbits(58)
        stream = [random.getrandbits(1) for _ in range(257 * random.randrange(1, 4))]
        out = scramble(start, stream)
        print(f"scramble {start_text(start)} {groups_text(stream)} {groups_text(out)}")
        print(f"descramble {start_text(start)} {groups_text(out)} {groups_text(stream)}")
        print(f"descramble {start_text(start)} {groups_text(stream)} {groups_text(scramble(start, stream, True))}")
    single = [1] + [0] * 256
    print(f"scramble {start_text(0)} {groups_text(single)} {groups_text(scramble(0, single))}")
    for start in (2**58, 2**63, 2**64 - 1):
        print(f"scramble {start_text(start)} - 5:0")
        print(f"descramble {start_text(start)} - 5:0")

    # groups, refusals, blocks, kinds and bad headers beside others of their sort, as == tells them apart
    control = record(1, b"\x1e" + octets(7)) + good[9:]
    for data in (good, control):
        same("same_groups", group_or_refusal, data, data)
        for i in range(0, 288, 7):
            same("same_groups", group_or_refusal, data, flipped(data, i))
    same("same_groups", group_or_refusal, good, good[:35])
    same("same_groups", group_or_refusal, good[:9], good[:35])
    for i in range(4):
        for j in range(4):
            a, b = bytearray(good), bytearray(good)
            a[9 * i], b[9 * j] = 4, 16
            same("same_groups", group_or_refusal, bytes(a), bytes(b))
        same("same_groups", group_or_refusal, bytes(a), good[:35])
    for kind in range(6):
        data = record(kind, octets(8))
        same("same_blocks", block_or_refusal, data, data)
        for i in range(0, 72, 5):
            same("same_blocks", block_or_refusal, data, flipped(data, i))
        for other in range(6):
            same("same_headers", bad_header, data, record(other, octets(8)))


if __name__ == "__main__":
    main()
