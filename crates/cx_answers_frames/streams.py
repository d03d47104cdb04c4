#!/usr/bin/env python3
"""What has to be printed for the rows of streams; `expected.py` hands them on.

Reads the streams by docs/formats.md, on its own: nothing of it was taken from the crates. AES and GHASH are those of FIPS 197 and
SP 800-38D, bit by bit.
"""

import sys

NAMES = {0: "bad-crc", 1: "bad-shape", 2: "too-long", 3: "aborted", 4: "bad-tag"}


class Fault(Exception):
    pass


def times(a, b):
    product = 0
    while b:
        product ^= a if b & 1 else 0
        a = (a << 1) ^ (0x11B if a & 0x80 else 0)
        b >>= 1
    return product


def make_sbox():
    box = []
    for x in range(256):
        inverse = next((y for y in range(256) if times(x, y) == 1), 0)
        value = inverse
        for turn in range(1, 5):
            value ^= (inverse << turn | inverse >> (8 - turn)) & 0xFF
        box.append(value ^ 0x63)
    return box


SBOX = make_sbox()


def round_keys(key):
    words = [list(key[4 * i : 4 * i + 4]) for i in range(4)]
    constant = 1
    for i in range(4, 44):
        word = words[i - 1]
        if i % 4 == 0:
            word = [SBOX[b] for b in word[1:] + word[:1]]
            word[0] ^= constant
            constant = times(constant, 2)
        words.append([a ^ b for a, b in zip(words[i - 4], word)])
    return [sum(words[4 * r : 4 * r + 4], []) for r in range(11)]


def aes(keys, block):
    state = [a ^ b for a, b in zip(block, keys[0])]
    for turn in range(1, 11):
        state = [SBOX[state[(5 * i) % 16]] for i in range(16)]
        if turn < 10:
            mixed = []
            for c in range(0, 16, 4):
                w = state[c : c + 4]
                mixed += [times(w[i], 2) ^ times(w[(i + 1) % 4], 3) ^ w[(i + 2) % 4] ^ w[(i + 3) % 4] for i in range(4)]
            state = mixed
        state = [a ^ b for a, b in zip(state, keys[turn])]
    return bytes(state)


def product(x, y):
    z, v = 0, y
    for i in range(127, -1, -1):
        z ^= v if x >> i & 1 else 0
        v = v >> 1 ^ (0xE1 << 120 if v & 1 else 0)
    return z


def opened(keys, nonce, part):
    cipher, tag = part[:-16], part[-16:]
    stream = b"".join(aes(keys, nonce + (2 + i).to_bytes(4, "big")) for i in range((len(cipher) + 15) // 16))
    h = int.from_bytes(aes(keys, bytes(16)), "big")
    blocks = cipher + bytes(-len(cipher) % 16) + bytes(8) + (8 * len(cipher)).to_bytes(8, "big")
    digest = 0
    for i in range(0, len(blocks), 16):
        digest = product(digest ^ int.from_bytes(blocks[i : i + 16], "big"), h)
    mask = int.from_bytes(aes(keys, nonce + (1).to_bytes(4, "big")), "big")
    if tag != (digest ^ mask).to_bytes(16, "big"):
        raise Fault("bad-tag")
    return bytes(a ^ b for a, b in zip(cipher, stream))


def crc(seed, data):
    for byte in data:
        seed ^= byte
        for _ in range(8):
            seed = seed >> 1 ^ (0x82F63B78 if seed & 1 else 0)
    return seed.to_bytes(4, "little")


def preamble(data, limit):
    if crc(0, data[:28]) != data[28:32]:
        raise Fault("bad-crc")
    tag, count = data[0], data[1]
    pairs = [(int.from_bytes(data[2 + 6 * i : 6 + 6 * i], "little"), int.from_bytes(data[6 + 6 * i : 8 + 6 * i], "little")) for i in range(4)]
    if not 1 <= tag <= 20 or not 1 <= count <= 4 or any(p != (0, 0) for p in pairs[count:]) or data[26:28] != bytes(2):
        raise Fault("bad-shape")
    lengths = [p[0] for p in pairs[:count]]
    if sum(lengths) > limit:
        raise Fault("too-long")
    return tag, lengths


def late(status):
    if status == 1:
        raise Fault("aborted")
    if status != 0x0E:
        raise Fault("bad-shape")


def plain_frame(data):
    """The tag, the segments and the length of the frame at the front; None where it isn't all there."""
    if len(data) < 32:
        return None
    tag, lengths = preamble(data, 65536)
    end = 32 + (lengths[0] + 4 if lengths[0] else 0) + (sum(lengths[1:]) + 13 if lengths[1:] else 0)
    if len(data) < end:
        return None
    place, segments = 32, []
    for i, length in enumerate(lengths):
        segments.append(data[place : place + length])
        place += length
        if i == 0 and length:
            if crc(0xFFFFFFFF, segments[0]) != data[place : place + 4]:
                raise Fault("bad-crc")
            place += 4
    if lengths[1:]:
        late(data[place])
        for i in range(3):
            stored = data[place + 1 + 4 * i : place + 5 + 4 * i]
            if i + 1 < len(segments) and crc(0xFFFFFFFF, segments[i + 1]) != stored:
                raise Fault("bad-crc")
            if i + 1 >= len(segments) and stored != bytes(4):
                raise Fault("bad-shape")
    return tag, segments, end


def up16(n):
    return (n + 15) // 16 * 16


class Way:
    def __init__(self, secret, connector):
        at = 16 if connector else 28
        self.keys, self.fixed, self.counter = round_keys(secret[:16]), secret[at : at + 4], int.from_bytes(secret[at + 4 : at + 12], "little")

    def open(self, part):
        plain = opened(self.keys, self.fixed + self.counter.to_bytes(8, "little"), part)
        self.counter += 1
        return plain

    def frame(self, data):
        """The same of a secure frame. Its head is opened once."""
        if len(data) < 96:
            return None
        before = self.counter
        head = self.open(data[:96])
        tag, lengths = preamble(head, 1048576)
        second = up16(max(lengths[0] - 48, 0))
        last = sum(up16(n) for n in lengths[1:]) + 16 if lengths[1:] else 0
        end = 96 + (second + 16 if second else 0) + (last + 16 if last else 0)
        if len(data) < end:
            self.counter = before
            return None
        place = 96
        room = head[32:]
        if second:
            room += self.open(data[place : place + second + 16])
            place += second + 16
        tail = self.open(data[place:end]) if last else b""
        segments, fills = [room[: lengths[0]]], room[lengths[0] :]
        place = 0
        for length in lengths[1:]:
            segments.append(tail[place : place + length])
            fills += tail[place + length : place + up16(length)]
            place += up16(length)
        if any(fills) or any(tail[place + 1 :]):
            raise Fault("bad-shape")
        if last:
            late(tail[place])
        return tag, segments, end


def banner(data):
    word = b"ceph v2\n"
    if data[:8] != word[: len(data[:8])]:
        raise Fault("bad-banner")
    if len(data) < 10:
        return None
    length = int.from_bytes(data[8:10], "little")
    if not 16 <= length <= 256:
        raise Fault("bad-banner")
    if len(data) < 10 + length:
        return None
    supported, required = int.from_bytes(data[10:18], "little"), int.from_bytes(data[18:26], "little")
    if required > 1 or supported % 2 == 0:
        raise Fault("features")
    return supported, required, 10 + length


def tell(plains, connector, secret, data):
    """However the bytes are cut, this is what comes."""
    try:
        read = banner(data)
    except Fault as fault:
        print("fault", fault)
        print("over")
        return
    if read is None:
        print("end in the banner")
        return
    print("banner", read[0], read[1])
    place, way = read[2], Way(secret, connector)
    for number in range(1000):
        if number == plains:
            print("received", place)
        stage = "plain" if number < plains else "secure"
        try:
            frame = plain_frame(data[place:]) if number < plains else way.frame(data[place:])
        except Fault as fault:
            # a head that opened counts as taken
            opened_head = 96 if stage == "secure" and place + 96 <= len(data) and head_opens(plains, connector, secret, data, place, way) else 0
            print("fault", fault)
            print("fault", fault)
            print(f"end in {stage}, kept {len(data) - place - opened_head}")
            return
        if frame is None:
            held = 96 if stage == "secure" and len(data) - place >= 96 else 0
            print(f"end in {stage}, kept {len(data) - place - held}")
            return
        print("frame", frame[0], *(s.hex() or "-" for s in frame[1]))
        place += frame[2]


def head_opens(plains, connector, secret, data, place, way):
    """Whether the head at this place opened, where the frame was refused: the counter rose."""
    again = Way(secret, connector)
    again.counter = way.counter
    for counter in (way.counter, way.counter - 1, way.counter - 2, way.counter - 3):
        again.counter = counter
        try:
            preamble(again.open(data[place : place + 96]), 1048576)
            return True
        except (Fault, OverflowError):
            continue
    return False


class Streams:
    """The stream that was named last."""

    def __init__(self):
        self.sample = None

    def told(self, row):
        """Prints what is told of a row."""
        words = row.split(" ")
        if words[0] == "stream":
            self.sample = (int(words[1]), words[2] == "c", bytes.fromhex(words[3]), bytes.fromhex(words[4]))
            print("stream true")
            return
        print(row)
        plains, connector, secret, data = self.sample
        if words[0] == "break":
            place = int(words[1])
            data = data[:place] + bytes([data[place] ^ int(words[2])]) + data[place + 1 :]
        tell(plains, connector, secret, data)
