#!/usr/bin/env python3
"""What has to be printed for the rows of standard input: a reader and a writer of banners and frames of its own, made from the
tables of docs/formats.md. It knows nothing of the crates. AES-GCM is that of the package `cryptography`."""
import struct
import sys

from streams import Streams
from cryptography.hazmat.primitives.ciphers.aead import AESGCM


def crc(seed, data):
    for byte in data:
        seed ^= byte
        for _ in range(8):
            seed = (seed >> 1) ^ (0x82F63B78 if seed & 1 else 0)
    return seed


def banner(digits):
    b = bytes.fromhex(digits)
    word = b"ceph v2\n"
    for place in range(min(8, len(b))):
        if b[place] != word[place]:
            return f"banner refused: no banner: byte {place} differs\n"
    if len(b) >= 10:
        (n,) = struct.unpack("<H", b[8:10])
        if not 16 <= n <= 256:
            return "banner refused: no banner: byte 8 differs\n"
    if len(b) < 10 or len(b) < 10 + n:
        return "banner not yet\n"
    supported, required = struct.unpack("<QQ", b[10:26])
    if required & ~1:
        return f"banner refused: features differ: {required & ~1}\n"
    if not supported & 1:
        return "banner refused: features differ: 1\n"
    again = word + struct.pack("<HQQ", 16, supported, required)
    how = "again" if again == b else "otherwise"
    return f"banner supported {supported} required {required} in {10 + n} bytes, written {how}; cut, not yet x{min(len(b), 10 + n)}\n"


class Refused(Exception):
    pass


def read_preamble(b, limit):
    if struct.unpack("<I", b[28:32])[0] != crc(0, b[:28]):
        raise Refused("a check sum is wrong")
    tag, count = b[0], b[1]
    segments = [struct.unpack("<IH", b[2 + 6 * i : 8 + 6 * i]) for i in range(4)]
    if not 1 <= tag <= 20 or not 1 <= count <= 4 or any(s != (0, 0) for s in segments[count:]) or b[26] or b[27]:
        raise Refused("the frame is badly shaped")
    if sum(s[0] for s in segments) > limit:
        raise Refused(f"the segments have {sum(s[0] for s in segments)} bytes")
    return tag, segments[:count]


def preamble(tag, segments):
    b = bytes([tag, len(segments)])
    for align, data in segments:
        b += struct.pack("<IH", len(data), align)
    b += bytes(6 * (4 - len(segments))) + bytes(2)
    return b + struct.pack("<I", crc(0, b))


def shown(tag, segments):
    hexed = lambda d: d.hex() if len(d) <= 64 else f"({len(d)} bytes)"
    return f"tag {tag}" + "".join(f" {a}:{hexed(d)}" for a, d in segments) + "\n"


def write_plain(tag, segments):
    b = preamble(tag, segments)
    first = segments[0][1]
    b += first + (struct.pack("<I", crc(0xFFFFFFFF, first)) if first else b"")
    if len(segments) > 1:
        b += b"".join(d for _, d in segments[1:]) + b"\x0e"
        for i in range(1, 4):
            b += struct.pack("<I", crc(0xFFFFFFFF, segments[i][1]) if i < len(segments) else 0)
    return b


def plain(digits):
    b = bytes.fromhex(digits)
    if len(b) < 32:
        return "plain: short\n"
    try:
        tag, heads = read_preamble(b[:32], 65536)
    except Refused as e:
        return f"plain refused: {e}\n"
    first = heads[0][0]
    want = (first + 4 if first else 0) + (sum(n for n, _ in heads[1:]) + 13 if len(heads) > 1 else 0)
    if len(b) - 32 != want:
        return f"plain: {len(b) - 32} bytes behind the preamble, not {want}\n"
    at = 32
    segments = []
    for i, (n, align) in enumerate(heads):
        segments.append((align, b[at : at + n]))
        at += n
        if i == 0 and n:
            if struct.unpack("<I", b[at : at + 4])[0] != crc(0xFFFFFFFF, segments[0][1]):
                return "plain refused: a check sum is wrong\n"
            at += 4
    if len(heads) > 1:
        late = b[at]
        if late != 0x0E:
            return "plain refused: " + ("the frame was aborted" if late == 1 else "the frame is badly shaped") + "\n"
        for i in range(1, 4):
            (stored,) = struct.unpack("<I", b[at + 4 * i - 3 : at + 4 * i + 1])
            if i < len(heads) and stored != crc(0xFFFFFFFF, segments[i][1]):
                return "plain refused: a check sum is wrong\n"
            if i >= len(heads) and stored:
                return "plain refused: the frame is badly shaped\n"
    assert write_plain(tag, segments) == b
    return "plain " + shown(tag, segments) + "  written again\n"


def up16(n):
    return (n + 15) // 16 * 16


def sizes(words):
    numbers = [int(w) for w in words.split()]
    return numbers[0], numbers[1:]


def plain_of(words):
    tag, lengths = sizes(words)
    if not 1 <= tag <= 20 or not 1 <= len(lengths) <= 4:
        return "plain-of: can't be announced\n"
    if sum(lengths) > 65536:
        return f"plain-of refused: the segments have {sum(lengths)} bytes, 0 bytes\n"
    n = 32 + (lengths[0] + 4 if lengths[0] else 0) + (sum(lengths[1:]) + 13 if len(lengths) > 1 else 0)
    return f"plain-of {n} bytes\n"


def ways(secret, side):
    at = 28 if side == "c" else 16
    return secret[:16], secret[at : at + 4], struct.unpack("<Q", secret[at + 4 : at + 12])[0]


def part_lengths(lengths):
    parts = [80]
    if lengths[0] > 48:
        parts.append(up16(lengths[0] - 48))
    if len(lengths) > 1:
        parts.append(sum(up16(n) for n in lengths[1:]) + 16)
    return parts


def secure_of(words):
    secret, words = words.split(" ", 1)
    tag, lengths = sizes(words)
    if not 1 <= tag <= 20 or not 1 <= len(lengths) <= 4:
        return "secure-of: can't be announced\n"
    _, _, counter = ways(bytes.fromhex(secret), "c")
    parts = part_lengths(lengths)
    if counter + len(parts) > 2**64 - 1:
        return "secure-of refused: the counter is spent, 0 bytes; kept: the counter is spent\n"
    if sum(lengths) > 1048576:
        return f"secure-of refused: the segments have {sum(lengths)} bytes, 0 bytes\n"
    return f"secure-of {sum(n + 16 for n in parts)} bytes\n"


def secure(words):
    digits, side, data = (words.split(" ") + [""])[:3]
    b = bytes.fromhex(data)
    whole = len(b)
    key, fixed, counter = ways(bytes.fromhex(digits), side)
    told = "secure\n"

    def opened(text):
        nonlocal counter
        try:
            plain_text = AESGCM(key).decrypt(fixed + struct.pack("<Q", counter), text, None)
        except Exception:
            raise Refused("a tag is wrong") from None
        counter += 1
        return plain_text

    kept = None
    while len(b) >= 96:
        begin = counter
        try:
            if counter + 1 > 2**64 - 1:
                raise Refused("the counter is spent")
            head = opened(b[:96])
            tag, heads = read_preamble(head[:32], 1048576)
            parts = part_lengths([n for n, _ in heads])
            want = sum(n + 16 for n in parts[1:])
            if len(b) - 96 < want:
                break
            if counter + len(parts) - 1 > 2**64 - 1:
                raise Refused("the counter is spent")
            at, plains = 96, []
            for n in parts[1:]:
                plains.append(opened(b[at : at + n + 16]))
                at += n + 16
            room = head[32:] + (plains[0] if heads[0][0] > 48 else b"")
            segments = [(heads[0][1], room[: heads[0][0]])]
            fill = room[heads[0][0] :]
            if len(heads) > 1:
                last = plains[-1]
                place = 0
                for n, align in heads[1:]:
                    segments.append((align, last[place : place + n]))
                    fill += last[place + n : place + up16(n)]
                    place += up16(n)
                fill += last[place + 1 :]
                late = last[place]
            if any(fill):
                raise Refused("the frame is badly shaped")
            if len(heads) > 1 and late != 0x0E:
                raise Refused("the frame was aborted" if late == 1 else "the frame is badly shaped")
        except Refused as e:
            kept = str(e)
            told += f"  refused: {kept}\n"
            break
        told += "  " + shown(tag, segments)
        b = b[at:]
    told += f"  left {len(b)}\n" if b else "  written again\n"
    return told + (f"  kept: {kept}\n" if kept else "")


KINDS = {"banner": banner, "plain": plain, "plain-of": plain_of, "secure": secure, "secure-of": secure_of}
STREAMS = Streams()
for row in sys.stdin.read().splitlines():
    if not row or row.startswith("#"):
        print(row)
        continue
    kind, words = row.split(" ", 1)
    if kind in KINDS:
        sys.stdout.write(KINDS[kind](words))
    else:
        STREAMS.told(row)
