"""Ciphers and sums, bit by bit: AES is that of FIPS 197, GCM that of SP 800-38D, CBC that of SP 800-38A, CRC-32C that of RFC 3720, ChaCha20 that
of RFC 8439."""

import functools
import struct


def times(a, b):
    product = 0
    while b:
        product ^= a if b & 1 else 0
        a = (a << 1) ^ (0x11B if a & 0x80 else 0)
        b >>= 1
    return product


def make_sbox():
    box = []
    for x in range(256):
        inverse = next((y for y in range(256) if times(x, y) == 1), 0)
        value = inverse
        for turn in range(1, 5):
            value ^= (inverse << turn | inverse >> (8 - turn)) & 0xFF
        box.append(value ^ 0x63)
    return box


SBOX = make_sbox()
TWICE = [times(x, 2) for x in range(256)]
THRICE = [times(x, 3) for x in range(256)]


@functools.cache
def round_keys(key):
    words = [list(key[4 * i : 4 * i + 4]) for i in range(4)]
    constant = 1
    for i in range(4, 44):
        word = words[i - 1]
        if i % 4 == 0:
            word = [SBOX[b] for b in word[1:] + word[:1]]
            word[0] ^= constant
            constant = times(constant, 2)
        words.append([a ^ b for a, b in zip(words[i - 4], word)])
    return [sum(words[4 * r : 4 * r + 4], []) for r in range(11)]


def aes(keys, block):
    state = [a ^ b for a, b in zip(block, keys[0])]
    for turn in range(1, 11):
        state = [SBOX[state[(5 * i) % 16]] for i in range(16)]
        if turn < 10:
            mixed = []
            for c in range(0, 16, 4):
                w = state[c : c + 4]
                mixed += [TWICE[w[i]] ^ THRICE[w[(i + 1) % 4]] ^ w[(i + 2) % 4] ^ w[(i + 3) % 4] for i in range(4)]
            state = mixed
        state = [a ^ b for a, b in zip(state, keys[turn])]
    return bytes(state)


def product(x, y):
    z, v = 0, y
    for i in range(127, -1, -1):
        z ^= v if x >> i & 1 else 0
        v = v >> 1 ^ (0xE1 << 120 if v & 1 else 0)
    return z


def sealed(key, nonce, plain):
    """A part of a secure frame: GCM without additional data, and its tag."""
    keys = round_keys(key)
    stream = b"".join(aes(keys, nonce + (2 + i).to_bytes(4, "big")) for i in range((len(plain) + 15) // 16))
    cipher = bytes(a ^ b for a, b in zip(plain, stream))
    h = int.from_bytes(aes(keys, bytes(16)), "big")
    blocks = cipher + bytes(-len(cipher) % 16) + bytes(8) + (8 * len(cipher)).to_bytes(8, "big")
    digest = 0
    for i in range(0, len(blocks), 16):
        digest = product(digest ^ int.from_bytes(blocks[i : i + 16], "big"), h)
    mask = int.from_bytes(aes(keys, nonce + (1).to_bytes(4, "big")), "big")
    return cipher + (digest ^ mask).to_bytes(16, "big")


def enveloped(key, content):
    """A sealed record: the envelope of its content, padded and encrypted by CBC."""
    plain = b"\x01" + struct.pack("<Q", 0xFF009CAD8826AA55) + content
    plain += bytes([16 - len(plain) % 16]) * (16 - len(plain) % 16)
    keys, last, cipher = round_keys(key), b"cephsageyudagreg", b""
    for i in range(0, len(plain), 16):
        last = aes(keys, bytes(a ^ b for a, b in zip(plain[i : i + 16], last)))
        cipher += last
    return cipher


def crc(start, data):
    """CRC-32C with this seed, and nothing inverted behind it (RFC 3720, B.4, has the polynomial)."""
    for byte in data:
        start ^= byte
        for _ in range(8):
            start = start >> 1 ^ (0x82F63B78 if start & 1 else 0)
    return struct.pack("<I", start)


def chacha_block(seed, counter):
    """The block of this number under a seed of eight bytes and 24 zeros."""
    key = struct.pack("<Q", seed) + bytes(24)
    state = [0x61707865, 0x3320646E, 0x79622D32, 0x6B206574] + list(struct.unpack("<8I", key)) + [counter, 0, 0, 0]
    work = list(state)

    def quarter(a, b, c, d):
        for x, y, z, turn in ((a, b, d, 16), (c, d, b, 12), (a, b, d, 8), (c, d, b, 7)):
            work[x] = (work[x] + work[y]) & 0xFFFFFFFF
            mixed = work[z] ^ work[x]
            work[z] = (mixed << turn | mixed >> (32 - turn)) & 0xFFFFFFFF

    for _ in range(10):
        quarter(0, 4, 8, 12)
        quarter(1, 5, 9, 13)
        quarter(2, 6, 10, 14)
        quarter(3, 7, 11, 15)
        quarter(0, 5, 10, 15)
        quarter(1, 6, 11, 12)
        quarter(2, 7, 8, 13)
        quarter(3, 4, 9, 14)
    return struct.pack("<16I", *((a + b) & 0xFFFFFFFF for a, b in zip(state, work)))


def secret_of(number):
    """The secret of the entity of this number."""
    return chacha_block(2**63 + number, 0)[:16]


def draw_of(seed, number):
    """The draw of this number of a node with this seed."""
    return b"".join(chacha_block(seed, 6 * number + i) for i in range(6))
