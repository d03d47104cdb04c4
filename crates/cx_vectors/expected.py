#!/usr/bin/env python3
"""What the program of this crate has to print: crates/cx_vectors/expected.py < stdin > stdout

Prints the answer that stands in each row, once the ciphers of Python's package `cryptography` and the digests of its library, or the
definition where these have none, give the same: a row that is wrong stops it. It knows nothing of the crates.
"""

import hashlib
import hmac
import sys

from cryptography.exceptions import InvalidTag
from cryptography.hazmat.primitives.ciphers import Cipher, algorithms, modes
from cryptography.hazmat.primitives.ciphers.aead import AESGCM

HEAD = bytes.fromhex("0155aa2688ad9c00ff")
IV = b"cephsageyudagreg"
LONGEST = 1048576
MOST_SHOWN = 1000


def shown(data):
    if len(data) > MOST_SHOWN:
        return f"{len(data)} bytes ..{data[-16:].hex()}"
    return data.hex() or "-"


def bytes_of(word):
    pieces = [piece.partition("*") for piece in word.replace("-", "").split("+")]
    return b"".join(bytes.fromhex(digits) * int(times or 1) for digits, _, times in pieces)


def same(found, said):
    if found != said:
        raise SystemExit(f"the row says {said!r}, and it is {found!r}")
    return said


def aes(key, mode, data, back=False):
    cipher = Cipher(algorithms.AES(key), mode)
    under_way = cipher.decryptor() if back else cipher.encryptor()
    return under_way.update(data) + under_way.finalize()


def blocks(key, plain, cipher):
    return f"{same(aes(key, modes.ECB(), plain), cipher).hex()} back {plain.hex()}"


def times(a, b):
    """The product in GHASH's field, by its definition (SP 800-38D, 6.3)."""
    product = 0
    for place in range(127, -1, -1):
        if a >> place & 1:
            product ^= b
        b = b >> 1 ^ (0xE1 << 120 if b & 1 else 0)
    return product


def inverse(x):
    power = 1
    for _ in range(254):
        power = in_field(power, x)
    return power


def in_field(a, b):
    """The product in the field of AES (FIPS 197, 4.2)."""
    product = 0
    for _ in range(8):
        product ^= a if b & 1 else 0
        a, b = a << 1 ^ (0x11B if a & 0x80 else 0), b >> 1
    return product


def substituted(start, end):
    """The S-box by its definition (FIPS 197, 5.1.1)."""
    x = inverse(start[0])
    found = 0x63
    for turn in range(5):
        found ^= (x << turn | x >> 8 - turn) & 0xFF
    return f"{same(bytes([found]), end).hex()} back {start.hex()}"


def product(subkey, block, said):
    found = times(int.from_bytes(subkey, "big"), int.from_bytes(block, "big"))
    return same(found.to_bytes(16, "big"), said).hex()


def frame(key, nonce, plain, cipher, tag):
    same(AESGCM(key).encrypt(nonce, plain, None), cipher + tag)
    return f"{shown(cipher)} tag {tag.hex()} back {shown(plain)}"


def flipped_frame(key, nonce, plain):
    sealed = AESGCM(key).encrypt(nonce, plain, None)
    cipher, tag = sealed[:-16], sealed[-16:]

    def sign(data):
        try:
            AESGCM(key).decrypt(nonce, data, None)
        except InvalidTag:
            return "-"
        return "x"

    number = int.from_bytes(tag, "big")
    tags = "".join(sign(cipher + (number ^ 1 << bit).to_bytes(16, "big")) for bit in range(128))
    return f"tag {tags} text {''.join(sign(flipped(cipher, place, 0xFF) + tag) for place in range(len(cipher)))}"


def flipped(data, place, mask):
    return data[:place] + bytes([data[place] ^ mask]) + data[place + 1 :]


def sealed(key, content):
    plain = HEAD + content
    missing = 16 - len(plain) % 16
    return aes(key, modes.CBC(IV), plain + bytes([missing]) * missing)


def opened(key, data):
    """The content of an envelope, or None."""
    if not data or len(data) % 16:
        return None
    plain = aes(key, modes.CBC(IV), data, back=True)
    count = plain[-1]
    if not 1 <= count <= 16 or plain[-count:] != bytes([count]) * count:
        return None
    plain = plain[:-count]
    return plain[9:] if plain[:9] == HEAD else None


def envelope(key, content, said):
    if len(content) > LONGEST:
        return "too long"
    found = sealed(key, content)
    same(found[-len(said) :], said)
    also = f" and {found.hex()}" if len(content) == 16 else ""
    return f"{shown(found)}{also} back"


def opened_bytes(key, data):
    content = opened(key, data)
    return "unopened" if content is None else f"to {shown(content)}"


def flipped_envelope(key, content):
    found = sealed(key, content)
    tries = [opened(key, flipped(found, place, 1)) for place in range(len(found))]
    return "".join("-" if it is None else "x" if it == content else "o" for it in tries)


def crc32c(data):
    """The sum by its definition (RFC 3720, 12.1)."""
    total = 0xFFFFFFFF
    for byte in data:
        total ^= byte
        for _ in range(8):
            total = total >> 1 ^ (0x82F63B78 if total & 1 else 0)
    return total ^ 0xFFFFFFFF


def checksum(data, said):
    return same(crc32c(data).to_bytes(4, "big"), said).hex()


def code(key, text, said):
    return same(hmac.new(key, text, hashlib.sha256).digest(), said).hex()


def code_of_parts(key, text, said):
    return f"{code(key, text, said)} x{len(text) + 1}"


KINDS = {
    "aes": blocks,
    "aes-four": blocks,
    "sbox": substituted,
    "ghash": product,
    "gcm": frame,
    "gcm-schedule": frame,
    "gcm-flipped": flipped_frame,
    "cbc": envelope,
    "cbc-open": opened_bytes,
    "cbc-flipped": flipped_envelope,
    "crc32c": checksum,
    "hmac": code,
    "hmac-parts": code_of_parts,
}

for row in sys.stdin.read().splitlines():
    if not row or row.startswith("#"):
        print(row)
        continue
    kind, *words = row.split()
    print(kind, KINDS[kind](*map(bytes_of, words)))
