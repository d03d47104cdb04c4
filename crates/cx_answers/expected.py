#!/usr/bin/env python3
"""What the program of this crate has to print: crates/cx_answers/expected.py < stdin > stdout

Reads the rows by the tables of docs/formats.md, on its own: nothing of it was taken from the crates. Envelopes are sealed and opened
by openssl.
"""

import re
import subprocess
import sys

KINDS = {1: "mon", 2: "mds", 4: "osd", 8: "client", 16: "mgr", 32: "auth"}
RANKS = {"auth": 1, "mds": 2, "osd": 3, "mgr": 4}
MOST_CUT = 1000


class Refused(Exception):
    """Why bytes are refused: a text, and the place of the field that is."""


class Fields:
    """Bytes that are read field by field. A field that can't be read is refused at its first byte."""

    def __init__(self, data, place=0):
        self.data, self.place = data, place

    def bytes(self, count, at=None):
        if self.place + count > len(self.data):
            raise Refused("short", self.place if at is None else at)
        self.place += count
        return self.data[self.place - count : self.place]

    def number(self, count, at=None):
        return int.from_bytes(self.bytes(count, at), "little")

    def good(self, at, holds):
        if not holds:
            raise Refused("bad", at)

    def fixed(self, count, number):
        at = self.place
        self.good(at, self.number(count) == number)

    def blob(self, at=None):
        at = self.place if at is None else at
        return self.bytes(self.number(4, at), at)

    def count(self, least, most):
        at = self.place
        count = self.number(4)
        self.good(at, least <= count <= most)
        return count

    def numbers(self):
        return [self.number(4) for _ in range(self.count(0, 16))]

    def kind(self, count=4):
        at = self.place
        number = self.number(count)
        self.good(at, number in KINDS)
        return KINDS[number]

    def flag(self):
        at = self.place
        number = self.number(1)
        self.good(at, number < 2)
        return "true" if number else "false"

    def moment(self):
        at = self.place
        seconds, nanos = self.number(4, at), self.number(4, at)
        self.good(at, nanos < 10**9)
        return seconds, nanos

    def time(self):
        seconds, nanos = self.moment()
        return seconds * 10**9 + nanos

    def key(self):
        at = self.place
        kind, seconds, nanos, length = (self.number(width, at) for width in (2, 4, 4, 2))
        secret = self.bytes(16, at)
        self.good(at, (kind, length) == (1, 16) and nanos < 10**9)
        return seconds, nanos, secret.hex()

    def session_key(self):
        at = self.place
        seconds, nanos, secret = self.key()
        self.good(at, seconds == nanos == 0)
        return secret

    def sized(self, count):
        at = self.place
        blob = self.blob()
        self.good(at, len(blob) == count)
        return blob.hex()

    def addr(self):
        at = self.place
        head = self.number(1, at), self.number(4, at)
        nonce, ip, port = self.number(4, at), self.bytes(4, at), self.number(2, at)
        self.good(at, head == (1, 2))
        return f"{'.'.join(map(str, ip))}:{port}/{nonce}"

    def addrs(self):
        self.fixed(4, 1)
        return self.addr()

    def name(self):
        at = self.place
        number, name = self.number(4, at), self.blob(at)
        self.good(at, number in KINDS)
        least = 0 if number == 1 else 1
        self.good(at, least <= len(name) <= 64 and re.fullmatch(rb"[A-Za-z0-9_.:+/-]*", name))
        return f"{KINDS[number]}.{name.decode()}"

    def ticket(self):
        at = self.place
        head, generation, blob = self.number(1, at), self.number(8, at), self.blob(at)
        self.good(at, head == 1)
        return f"{generation} {shown(blob)}"

    def tickets(self, count, last):
        told = ""
        for _ in range(count):
            at = self.place
            service = self.kind()
            rank = RANKS.get(service, 0)
            self.good(at, rank > last and (last > 0 or rank == 1))
            last = rank
            self.fixed(1, 1)
            told += f" ticket {service} info {shown(self.blob())} blob {self.ticket()}"
        return f"tickets{told}"

    def part(self):
        at = self.place
        part = self.blob()
        self.good(at, re.fullmatch(rb"[A-Za-z0-9_.-]{0,255}", part) and part != b"-")
        return shown(part)

    def data_blob(self):
        at = self.place
        blob = self.blob()
        self.good(at, len(blob) <= 65536)
        return shown(blob)

    def one_of(self, names):
        at = self.place
        number = self.number(1)
        self.good(at, number in names)
        return names[number]

    def named(self, names, count):
        return " ".join(f"{name} {self.number(count)}" for name in names.split())


def shown(data):
    if len(data) > MOST_CUT:
        return f"{len(data)} bytes {data[:4].hex()}..{data[-4:].hex()}"
    return data.hex() or "-"


def auth_request(f):
    method = f.number(4)
    modes = "".join(f" {mode}" for mode in f.numbers())
    return f"method {method} modes{modes} payload {shown(f.blob())}"


def auth_bad_method(f):
    method, result = f.number(4), -f.number(4) % 2**32
    f.numbers()
    f.numbers()
    return f"method {method} result {result}"


def client_ident(f):
    addr, target = f.addrs(), f.addr()
    return f"addr {addr} target {target} {f.named('gid global_seq supported required flags cookie', 8)}"


def header(f):
    told = f"{f.named('seq tid', 8)} {f.named('type', 2)}"
    for width in (2, 2, 4, 2, 8, 1, 2, 2):
        f.number(width)
    return told


def login_hello(f):
    f.fixed(1, 10)
    return f"name {f.name()} {f.named('gid', 8)}"


def server_challenge(f):
    f.fixed(1, 1)
    return f.named("challenge", 8)


def authenticate(f):
    f.fixed(2, 0x0100)
    version = f.one_of({2: 2, 3: 3})
    told = f.named("client_challenge key", 8)
    return f"version {version} {told} old_ticket {f.ticket()} {f.named('other_keys', 4)}"


def login_done(f):
    f.fixed(2, 0x0100)
    f.fixed(4, 0)
    f.fixed(1, 1)
    return f"{f.tickets(f.count(1, 2**32 - 1), 0)} connection_secret {shown(f.blob())}"


def authorizer(f):
    f.fixed(1, 1)
    return f"{f.named('gid', 8)} service {f.kind()} ticket {f.ticket()} authorize {shown(f.blob())}"


def operation(f):
    access = f.one_of({1: "read", 2: "write", 4: "exec"})
    return f"access {access} pool {f.part()} namespace {f.part()} object {f.part()} bytes {f.data_blob()}"


def request_content(f):
    at = f.place
    code = f.number(2)
    f.good(at, code in (0x0200, 0x0400))
    f.fixed(1, 1)
    return f"tickets {f.number(4)}" if code == 0x0200 else "rotating"


def reply_content(f):
    at = f.place
    code = f.number(2)
    f.good(at, code in (0x0200, 0x0400))
    if code == 0x0400:
        return f"rotating {shown(f.blob())}"
    f.fixed(1, 1)
    return f.tickets(f.number(4), 1)


def key(f):
    return "secs {} nanos {} secret {}".format(*f.key())


def numbers(f):
    told = [f.number(4) for _ in range(f.number(4))]
    return f"list {len(told)} numbers" if len(told) > MOST_CUT else "list" + "".join(f" {number}" for number in told)


def aes(way, key, data):
    command = ["openssl", "enc", way, "-aes-128-cbc", "-nopad", "-K", key.hex(), "-iv", b"cephsageyudagreg".hex()]
    return subprocess.run(command, input=data, capture_output=True, check=True).stdout


HEAD = b"\x01" + (0xFF009CAD8826AA55).to_bytes(8, "little")


def sealed(key, content):
    fill = 16 - (len(HEAD) + len(content)) % 16
    return aes("-e", key, HEAD + content + bytes([fill]) * fill)


def unsealed(key, envelope):
    if not envelope or len(envelope) % 16:
        raise Refused("unopened", None)
    plain = aes("-d", key, envelope)
    fill = plain[-1]
    body, end = plain[: len(plain) - fill], plain[len(plain) - fill :]
    if not 1 <= fill <= 16 or end != bytes([fill]) * fill or not body.startswith(HEAD):
        raise Refused("unopened", None)
    return body[len(HEAD) :]


def service_ticket(f):
    f.fixed(1, 1)
    told = f"session {f.session_key()} name {f.name()} {f.named('gid', 8)} created {f.time()} expires {f.time()}"
    at = f.place
    caps = f.blob()
    f.good(at, len(caps) <= 4096 and all(0x20 <= byte <= 0x7E and byte not in b'"\\' for byte in caps))
    return f"{told} caps {shown(caps)}"


def ticket_info(f):
    f.fixed(1, 2)
    return f"service {f.kind()} session {f.session_key()} created {f.time()} expires {f.time()}"


def authorize(f):
    f.fixed(1, 3)
    return f"{f.named('nonce', 8)} challenge {f.flag()} {f.number(8)}"


def sealed_challenge(f):
    f.fixed(1, 4)
    return f.named("challenge", 8)


def sealed_reply(f):
    f.fixed(1, 5)
    return f"{f.named('nonce_plus_one', 8)} secret {f.sized(64)}"


def rotating_reply(f):
    f.fixed(1, 6)
    told = f"service {f.kind()}"
    at = f.place
    count = f.number(4)
    f.good(at, count in (0, 3))
    before = None
    for _ in range(count):
        number = f.number(8)
        f.good(at, before in (None, number - 1))
        before = number
        told += f" id {number} key {f.session_key()} expires {f.time()}"
    return told


def connection_secret(f):
    f.fixed(1, 7)
    return f"secret {f.sized(64)}"


def life(f):
    at = f.place
    nanos = f.number(8)
    f.good(at, 10**9 <= nanos <= 31536000 * 10**9)
    return nanos


def generations(f):
    at = f.place
    count = f.number(1)
    f.good(at, count in (0, 3))
    told, last, latest = "", None, None
    for _ in range(count):
        at = f.place
        number = f.number(8)
        f.good(at, number >= 1 and last in (None, number - 1))
        secret = f.session_key()
        at = f.place
        expires = f.time()
        f.good(at, latest is None or expires > latest)
        last, latest = number, expires
        told += f" id {number} key {secret} expires {expires}"
    return told


def state(f):
    """The state that a monitor keeps. One of format 1 has no lives, and is read with those of 1 and 12 hours."""
    f.fixed(4, int.from_bytes(b"cxst", "little"))
    is_old = f.one_of({1: True, 2: False})
    at = f.place
    gid = f.number(8)
    f.good(at, gid >= 1)
    lives = OLD_LIVES if is_old else (life(f), life(f))
    told = f"gid {gid} life {lives[0]} auth_life {lives[1]}"
    return told + "".join(f" {service}{generations(f)}" for service in ("mds", "osd", "mgr", "auth"))


OLD_LIVES = 3600 * 10**9, 43200 * 10**9

RECORDS = {
    "service-ticket": service_ticket,
    "ticket-info": ticket_info,
    "authorize": authorize,
    "sealed-challenge": sealed_challenge,
    "sealed-reply": sealed_reply,
    "rotating-reply": rotating_reply,
    "connection-secret": connection_secret,
}


def record(kind, data):
    """A sealed record, by its key and its content; `open-KIND` by its key and its envelope."""
    key, rest = data[:16], data[16:]
    if len(key) < 16:
        raise Refused("no key", None)
    is_open = kind.startswith("open-")
    content = unsealed(key, rest) if is_open else rest
    try:
        told = read_to_the_end(RECORDS[kind.removeprefix("open-")], Fields(content))
    except Refused:
        raise Refused("misread", None) from None
    return told if is_open else f"{told} envelope {shown(sealed(key, content))}"


def proof(f):
    """What the client shows of its key: the exclusive or of the first four numbers of the length and the sealed challenges."""
    key, content = f.bytes(16), f.bytes(8) + f.bytes(8)
    data = (32).to_bytes(4, "little") + sealed(key, content)
    told = 0
    for at in range(0, 32, 8):
        told ^= int.from_bytes(data[at : at + 8], "little")
    f.place = len(f.data)
    return str(told)


READERS = {
    "hello": lambda f: f"kind {f.kind(1)} addr {f.addr()}",
    "auth-request": auth_request,
    "auth-bad-method": auth_bad_method,
    "auth-reply-more": lambda f: f"payload {shown(f.blob())}",
    "auth-request-more": lambda f: f"payload {shown(f.blob())}",
    "auth-done": lambda f: f"{f.named('gid', 8)} {f.named('mode', 4)} payload {shown(f.blob())}",
    "auth-signature": lambda f: f"signature {shown(f.bytes(32))}",
    "client-ident": client_ident,
    "server-ident": lambda f: f"addr {f.addrs()} {f.named('gid global_seq supported required flags cookie', 8)}",
    "ident-missing-features": lambda f: f.named("features", 8),
    "session-reconnect": lambda f: f"addr {f.addrs()} {f.named('client_cookie server_cookie global_seq connect_seq msg_seq', 8)}",
    "session-reset": lambda f: f"full {f.flag()}",
    "session-retry": lambda f: f.named("connect_seq", 8),
    "session-retry-global": lambda f: f.named("global_seq", 8),
    "session-reconnect-ok": lambda f: f.named("seq", 8),
    "wait": lambda f: "nothing",
    "keepalive2": lambda f: f"time {f.time()}",
    "keepalive2-ack": lambda f: f"time {f.time()}",
    "ack": lambda f: f.named("seq", 8),
    "login-hello": login_hello,
    "server-challenge": server_challenge,
    "authenticate": authenticate,
    "login-done": login_done,
    "authorizer": authorizer,
    "authorize-challenge": lambda f: f"sealed {shown(f.blob())}",
    "authorize-reply": lambda f: f"sealed {shown(f.blob())}",
    "state": state,
    "header": header,
    "operation": operation,
    "answer": lambda f: f"outcome {f.one_of({0: 0, 1: 1, 2: 2})} bytes {f.data_blob()}",
}

# Kinds of cx_enc, of which it is told in which way a field can't be read.
FIELDS = {
    "blob": lambda f: shown(f.blob()),
    "numbers": numbers,
    "name": lambda f: f.name(),
    "kind": lambda f: f.kind(),
    "flag": lambda f: f.flag(),
    "time": lambda f: "secs {} nanos {}".format(*f.moment()),
    "key": key,
    "ticket": lambda f: f.ticket(),
    "addr": lambda f: f.addr(),
    "proof": proof,
}


def read_to_the_end(reader, fields):
    meaning = reader(fields)
    if fields.place < len(fields.data):
        raise Refused("left over", fields.place)
    return meaning


def body(reader, data):
    """A body that is a blob, and in it a value to its end."""
    outer = Fields(data)
    content = outer.blob()
    try:
        meaning = read_to_the_end(reader, Fields(data[: outer.place], 4))
        if outer.place < len(data):
            raise Refused("left over", outer.place)
        return meaning
    except Refused:
        code = int.from_bytes(content[:2], "little")
        if len(content) >= 2 and code not in (0x0200, 0x0400):
            raise Refused("for the code", code) from None
        raise


BODIES = {"request": request_content, "reply": reply_content}


def meaning(kind, data):
    if kind in BODIES:
        return body(BODIES[kind], data)
    if kind.removesuffix("-content") in BODIES:
        return body(BODIES[kind.removesuffix("-content")], len(data).to_bytes(4, "little") + data)
    if kind == "empty":
        if data:
            raise Refused("left over", 41)
        return "nothing"
    if kind.removeprefix("open-") in RECORDS:
        return record(kind, data)
    return read_to_the_end(FIELDS.get(kind) or READERS[kind], Fields(data))


def told_of(kind, refused):
    how, place = refused.args
    if place is None:
        return how
    if kind in FIELDS or how == "for the code":
        return f"{how} at {place}" if kind in FIELDS else f"{how} {place}"
    return f"at {place}"


def written(kind, data):
    """The bytes that are written for what was read in these."""
    if kind == "auth-bad-method":
        return data[:8] + bytes.fromhex("01000000020000000100000002000000")
    if kind == "header":
        return data[:18] + bytes.fromhex("7f00010000000000000000000000000000000001000000")
    if kind == "state" and data[4] == 1:
        lives = b"".join(nanos.to_bytes(8, "little") for nanos in OLD_LIVES)
        return data[:4] + bytes([2]) + data[5:13] + lives + data[13:]
    return data[16:] if kind.startswith("open-") else data


def why(kind, data):
    try:
        meaning(kind, data)
        return "read"
    except Refused as refused:
        return told_of(kind, refused)


def cuts(kind, data):
    runs = []
    for length in range(len(data)):
        now = why(kind, data[:length])
        if runs and runs[-1][0] == now:
            runs[-1][1] += 1
        else:
            runs.append([now, 1])
    cut = "".join(f" {told} x{count}" for told, count in runs)
    return f"  cut{cut}; longer {why(kind, data + bytes(1))}"


def told(row):
    if not row or row.startswith("#"):
        return row
    kind, _, digits = row.partition(" ")
    data = b""
    for piece in digits.split():
        once, _, times = piece.partition("*")
        data += bytes.fromhex(once) * int(times or 1)
    try:
        lines = [f"{kind} {meaning(kind, data)}"]
    except Refused as refused:
        return f"{kind} refused {told_of(kind, refused)}"
    again = written(kind, data)
    lines.append("  written again" if again == data else f"  written as {shown(again)}")
    if len(data) <= MOST_CUT:
        lines.append(cuts(kind, data))
    return "\n".join(lines)


for line in sys.stdin.read().splitlines():
    print(told(line))
