"""Frames under the keys of a connection, and what the monitor answers on an open link, by docs/formats.md and docs/rules.md. Nothing of it was
taken from the crates; what was recorded is made anew by it, and compared."""

import struct

from ciphers import crc, draw_of, enveloped, sealed

TYPES = {"mon": 1, "mds": 2, "osd": 4, "client": 8, "mgr": 16, "auth": 32}
TOLD = ("mds", "osd", "mgr")
TICKETS, ROTATING = 0x0200, 0x0400


# ---- encodings


def blob(data):
    return struct.pack("<I", len(data)) + data


def time(seconds):
    return struct.pack("<II", seconds, 0)


def key(secret):
    return struct.pack("<HIIH", 1, 0, 0, 16) + secret


def name(text):
    kind, identity = text.split(".", 1)
    return struct.pack("<I", TYPES[kind]) + blob(identity.encode())


def ticket_blob(generation, data):
    return b"\x01" + struct.pack("<Q", generation) + blob(data)


# ---- frames


def filled(data, size):
    return data + bytes(-len(data) % size)


def parts_of(tag, segments, late=b"\x0e"):
    """The plain parts of a secure frame."""
    head = bytes([tag, len(segments)])
    for i in range(4):
        head += struct.pack("<IH", len(segments[i]), 8) if i < len(segments) else bytes(6)
    head += bytes(2)
    parts = [head + crc(0, head) + segments[0][:48] + bytes(48 - len(segments[0][:48]))]
    if len(segments[0]) > 48:
        parts.append(filled(segments[0][48:], 16))
    if segments[1:]:
        parts.append(b"".join(filled(segment, 16) for segment in segments[1:]) + filled(late, 16))
    return parts


class Way:
    """One direction of a connection: its key, and the nonce of the next part."""

    def __init__(self, key, nonce):
        self.key, self.fixed, self.counter = key, nonce[:4], int.from_bytes(nonce[4:], "little")

    def copy(self):
        return Way(self.key, self.fixed + self.counter.to_bytes(8, "little"))

    def seal(self, parts):
        """These parts, one behind the other."""
        text = b""
        for part in parts:
            text += sealed(self.key, self.fixed + self.counter.to_bytes(8, "little"), part)
            self.counter += 1
        return text

    def frame(self, tag, *segments):
        return self.seal(parts_of(tag, segments))


def header(seq, tid, kind, rest=(127, 1, 0, 0, 0, 0, 1, 0)):
    return struct.pack("<QQHHHIHQBHH", seq, tid, kind, *rest)


def request(code, keys=None):
    return blob(struct.pack("<HB", code, 1) + (b"" if keys is None else struct.pack("<I", keys)))


def ticket_part(service, info, generation, data):
    return struct.pack("<IB", TYPES[service], 1) + blob(info) + ticket_blob(generation, data)


def ticket_list(parts):
    return blob(struct.pack("<HBI", TICKETS, 1, len(parts)) + b"".join(parts))


def told_generations(envelope):
    return blob(struct.pack("<H", ROTATING) + blob(envelope))


def ticket_info(service, session, created, expires):
    return b"\x02" + struct.pack("<I", TYPES[service]) + key(session) + time(created) + time(expires)


# ---- what the monitor keeps


class State:
    """A kept state: the next global id, the lives in seconds, and of each service its generations, each with its expiry in seconds."""

    def __init__(self, data):
        self.next_gid, *lives = struct.unpack("<QQQ", data[5:29])
        self.lives = [life // 10**9 for life in lives]
        self.generations, place = {}, 29
        for service in (*TOLD, "auth"):
            count, place = data[place], place + 1
            self.generations[service] = []
            for _ in range(count):
                number, expires = struct.unpack("<Q", data[place : place + 8])[0], struct.unpack("<I", data[place + 36 : place + 40])[0]
                self.generations[service].append((number, data[place + 20 : place + 36], expires))
                place += 44
        assert self.bytes() == data

    def bytes(self):
        text = b"cxst\x02" + struct.pack("<QQQ", self.next_gid, *(life * 10**9 for life in self.lives))
        for generations in self.generations.values():
            text += bytes([len(generations)]) + b"".join(struct.pack("<Q", n) + key(k) + time(e) for n, k, e in generations)
        return text

    def life(self, service):
        return self.lives[service == "auth"]

    def rotate(self, now, draw):
        """Of each service so many generations come behind the newest that the second of three is unexpired."""
        for i, service in enumerate(self.generations):
            keys = [draw[144 + 48 * i + 16 * j :][:16] for j in range(3)]
            while not self.is_full(service) and self.current(service, now) is None:
                self.grow(service, now, keys.pop(0))

    def grow(self, service, now, secret):
        old, life = self.generations[service], self.life(service)
        number, expires = (old[-1][0], max(now + life, old[-1][2])) if old else (0, now)
        self.generations[service] = (old + [(number + 1, secret, expires + life)])[-3:]

    def is_full(self, service):
        old = self.generations[service]
        return bool(old) and (old[-1][0] >= 2**64 - 4 or old[-1][2] >= 4200000000)

    def current(self, service, now):
        old = self.generations[service]
        return old[1] if len(old) == 3 and now < old[1][2] else None


class Bearer:
    """Who is at the other end of an open link: its name, its secret, its global id, the session key of its ticket for AUTH, and its caps."""

    def __init__(self, name, secret, gid, session, caps):
        self.name, self.secret, self.gid, self.session, self.caps = name, secret, gid, session, caps


class Monitor:
    """The monitor behind the logins: what it keeps, what it saved last, and how many tickets it issued."""

    def __init__(self, seed, state, issued):
        self.seed, self.state, self.saved, self.issued = seed, State(state), state, issued

    def replies(self, bearer, reading, number, code, keys=0):
        """What it gives for a request at the draw of this number: the body of its reply, or why there is none; the state that it saves, or
        none; and what it enters."""
        draw = draw_of(self.seed, number)
        self.state.rotate(reading, draw)
        if code == ROTATING:
            return self.tells(bearer)
        parts, lines, issued = [], [], self.issued
        for i, service in enumerate(TOLD):
            if not keys & TYPES[service] or service not in bearer.caps:
                continue
            current = self.state.current(service, reading)
            if current is None:
                return "ids-spent", None, []
            issued += 1
            part, line = self.ticket(bearer, reading, service, draw[96 + 16 * i :][:16], current)
            parts.append(part)
            lines.append(f"issued {issued} {line}")
        self.issued = issued
        return ticket_list(parts), *self.saves(lines)

    def ticket(self, bearer, reading, service, session, current):
        number, secret, _ = current
        caps, expires = bearer.caps[service], reading + self.state.life(service)
        content = b"\x01" + key(session) + name(bearer.name) + struct.pack("<Q", bearer.gid) + time(reading) + time(expires) + blob(caps.encode())
        info = enveloped(bearer.session, ticket_info(service, session, reading, expires))
        line = f'{bearer.name} {service} {bearer.gid} {number} {reading} {expires} "{caps}"'
        return ticket_part(service, info, number, enveloped(secret, content)), line

    def tells(self, bearer):
        service = bearer.name.split(".")[0]
        if service not in TOLD:
            return "not-a-daemon", None, []
        generations = self.state.generations[service]
        content = b"\x06" + struct.pack("<II", TYPES[service], len(generations))
        content += b"".join(struct.pack("<Q", n) + key(k) + time(e) for n, k, e in generations)
        return told_generations(enveloped(bearer.secret, content)), *self.saves([])

    def saves(self, lines):
        """The state is saved where it isn't what was saved last."""
        state = self.state.bytes()
        if state == self.saved:
            return None, lines
        self.saved = state
        return state, [f"saved {self.state.next_gid}", *lines]
