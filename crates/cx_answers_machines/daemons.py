"""Daemons of each type log in and ask for their generations: both sides computed by docs/formats.md and docs/rules.md. The login of an OSD that was
recorded is computed too, and compared."""

import functools
import hashlib
import hmac
import struct

from answering import ROTATING, TICKETS, TYPES, Bearer, Monitor, Way
from answering import blob, header, key, name, request, ticket_blob, ticket_info, ticket_part, time
from broken import plain
from ciphers import draw_of, enveloped, secret_of
from runs import event_told, heads_told, key_text, row_of

BANNER = b"ceph v2\n" + struct.pack("<HQQ", 16, 1, 1)
LIFE, AUTH_LIFE = 3600, 43200


def address(nonce=0, ip=bytes(4), port=0):
    return b"\x01" + struct.pack("<II", 2, nonce) + ip + struct.pack("<H", port)


def control(tag, segment):
    """A plain frame with one segment."""
    return plain(bytes([tag, 1]) + struct.pack("<IH", len(segment), 8) + bytes(20), segment)


def proof(secret, theirs, ours):
    """The exclusive or of the first four words of the sealed challenges, behind their length."""
    words = struct.unpack("<4Q", (struct.pack("<I", 32) + enveloped(secret, theirs + ours))[:32])
    return struct.pack("<Q", functools.reduce(lambda a, b: a ^ b, words))


def connection_of(draw):
    """The secret of a connection: its counters are 0, and the highest bits of the first bytes of its nonces differ."""
    secret = bytearray(draw[16:80])
    secret[20:28] = secret[32:40] = bytes(8)
    secret[16] &= 0x7F
    secret[28] |= 0x80
    return bytes(secret)


class Logins:
    """Daemons that log in to a monitor, one after the other, each on the link of its number: rows, each with what has to be printed for it."""

    def __init__(self, numbers):
        self.monitor = Monitor(0, first_state(), 0)
        self.lines, self.journal, self.numbers = [], [], numbers

    def row(self, what, told=()):
        words = what.split(" ")
        self.lines.append((f"at mon 1000 {self.numbers[len(self.lines)]} {what}", [f"mon {' '.join(words[:2])}", *told]))

    def number(self):
        """The number of the draw at which the next frame is handled."""
        return self.numbers[len(self.lines) + 1]

    def takes(self, link, frame, send=b"", save=None, entered=()):
        """A banner or a frame comes, and the monitor handles it at the draw that follows."""
        self.row(f"bytes {link} {frame.hex()}")
        told = [f"  save {save.hex()}"] if save else []
        told += [f"  entries {len(entered)}"] if entered else []
        self.journal += entered
        self.row(f"turn {link}", told + ([f"  send {link} {send.hex()}"] if send else []))

    def logs_in(self, link, entity, secret, challenge, cookie):
        """A daemon logs in, by what it draws: the monitor's draws are those of its turns."""
        kind = TYPES[entity.split(".")[0]]
        self.row(f"opened {link} None", [f"  send {link} {BANNER.hex()}"])
        hello, theirs = control(1, bytes([kind]) + address()), control(1, b"\x01" + address())
        self.takes(link, BANNER, theirs)
        self.takes(link, hello)
        asks = control(2, struct.pack("<3I", 2, 1, 2) + blob(b"\x0a" + name(entity) + bytes(8)))
        drawn = draw_of(0, self.number())[:8]
        more = control(4, blob(b"\x01" + drawn))
        self.takes(link, asks, more)
        proves = blob(b"\x00\x01\x02" + challenge + proof(secret, drawn, challenge) + ticket_blob(0, b"") + bytes(4))
        draw = draw_of(0, self.number())
        done, save, entered = self.granted(entity, secret, draw)
        session, connection = draw[80:96], connection_of(draw)
        out, into = Way(connection[:16], connection[16:28]), Way(connection[:16], connection[28:40])
        signed = out.frame(7, hmac.new(session, BANNER + hello + asks + control(5, proves), hashlib.sha256).digest())
        self.takes(link, control(5, proves), done + signed, save, entered)
        self.takes(link, into.frame(7, hmac.new(session, BANNER + theirs + more + done, hashlib.sha256).digest()))
        local = bytes([127, 0, 0, 1])
        ident = struct.pack("<I", 1) + address(link + 1, local) + address() + struct.pack("<6Q", self.monitor.state.next_gid - 1, 0, 0, 0, 1, cookie)
        self.takes(link, into.frame(8, ident), out.frame(9, struct.pack("<I", 1) + address(0, local, 6789) + struct.pack("<6Q", 0, 0, 0, 0, 1, 0)))
        return Bearer(entity, secret, self.monitor.state.next_gid - 1, session, {}), into, out

    def granted(self, entity, secret, draw):
        """AUTH_DONE with a ticket for AUTH, the state that is saved, and what is entered."""
        state, session = self.monitor.state, draw[80:96]
        state.rotate(1000, draw)
        gid, expires = state.next_gid, 1000 + AUTH_LIFE
        state.next_gid += 1
        self.monitor.issued += 1
        generation, sealing, _ = state.current("auth", 1000)
        content = b"\x01" + key(session) + name(entity) + struct.pack("<Q", gid) + time(1000) + time(expires) + blob(b"")
        info = enveloped(secret, ticket_info("auth", session, 1000, expires))
        tickets = struct.pack("<BI", 1, 1) + ticket_part("auth", info, generation, enveloped(sealing, content))
        payload = struct.pack("<HI", 0x0100, 0) + tickets + blob(enveloped(session, b"\x07" + blob(connection_of(draw))))
        done = control(6, struct.pack("<QI", gid, 2) + blob(payload))
        save, entered = self.monitor.saves([f'issued {self.monitor.issued} {entity} auth {gid} {generation} 1000 {expires} ""'])
        return done, save, entered

    def asks(self, link, ways, bearer, seq, code, keys=None):
        into, out = ways
        frame = into.frame(17, header(seq, seq, 17), request(code, keys))
        body, save, entered = self.monitor.replies(bearer, 1000, self.number(), code, keys or 0)
        self.takes(link, frame, out.frame(17, header(0, seq, 18), body), save, entered)


def first_state():
    return b"cxst\x02" + struct.pack("<3Q", 1, LIFE * 10**9, AUTH_LIFE * 10**9) + bytes(4)


def compared(run):
    """The recorded login of a daemon is what is computed of its draws."""
    rows = [(row_of(words), event_told(words, told)) for words, told in run.blocks if words[0] == "mon" and words[2] == "1"]
    frames = [bytes.fromhex(row.split(" ")[-1]) for row, _ in rows if " bytes " in row]
    idents = next(told for _, told in run.blocks if told and told[0].startswith("opened connection") and "0801520000" in told[0])
    cookie = bytes.fromhex(idents[1].split(" ")[5])[12:][26:34]
    logins = Logins([int(row.split(" ")[3]) for row, _ in rows])
    logins.logs_in(1, "osd.0", secret_of(2), frames[3][39:47], struct.unpack("<Q", cookie)[0])
    assert logins.lines == rows[: len(logins.lines)]


def tried_daemons(run):
    """An MDS, an OSD and an MGR at one monitor."""
    compared(run)
    entities = ("mds.a", "osd.0", "mgr.x")
    heads = []
    for i, entity in enumerate(entities):
        heads += [f"ring [{entity}]", f"ring key = {key_text(secret_of(i + 1))}"]
    heads.append(f"monitor 0 {LIFE} {AUTH_LIFE}")
    title = "# daemons: each type of daemon is told the generations of its own type"
    yield title, [title]
    yield from ((row, heads_told([row])) for row in heads)
    yield (row := f"again {len(heads)} the logins of an MDS, an OSD and an MGR"), [row]
    logins, links = Logins(range(1000)), []
    for i, entity in enumerate(entities):
        links.append(logins.logs_in(i + 1, entity, secret_of(i + 1), bytes([i + 1]) * 8, i))
    for seq in 1, 2:
        for i, (bearer, *ways) in enumerate(links):
            logins.asks(i + 1, ways, bearer, seq, *((ROTATING,) if seq == 1 else (TICKETS, 22)))
    yield from logins.lines
    yield "journal", logins.journal
