"""A client's links to daemons by docs/formats.md and docs/rules.md: what a daemon sends on one, and what the client gives for it. Of a recorded run the
client's part is made anew by it, and compared."""

import copy
import hashlib
import hmac
import struct

from answering import Way, blob, header, parts_of
from asked import LAST, Play, given
from broken import Unit, units_of
from called import CALLED, CallerRun
from ciphers import crc, draw_of, enveloped
from hosted import BANNER, GuestScene, number, segments_of
from runs import event_told, place_of

NODE, DAEMON = "client.a", "osd.0"
FIRST, SECOND, THIRD = "3", "4", "5"
SEED = 1
MOST = 1024


def address(nonce, ip=b"\x7f\x00\x00\x01"):
    return b"\x01" + struct.pack("<II", 2, nonce) + ip + struct.pack("<H", 0)


OWN, NOBODY = address(1), address(0, bytes(4))


def plain_frame(tag, *segments, late=b"\x0e"):
    """A frame with check sums alone."""
    head = bytes([tag, len(segments)])
    for i in range(4):
        head += struct.pack("<IH", len(segments[i]), 8) if i < len(segments) else bytes(6)
    head += bytes(2)
    first, *others = segments
    text = head + crc(0, head) + first + (crc(0xFFFFFFFF, first) if first else b"")
    if others:
        sums = b"".join(crc(0xFFFFFFFF, other) for other in others)
        text += b"".join(others) + late + sums + bytes(12 - len(sums))
    return text


# ---- what a daemon sends


def hello(kind=4):
    return bytes([kind]) + NOBODY


def challenge_of(key, number_of):
    return blob(blob(enveloped(key, b"\x04" + number(number_of))))


def reply_content(nonce, secret):
    return b"\x05" + number((nonce + 1) % 2**64) + blob(secret)


def done(gid, mode, payload):
    return number(gid) + struct.pack("<I", mode) + blob(payload)


def server_ident(cookie, fields=(0, 0, 0, 0, 0), addr=None):
    return struct.pack("<I", 1) + (address(2) if addr is None else addr) + b"".join(map(number, fields)) + number(cookie)


def answer(outcome=0, data=b""):
    return bytes([outcome]) + blob(data)


SECRET = bytes(range(16)) + b"into" + bytes(8) + b"sent" + bytes(8) + bytes(24)


def ways_of(secret):
    """The way on which a daemon sends, and that on which the client does."""
    return Way(secret[:16], secret[16:28]), Way(secret[:16], secret[28:40])


# ---- what a client has


class Operation:
    """What a client is told to send: its words in a row, in a journal, and its bytes."""

    def __init__(self, words):
        self.row = " ".join(words)
        self.line = " ".join(word or "-" for word in words)
        access, pool, space, name, data = words
        data = b"" if data == "-" else bytes.fromhex(data)
        parts = pool.encode(), space.encode(), name.encode(), data
        self.body = bytes([{"read": 1, "write": 2, "exec": 4}[access]]) + b"".join(map(blob, parts))


def reads(name):
    return Operation(["read", "rbd", "", name, "-"])


class Session:
    def __init__(self, own, theirs, lossy):
        self.own, self.theirs, self.lossy, self.connects, self.last, self.waiting = own, theirs, lossy, 0, 0, []

    def takes(self, operation):
        self.last += 1
        self.waiting.append((self.last, operation))

    def acknowledged(self, seq):
        self.waiting = [(n, operation) for n, operation in self.waiting if n > seq]


class CallLink:
    """A link to a daemon: what was taken on it and sent, and what was drawn for it."""

    def __init__(self, daemon, lossy):
        self.daemon, self.lossy, self.taken, self.sent = daemon, lossy, b"", b""
        self.nonce = self.cookie = None
        self.is_open = False


class Shown:
    """What of a ticket is shown: all of an authorizer but what is sealed in it, and the session key."""

    def __init__(self, front, key):
        self.front, self.key = front, key

    def payload(self, nonce, challenge=None):
        flag, raised = (0, 0) if challenge is None else (1, (challenge + 1) % 2**64)
        return self.front + blob(enveloped(self.key, b"\x03" + number(nonce) + bytes([flag]) + number(raised)))


def shown_in(run):
    """What a run's client shows to its daemons."""
    for words, told in run.blocks:
        lines = [line for line in told if line.startswith("sealed session")]
        if words[0] == NODE and words[1] == "turn" and lines:
            sent = next(bytes.fromhex(line.split()[2]) for line in told if line.startswith("send "))
            end = 32 + 20 + 1 + 8 + 4 + 9
            end += 4 + struct.unpack("<I", sent[end : end + 4])[0]
            return Shown(sent[52:end], bytes.fromhex(lines[0].split()[3]))
    raise AssertionError


def frames_in(told, what):
    """The frames of which this was logged, each as its tag and its segments."""
    parts = [bytes.fromhex(line.split()[5])[12:] for line in told if line.startswith(f"{what} connection")]
    frames = []
    while parts:
        count = 1 + (struct.unpack("<I", parts[0][2:6])[0] > 48) + (parts[0][1] > 1)
        frames.append((parts[0][0], segments_of(parts[:count])))
        parts = parts[count:]
    return frames


class CallScene(GuestScene):
    """A run up to one of its events: what its client has by then."""

    def __init__(self, run, event):
        self.links, self.held, self.global_seq, self.dials, self.cookies, self.came = {}, {}, 0, {}, [], b""
        super().__init__(run, event)

    def happens(self, words, told):
        super().happens(words, told)
        if words[1] == "submit":
            self.told_to(words, told)
        if words[1] == "opened" and words[3] != "mon":
            self.links[words[2]] = CallLink(words[3], self.dials[words[3]])
        link = self.links.get(words[2])
        if link is None:
            return
        if words[1] == "bytes":
            self.came = bytes.fromhex(words[3])
        if words[1] == "turn":
            link.taken += self.came
            self.turned(link, told)
        if words[1] == "gone":
            if self.held[link.daemon].lossy:
                del self.held[link.daemon]
            del self.links[words[2]]
        link.sent += b"".join(bytes.fromhex(line.split()[2]) for line in told if line.startswith("send "))

    def told_to(self, words, told):
        if words[2] == "connect" and f"open {words[3]}" in told:
            self.global_seq += 1
            self.dials[words[3]] = words[4] == "True"
        if words[2] == "send" and "entry sent" in told:
            session = self.held[words[3]]
            session.takes(Operation(words[4:9]))
            if session.own not in self.cookies:
                self.cookies.append(session.own)

    def turned(self, link, told):
        for line in told:
            if line.startswith("drawn nonce"):
                link.nonce = int.from_bytes(bytes.fromhex(line.split()[2]), "little")
            if line.startswith("drawn cookie"):
                link.cookie = int.from_bytes(bytes.fromhex(line.split()[2]), "little")
        for tag, segments in frames_in(told, "sealed"):
            if tag == 11:
                self.held[link.daemon].connects = struct.unpack("<Q", segments[0][43:51])[0]
        for tag, segments in frames_in(told, "opened"):
            value = struct.unpack("<Q", segments[0][-8:])[0] if len(segments[0]) >= 8 else None
            if tag == 9:
                self.held[link.daemon] = Session(link.cookie, value, link.lossy)
            if tag in (15, 20):
                self.held[link.daemon].acknowledged(value)
            if tag == 12:
                del self.held[link.daemon]
            link.is_open |= tag in (9, 15)


class Caller(Play):
    """A client behind a run up to one of its events, and what comes to it then, with what it gives."""

    def __init__(self, run, event, what):
        self.scene = scene = run.scene(event)
        super().__init__(scene, what)
        self.numbers.setdefault(NODE, 0)
        self.links, self.held, self.global_seq = copy.deepcopy((scene.links, scene.held, scene.global_seq))
        self.shown, self.gid = run.shown, struct.unpack("<Q", run.shown.front[1:9])[0]
        self.held_gid = self.gid
        self.modes = b"\x02\x00\x00\x00\x01\x00\x00\x00\x02\x00\x00\x00"
        self.cookies = list(scene.cookies)

    # ---- what is printed

    def does(self, what, entries=(), link=None, sent=None, shuts=()):
        """A row of the client, and what it gives at it."""
        told = given(link, None, list(entries), sent)
        self.journal += entries
        self.row(NODE, what, told + [f"  shut {link}" for link in shuts])

    def refuses(self, _, link, reason):
        self.does(f"turn {link}", [f"refused {NODE} {link} {reason}"], shuts=[link])
        del self.links[link]

    def forbids(self, what, reason):
        self.does(f"submit {what}", [f"refused {NODE} 0 {reason}"])

    def draws(self):
        """The draw of the next row."""
        return draw_of(SEED, self.numbers[NODE])

    def sealed(self, link, *frames):
        return b"".join(self.way(NODE, link, "out").frame(tag, *segments) for tag, *segments in frames)

    def session_with_monitor(self):
        """The session key of the ticket for AUTH."""
        return self.scene.sessions[NODE, "2"]

    # ---- commands

    def connects(self, daemon=DAEMON, lossy=False):
        self.global_seq += 1
        self.row(NODE, f"submit connect {daemon} {lossy}", [f"  open {daemon}"])
        self.dialled = lossy

    def opens(self, link, daemon=DAEMON):
        self.links[link] = CallLink(daemon, self.dialled)
        self.gives(link, f"opened {link} {daemon}", BANNER)

    def gives(self, link, what, sent, entries=()):
        self.links[link].sent += sent or b""
        self.does(what, entries, link, sent)

    def rank(self, cookie):
        if cookie not in self.cookies:
            self.cookies.append(cookie)
        return f"c{self.cookies.index(cookie) + 1}"

    def sends(self, operation, daemon=DAEMON):
        """The client is told to send an operation."""
        what, session = f"send {daemon} {operation.row}", self.held.get(daemon)
        if session is None:
            return self.forbids(what, "no-session")
        if len(session.waiting) == MOST:
            return self.forbids(what, f"queue-full {MOST}")
        session.takes(operation)
        lines = [f"sent {NODE} {daemon} {self.rank(session.own)} {session.last} {operation.line}"]
        link = next((n for n, link in self.links.items() if link.daemon == daemon and link.is_open), None)
        sent = self.sealed(link, message(session.last, operation)) if link else None
        return self.does(f"submit {what}", lines, link, sent)

    def gone(self, link):
        """A link is gone."""
        kept = self.links.pop(link)
        if kept.daemon in self.held and self.held[kept.daemon].lossy:
            del self.held[kept.daemon]
        self.does(f"gone {link}", [] if kept.is_open else [f"refused {NODE} {link} lost"])

    # ---- what comes on a link, and what is given for it

    def arrives(self, link, data):
        """What is taken next on a link."""
        self.links[link].taken += data
        self.comes(NODE, link, data)

    def at_banner(self, link):
        self.gives(link, f"turn {link}", plain_frame(1, bytes([8]) + NOBODY))

    def at_hello(self, link):
        """The ticket is shown with a nonce."""
        nonce = struct.unpack("<Q", self.draws()[:8])[0]
        self.links[link].nonce = nonce
        payload = self.shown.payload(nonce)
        self.gives(link, f"turn {link}", plain_frame(2, struct.pack("<I", 2) + self.modes + blob(payload)))

    def at_challenge(self, link, challenge):
        self.gives(link, f"turn {link}", plain_frame(5, blob(self.shown.payload(self.links[link].nonce, challenge))))

    def at_done(self, link, secret):
        """AUTH_SIGNATURE covers all that came."""
        self.ways[NODE, link, "into"], self.ways[NODE, link, "out"] = ways_of(secret)
        kept = self.links[link]
        kept.covered = kept.sent
        signed = hmac.new(self.shown.key, kept.taken, hashlib.sha256).digest()
        self.gives(link, f"turn {link}", self.sealed(link, (7, signed)))

    def signature(self, link):
        """The daemon's AUTH_SIGNATURE, which covers all that was sent before the client's own."""
        return hmac.new(self.shown.key, self.links[link].covered, hashlib.sha256).digest()

    def at_signature(self, link):
        session = self.held.get(self.links[link].daemon)
        if session is None:
            return self.identifies(link)
        if session.connects == LAST:
            return self.resets(link)
        session.connects += 1
        return self.reconnects(link)

    def identifies(self, link, entries=()):
        """CLIENT_IDENT with a drawn cookie."""
        kept = self.links[link]
        kept.cookie = struct.unpack("<Q", self.draws()[8:16])[0]
        fields = self.held_gid, self.global_seq, 0, 0, int(kept.lossy), kept.cookie
        ident = struct.pack("<I", 1) + OWN + NOBODY + b"".join(map(number, fields))
        self.gives(link, f"turn {link}", self.sealed(link, (8, ident)), entries)

    def reconnects(self, link):
        session = self.held[self.links[link].daemon]
        fields = session.own, session.theirs, self.global_seq, session.connects, 0
        self.gives(link, f"turn {link}", self.sealed(link, (11, struct.pack("<I", 1) + OWN + b"".join(map(number, fields)))))

    def resets(self, link):
        """The session and what waits in it are forgotten."""
        del self.held[self.links[link].daemon]
        self.identifies(link, [f"refused {NODE} {link} reset"])

    def at_ident(self, link, cookie):
        kept = self.links[link]
        self.held[kept.daemon] = Session(kept.cookie, cookie, kept.lossy)
        kept.is_open = True
        self.does(f"turn {link}")

    def at_ok(self, link, seq):
        """What the daemon took doesn't wait any more, the rest is sent again."""
        kept = self.links[link]
        session = self.held[kept.daemon]
        session.acknowledged(seq)
        kept.is_open = True
        sent = self.sealed(link, *(message(n, operation) for n, operation in session.waiting))
        self.gives(link, f"turn {link}", sent or None)

    def at_retry(self, link, kept):
        if kept == LAST:
            return self.resets(link)
        self.held[self.links[link].daemon].connects = kept + 1
        return self.reconnects(link)

    def at_retry_global(self, link, kept):
        if kept == LAST:
            return self.resets(link)
        self.global_seq = kept + 1
        return self.reconnects(link)

    def at_answer(self, link, tid, outcome="done"):
        self.does(f"turn {link}", [f"answered {NODE} {self.links[link].daemon} {tid} {outcome}"])

    def at_ack(self, link, seq):
        self.held[self.links[link].daemon].acknowledged(seq)
        self.does(f"turn {link}")

    def at_keepalive(self, link, text):
        self.does(f"turn {link}", (), link, self.sealed(link, (19, text)))

    # ---- a link up to AUTH_SIGNATURE, by a daemon that does all right

    def greets(self, link):
        self.arrives(link, BANNER)
        self.at_banner(link)
        self.arrives(link, plain_frame(1, hello()))
        self.at_hello(link)

    def is_asked(self, link, challenge=7):
        self.arrives(link, plain_frame(4, challenge_of(self.shown.key, challenge)))
        self.at_challenge(link, challenge)

    def is_admitted(self, link, secret=SECRET):
        content = reply_content(self.links[link].nonce, secret)
        self.arrives(link, plain_frame(6, done(self.gid, 2, blob(enveloped(self.shown.key, content)))))
        self.at_done(link, secret)
        self.comes(NODE, link, self.frame(NODE, link, 7, self.signature(link)))
        self.at_signature(link)

    def calls(self, link, daemon=DAEMON, lossy=False, secret=SECRET):
        """A connect, up to CLIENT_IDENT or SESSION_RECONNECT."""
        self.connects(daemon, lossy)
        self.opens(link, daemon)
        self.greets(link)
        self.is_asked(link)
        self.is_admitted(link, secret)

    def hears(self, link, tag, *segments):
        """The next frame of a daemon comes."""
        self.comes(NODE, link, self.frame(NODE, link, tag, *segments))

    def opens_session(self, link, cookie=77):
        self.hears(link, 9, server_ident(cookie))
        self.at_ident(link, cookie)

    def is_taken_up(self, link, seq):
        self.hears(link, 15, number(seq))
        self.at_ok(link, seq)


def message(seq, operation):
    return 17, header(seq, seq, 42), operation.body


# ---- a run of which each frame comes in a piece of its own


class LoneCaller(CallerRun):
    """What of a recorded run comes to its client, each banner and frame in a piece of its own."""

    def __init__(self, name):
        super().__init__(name)
        self.blocks = list(in_pieces(self.blocks))
        self.units = [unit for unit in units_of(self.blocks) if self.is_call(unit)]
        self.shown = shown_in(self)
        self.scenes = {}
        for unit in self.units:
            assert unit.start == 0 and unit.came == unit.event - 1
            unit.lengths = []

    def title(self):
        return f"# frame by frame: {self.name}: {CALLED[self.name]}"

    def is_call(self, unit):
        link = self.blocks[unit.event][0][2]
        return any(words[1] == "opened" and words[2] == link and words[3] != "mon" for words, _ in self.blocks)

    def link(self, unit):
        return self.blocks[unit.event][0][2]

    def unit(self, link, tag):
        """The first frame of a tag on a link."""
        return next(u for u in self.units if self.link(u) == link and u.kind != "banner" and u.tag() == tag)

    def banner(self, link):
        return next(u for u in self.units if self.link(u) == link and u.kind == "banner")

    def scene(self, event):
        if event not in self.scenes:
            self.scenes[event] = CallScene(self, event)
        return self.scenes[event]

    def at(self, unit, what):
        """The client before the piece that has this frame, which is to come under the keys under which that did."""
        play = Caller(self, unit.came, what)
        play.numbers[NODE] = int(place_of(self.blocks[unit.came][0])[2])
        if unit.kind == "sealed":
            play.ways[NODE, self.link(unit), "into"] = unit.way.copy()
        return play

    def behind(self, event, what):
        """The client behind an event."""
        return Caller(self, event + 1, what)

    def recorded(self, unit):
        """What was recorded of the turn of this frame."""
        return event_told(*self.blocks[unit.event])[1:]


def in_pieces(blocks):
    """The events, of which each piece with several frames comes frame by frame. The further ones come at draws that were drawn before: nothing is drawn where
    bytes come."""
    units = {unit.event: unit for unit in units_of(blocks)}
    firsts = {unit.came: unit for unit in units.values() if unit.start == 0}
    last = None
    for event, (words, told) in enumerate(blocks):
        if words[1] == "bytes":
            yield words[:3] + [firsts[event].bytes.hex()] + words[4:], told
        elif event in units and units[event].start:
            yield [*words[:1], "bytes", words[2], units[event].bytes.hex(), *words[3:-1], last], []
            yield words, told
        else:
            yield words, told
        last = place_of(words)[2]


def made(tag, *segments, way):
    """A sealed frame that might come, as one that did."""
    parts = parts_of(tag, segments)
    unit = Unit(None, None, 0, "sealed", way, parts)
    unit.bytes, unit.lengths = unit.anew(parts), []
    return unit
