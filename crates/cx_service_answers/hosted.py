"""What is tried of a daemon's links to guests, behind the run with a message that was lost: rows, each with what has to be printed for it. The frames
that come and those that have to be sent are made by docs/formats.md and docs/rules.md."""

import hashlib
import hmac
import struct

from answering import Way, blob, header, ticket_blob, time
from asked import LAST, Play, Scene, given, wrong_headers, wrong_tags
from broken import byte_by_byte, changed, denial, flipped, plain, tried_unit, units_of
from ciphers import enveloped
from runs import event_told, place_of, row_of

DAEMON, FIRST, SECOND = "osd.0", "3", "4"
EXPIRES = 4600

# The lengths in payloads of cephx that come to a daemon: the place of a blob's length, and that of the field that can't be read where it is too large,
# in the payload of the frame.
LENGTHS = {2: [(0, 4, 4, "count"), (0, 16, 16, "blob")], 5: [(0, 0, 0, "blob")]}


def control(tag, *fields):
    return tag, b"".join(fields)


def number(value):
    return struct.pack("<Q", value)


def segments_of(parts):
    """The segments of a sealed frame."""
    count, lengths = parts[0][1], [struct.unpack("<I", parts[0][2 + 6 * i : 6 + 6 * i])[0] for i in range(4)]
    first = parts[0][32:] + (parts[1] if lengths[0] > 48 else b"")
    segments, place = [first[: lengths[0]]], 0
    for length in lengths[1:count]:
        segments.append(parts[-1][place : place + length])
        place += length + -length % 16
    return segments


class GuestScene(Scene):
    """A run up to one of its events, of which the monitor's part is not gone into."""

    def answers(self, *_):
        pass

    def bearers(self):
        return {}


class Guest:
    """A run with a daemon, by what comes to that on the links of its guests."""

    def __init__(self, run, links=(FIRST, SECOND)):
        self.run, self.links = run, links
        self.units = [unit for unit in units_of(run.blocks) if self.is_guest(run.blocks[unit.event][0])]
        for unit in self.units:
            unit.lengths = LENGTHS.get(unit.tag(), []) if unit.kind == "plain" else []

    def is_guest(self, words):
        return words[0] == DAEMON and words[2] in self.links

    def unit(self, link, tag):
        """The first frame of a tag on a link."""
        return next(u for u in self.units if self.run.blocks[u.event][0][2] == link and u.kind != "banner" and u.tag() == tag)

    def scene(self, unit):
        """The run before the piece that has this frame."""
        return self.scene_at(unit.came)

    def scene_at(self, event):
        return GuestScene(self.run, event)

    def play(self, unit, what):
        """What is played in the place of this frame, at the draws at which that came and was handled."""
        play = Play(self.scene(unit), what)
        play.numbers[DAEMON] = int(place_of(self.run.blocks[unit.came][0])[2])
        return play

    def sent(self, unit):
        """The segments of each sealed frame that was sent at a frame."""
        parts = [bytes.fromhex(line.split()[5])[12:] for line in self.run.blocks[unit.event][1] if line.startswith("sealed connection")]
        frames = []
        while parts:
            count = 1 + (struct.unpack("<I", parts[0][2:6])[0] > 48) + (parts[0][1] > 1)
            frames.append((parts[0][0], segments_of(parts[:count])))
            parts = parts[count:]
        return frames

    def recorded(self, unit):
        """What was recorded of the turn of this frame."""
        return event_told(*self.run.blocks[unit.event])[1:]

    def entered(self, unit):
        return self.run.entered(unit.event + 1)[len(self.run.entered(unit.event)) :]


def sends(play, link, *frames):
    return b"".join(play.way(DAEMON, link, "out").frame(tag, *segments) for tag, *segments in frames)


# ---- each frame cut at each length, and in pieces of one byte


def cuts(guest):
    """Each kind of frame that comes to the daemon, cut at each length behind which its link is gone. A session that was admitted lives on, and was not taken
    further: it is dropped behind, which tells; or the run goes on with the other link, on which SESSION_RECONNECT tells what was taken."""
    run, blocks = guest.run, guest.run.blocks
    for unit in guest.units:
        words, told = blocks[unit.event]
        link = words[2]
        if link == SECOND and not (unit.kind == "sealed" and unit.tag() in (11, 17)):
            continue
        _, reading, draw = place_of(words)
        assert unit.start == 0
        lives = any(line.startswith("admitted") for line in run.entered(unit.event))
        behind = []
        if lives and link == FIRST:
            behind += taken_up(guest, unit)
        journal = run.entered(unit.event) + [line for _, _, lines in behind for line in lines]
        # The drop shuts the links of the session.
        shown = ["  entries 1"] * lives + [f"  shut {SECOND}"] * (lives and link == FIRST)
        behind.append((f"at {DAEMON} {reading} 0 submit drop 1", [f"{DAEMON} submit drop", *shown], []))
        journal += ["ended osd.0 1"] * lives
        for row, _, _ in behind:
            yield f"behind {row}", []
        yield "behind journal", []
        lines = [line for _, told, _ in behind for line in told]
        what = f"cuts {len(run.heads) + unit.came} {DAEMON} {reading} {draw} bytes {link} {unit.bytes.hex()}"
        yield what, [f"{DAEMON} bytes {link}", "  cut at 0", *lines, *journal, f"  of {len(unit.bytes)}"]


def taken_up(guest, unit):
    """The rows of the second link up to SESSION_RECONNECT, by which a session is taken up of which no message was taken."""
    run, last = guest.run, guest.unit(SECOND, 11)
    start = next(i for i, (words, _) in enumerate(run.blocks) if words[:3] == [DAEMON, "opened", SECOND])
    seen = len(run.entered(start))
    for i in range(start, last.event + 1):
        words, told = run.blocks[i]
        if not (words[0] == DAEMON and words[2] == SECOND):
            continue
        lines = run.entered(i + 1)[seen:]
        seen += len(lines)
        shown = event_told(words, told)
        if i == last.event:
            way = GuestScene(run, last.came).ways[DAEMON, SECOND, "out"].copy()
            assert shown[-1] == f"  send {SECOND} {way.copy().frame(15, number(1)).hex()}"
            shown[-1] = f"  send {SECOND} {way.frame(15, number(0)).hex()}"
        yield row_of(words), shown, lines


# ---- authorizers that are wrong in one field


class Shown:
    """An authorizer that came: the frame around it, its payload, and what is sealed in it under which key."""

    def __init__(self, guest, unit):
        self.unit, self.head, self.segment = unit, unit.preamble()[:28], unit.segment()
        self.start = 20 if unit.tag() == 2 else 4
        self.payload = self.segment[self.start :]
        opened = [line.split() for line in guest.run.blocks[unit.event][1] if line.startswith("opened session")]
        self.key, self.content = bytes.fromhex(opened[0][3]), bytes.fromhex(opened[0][5])
        self.ends = [1, 9, 13, 26 + struct.unpack("<I", self.payload[22:26])[0], len(self.payload)]

    def frame(self, payload):
        """The frame with another payload."""
        segment = self.segment[: self.start - 4] + blob(payload)
        return plain(changed(self.head, 2, struct.pack("<I", len(segment))), segment)

    def sealed(self, content):
        return self.payload[: self.ends[3]] + blob(enveloped(self.key, content))


def malformed_authorizers(shown):
    """Payloads that spell no authorizer, by the field that can't be read."""
    start = 0
    for field, end in zip(("version", "global id", "service", "ticket blob", "sealed authorizer"), shown.ends):
        yield f"without the last byte of its {field}", shown.payload[: end - 1], f"malformed {start}"
        start = end
    ticket = shown.ends[3]
    yield "no payload", b"", "malformed 0"
    yield "a byte behind it", shown.payload + b"\x00", f"malformed {shown.ends[4]}"
    yield "another version", changed(shown.payload, 0, b"\x02"), "malformed 0"
    yield "a service that there isn't", changed(shown.payload, 9, struct.pack("<I", 3)), "malformed 9"
    yield "another version of the ticket blob", changed(shown.payload, 13, b"\x02"), "malformed 13"
    for what, place, fault in ("ticket blob", 22, 13), ("sealed authorizer", ticket, ticket):
        for length in struct.unpack("<I", shown.payload[place : place + 4])[0] + 1 + 200 * (place == 22), 65536, 2**32 - 1:
            yield f"a length of the {what} of {length}", changed(shown.payload, place, struct.pack("<I", length)), f"malformed {fault}"


def denied_authorizers(shown):
    """Authorizers that can be read, and are denied."""
    payload, blob_end = shown.payload, shown.ends[3]
    for service, name in (1, "mon"), (2, "mds"), (8, "client"), (16, "mgr"), (32, "auth"):
        yield f"a_ticket_of_another_service: {name}", changed(payload, 9, struct.pack("<I", service)), f"wrong-service osd {name}"
    for generation in 0, 4, LAST:
        yield f"generation {generation}", changed(payload, 14, number(generation)), f"unknown-generation {generation} ticket=3"
    for generation in 1, 3:
        yield f"generation {generation}", changed(payload, 14, number(generation)), f"ticket-unopened {generation} ticket=3"
    yield "no ticket", payload[:13] + ticket_blob(2, b"") + payload[blob_end:], "ticket-unopened 2 ticket=0"
    yield "another first byte of the ticket", flipped(payload, 26), "ticket-unopened 2 ticket=0"
    yield "another last byte of a block before the last one", flipped(payload, blob_end - 17), "ticket-unopened 2 ticket=0"
    yield "the first bytes of the ticket alone", payload[:13] + ticket_blob(2, payload[26:42]) + payload[blob_end:], "ticket-unopened 2 ticket=0"
    for gid in 0, 1, 3, LAST:
        yield f"global id {gid}", changed(payload, 1, number(gid)), f"gid-differs {gid} 2 ticket=3"
    yield "another first byte of the sealed authorizer", flipped(payload, blob_end + 4), "authorizer-unopened ticket=3"
    yield "another last byte of a block before the last one of it", flipped(payload, len(payload) - 17), "authorizer-unopened ticket=3"
    yield "no sealed authorizer", payload[:blob_end] + blob(b""), "authorizer-unopened ticket=3"
    for what, content in (
        ("a challenge", b"\x04" + number(1)),
        ("a reply", b"\x05" + number(1) + blob(bytes(64))),
        ("a flag that there isn't", changed(shown.content, 9, b"\x02")),
        ("a record that is short", shown.content[:-1]),
        ("a byte behind the record", shown.content + b"\x00"),
    ):
        yield f"{what} in place of an authorizer", shown.sealed(content), "authorizer-unopened ticket=3"


def wrong_challenges(shown):
    """Second authorizers that don't answer the challenge."""
    due = struct.unpack("<Q", shown.content[10:18])[0]
    for what, flag, got in (
        ("a challenge that isn't raised", 1, due - 1),
        ("a challenge that is raised by two", 1, due + 1),
        ("no challenge", 0, 0),
        ("the right number, and a flag that says none", 0, due),
    ):
        content = shown.content[:9] + bytes([flag]) + number(got)
        yield what, shown.sealed(content), f"challenge-wrong {due} {got} ticket=3"


def wrong_authorizers(guest):
    for tag, name in (2, "the first authorizer"), (5, "the second authorizer"):
        unit = guest.unit(FIRST, tag)
        shown, looked = Shown(guest, unit), guest.entered(unit)
        assert shown.frame(shown.payload) == unit.bytes and shown.sealed(shown.content) == shown.payload
        for what, payload, reason in malformed_authorizers(shown):
            yield from turned_away(guest, unit, f"{name}: {what}", shown.frame(payload), looked, reason, None)
        for what, payload, reason in [*denied_authorizers(shown), *(wrong_challenges(shown) if tag == 5 else ())]:
            yield from turned_away(guest, unit, f"{name}: {what}", shown.frame(payload), looked, reason, 13)
        yield from at_its_expiry(guest, unit, name, looked)
        yield from in_a_plain_frame(guest, unit, name)
    first = guest.unit(FIRST, 2)
    shown = Shown(guest, first)
    play = guest.play(first, "the first authorizer: it answers a challenge, which isn't minded")
    play.comes(DAEMON, FIRST, shown.frame(shown.sealed(shown.content[:9] + b"\x01" + number(7))))
    play.turns(DAEMON, FIRST, guest.recorded(first))
    yield from finished(play, guest.entered(first))


def finished(play, entered):
    play.journal += entered
    return play.end()


def turned_away(guest, unit, what, frame, looked, reason, code):
    """A frame in the place of another one is refused or denied, and what comes behind it in the same piece is nothing."""
    play = guest.play(unit, what)
    play.comes(DAEMON, FIRST, frame + unit.bytes)
    sent = denial(unit.preamble()[:28], code) if code else None
    play.turns(DAEMON, FIRST, given(FIRST, None, [*looked, reason], sent, shut=True))
    play.turns(DAEMON, FIRST)
    yield from finished(play, [*looked, f"refused {DAEMON} {FIRST} {reason}"])


def at_its_expiry(guest, unit, name, looked):
    """The same authorizer at the second before the expiry of its ticket, and at that."""
    play = guest.play(unit, f"{name}: a second before the expiry")
    play.reading = EXPIRES - 1
    play.comes(DAEMON, FIRST, unit.bytes)
    play.turns(DAEMON, FIRST, guest.recorded(unit))
    yield from finished(play, looked)
    play = guest.play(unit, f"{name}: at the expiry")
    play.reading = EXPIRES
    play.comes(DAEMON, FIRST, unit.bytes)
    reason = f"expired {EXPIRES} {EXPIRES} ticket=3"
    play.turns(DAEMON, FIRST, given(FIRST, None, [*looked, reason], denial(unit.preamble()[:28], 13), shut=True))
    yield from finished(play, [*looked, f"refused {DAEMON} {FIRST} {reason}"])


def in_a_plain_frame(guest, unit, name):
    """Fields of the frame around it."""
    segment, head = unit.segment(), unit.preamble()[:28]

    def around(new):
        return plain(changed(head, 2, struct.pack("<I", len(new))), new)

    refused = [("a byte behind the payload", around(segment + b"\x00"), f"malformed {len(segment)}", None)]
    if unit.tag() == 2:
        refused += [
            ("another method", plain(head, flipped(segment, 0)), "method", 95),
            ("modes without the secure one", plain(head, changed(segment, 12, b"\x01")), "mode", 95),
            ("17 modes", around(changed(segment, 4, b"\x11")), "malformed 4", None),
        ]
    for what, frame, reason, code in refused:
        yield from turned_away(guest, unit, f"{name}: {what}", frame, [], reason, code)


# ---- behind the change to secure frames


def refused_sealed(guest, unit, what, frame, reason, sent=()):
    """A frame in the place of a sealed one is refused, and the right one behind it in the same piece is nothing."""
    link = guest.run.blocks[unit.event][0][2]
    play = guest.play(unit, what)
    play.ways[DAEMON, link, "into"] = unit.way.copy()
    tag, *segments = frame
    piece = play.frame(DAEMON, link, tag, *segments)
    play.comes(DAEMON, link, piece + play.frame(DAEMON, link, unit.tag(), *segments_of(unit.parts)))
    out = sends(play, link, *sent) if sent else None
    play.turns(DAEMON, link, given(link, None, [reason], out, shut=True))
    play.turns(DAEMON, link)
    yield from finished(play, [f"refused {DAEMON} {link} {reason}"])


def wrong_signatures(guest):
    unit = guest.unit(FIRST, 7)
    (code,) = segments_of(unit.parts)
    for place in 0, 31:
        yield from refused_sealed(guest, unit, f"a_foreign_signature_is_refused: another byte {place}", (7, flipped(code, place)), "signature-wrong")
    mine = guest.sent(guest.unit(FIRST, 5))[0][1][0]
    yield from refused_sealed(guest, unit, "a_foreign_signature_is_refused: the daemon's own", (7, mine), "signature-wrong")
    (other,) = segments_of(guest.unit(SECOND, 7).parts)
    yield from refused_sealed(guest, unit, "a_foreign_signature_is_refused: that of another link", (7, other), "signature-wrong")
    for what, segment, reason in ("without its last byte", code[:-1], "malformed 0"), ("a byte behind it", code + b"\x00", "malformed 32"), ("none", b"", "malformed 0"):
        yield from refused_sealed(guest, unit, f"a signature {what}", (7, segment), reason)
    for tag in 8, 11, 17, 18:
        yield from refused_sealed(guest, unit, f"tag {tag} where a signature is due", (tag, code), f"unexpected {tag}")
    yield from refused_sealed(guest, unit, "a signature of two segments", (7, code, b""), "unexpected 7")


IDENT = {"count": 4, "address": 19, "target": 34, "global id": 42, "global_seq": 50, "supported": 58, "required": 66, "flags": 74, "cookie": 82}
RECONNECT = {"count": 4, "address": 19, "client_cookie": 27, "server_cookie": 35, "global_seq": 43, "connect_seq": 51, "msg_seq": 59}


def unreadable(segment, fields):
    start = 0
    for field, end in fields.items():
        yield f"without the last byte of its {field}", segment[: end - 1], f"malformed {start}"
        start = end
    assert start == len(segment)
    yield "a byte behind it", segment + b"\x00", f"malformed {start}"
    yield "no address", changed(segment, 0, struct.pack("<I", 0)), "malformed 0"
    yield "two addresses", changed(segment, 0, struct.pack("<I", 2)), "malformed 0"
    yield "another version of the address", changed(segment, 4, b"\x02"), "malformed 4"
    yield "another type of address", changed(segment, 5, struct.pack("<I", 1)), "malformed 4"


def wrong_idents(guest):
    """CLIENT_IDENT that is refused, by each of its fields."""
    unit = guest.unit(FIRST, 8)
    (ident,) = segments_of(unit.parts)
    for what, segment, reason in unreadable(ident, IDENT):
        yield from refused_sealed(guest, unit, f"CLIENT_IDENT: {what}", (8, segment), reason)
    yield from refused_sealed(guest, unit, "CLIENT_IDENT: another type of the target", (8, changed(ident, 20, struct.pack("<I", 1))), "malformed 19")
    for bits in 1, 4, 2**63, LAST:
        segment = changed(ident, 58, number(bits))
        yield from refused_sealed(guest, unit, f"CLIENT_IDENT: required features {bits}", (8, segment), f"features {bits}", [(10, number(bits))])
    for tag in (1, 5, 6, 7, 9, 10, 12, 13, 14, 15, 16, 17, 18, 19, 20):
        yield from refused_sealed(guest, unit, f"tag {tag} where CLIENT_IDENT is due", (tag, ident), f"unexpected {tag}")
    yield from refused_sealed(guest, unit, "CLIENT_IDENT of two segments", (8, ident, b""), "unexpected 8")
    yield from taken_idents(guest, unit, ident)
    taken = guest.unit(SECOND, 11)
    foreign = "cookie-in-use 1"
    for what, segment in ("a_second_session_under_one_cookie", ident), ("a_second_session_under_one_cookie: lossy", changed(ident, 66, number(1))):
        yield from refused_sealed(guest, taken, what, (8, segment), foreign)


def taken_idents(guest, unit, ident):
    """CLIENT_IDENT with other fields that are not minded; and a lossy one, whose session ends with its link."""
    strange = changed(changed(changed(ident, 34, number(7)), 42, number(LAST)), 50, number(0))
    ((tag, (answer,)),) = guest.sent(unit)
    for what, segment, lossy in ("any global id, any count, no features", strange, 0), ("flags 2", changed(ident, 66, number(2)), 0), ("flags 3", changed(ident, 66, number(3)), 1):
        play = guest.play(unit, f"CLIENT_IDENT: {what}")
        play.comes(DAEMON, FIRST, play.frame(DAEMON, FIRST, 8, segment))
        sent = sends(play, FIRST, (tag, changed(answer, 51, number(lossy))))
        admitted = guest.entered(unit)
        play.turns(DAEMON, FIRST, given(FIRST, None, admitted, sent))
        play.journal += admitted
        play.row(DAEMON, f"gone {FIRST}", ["  entries 1"] * lossy)
        play.row(DAEMON, "submit drop 1", ["  entries 1"] * (1 - lossy))
        yield from finished(play, ["ended osd.0 1"])


def wrong_reconnects(guest):
    """SESSION_RECONNECT that is refused, by each of its fields; and those behind which the link waits on."""
    unit = guest.unit(SECOND, 11)
    (asks,) = segments_of(unit.parts)
    for what, segment, reason in unreadable(asks, RECONNECT):
        yield from refused_sealed(guest, unit, f"SESSION_RECONNECT: {what}", (11, segment), reason)
    yield from refused_sealed(guest, unit, "SESSION_RECONNECT of two segments", (11, asks, b""), "unexpected 11")
    reset = (12, b"\x01")
    for what, segment, reason, answer in (
        ("another client_cookie", flipped(asks, 19), "unknown-session", reset),
        ("another server_cookie", flipped(asks, 27), "unknown-session", reset),
        ("no cookies", changed(asks, 19, bytes(16)), "unknown-session", reset),
        ("connect_seq 0", changed(asks, 43, number(0)), "stale-connect 0", (13, number(0))),
        ("global_seq 0", changed(asks, 35, number(0)), "stale-global 1", (14, number(1))),
        ("connect_seq 0 and global_seq 0", changed(asks, 35, bytes(16)), "stale-connect 0", (13, number(0))),
    ):
        play = guest.play(unit, f"SESSION_RECONNECT: {what}, and then the right one")
        play.comes(DAEMON, SECOND, play.frame(DAEMON, SECOND, 11, segment) + play.frame(DAEMON, SECOND, 11, asks))
        play.turns(DAEMON, SECOND, given(SECOND, None, [reason], sends(play, SECOND, answer)))
        play.journal.append(f"refused {DAEMON} {SECOND} {reason}")
        resumed = guest.entered(unit)
        play.turns(DAEMON, SECOND, given(SECOND, None, resumed, sends(play, SECOND, (15, number(1)))))
        yield from finished(play, resumed)
    for what, place, value in ("any msg_seq", 51, LAST), ("the last connect_seq", 43, LAST), ("the last global_seq", 35, LAST):
        play = guest.play(unit, f"SESSION_RECONNECT: {what}")
        play.comes(DAEMON, SECOND, play.frame(DAEMON, SECOND, 11, changed(asks, place, number(value))))
        play.turns(DAEMON, SECOND, given(SECOND, None, guest.entered(unit), sends(play, SECOND, (15, number(1)))))
        yield from finished(play, guest.entered(unit))


# ---- messages


def operation(access=2, pool=b"rbd", space=b"", name=b"o1", data=b"a"):
    return bytes([access]) + b"".join(blob(part) for part in (pool, space, name, data))


def answered(seq, tid, data):
    """The frames by which a write that was taken is answered."""
    return (17, header(0, tid, 43), b"\x00" + blob(data)), (20, number(seq))


def wrong_operations():
    """Bodies that are no operation."""
    good = operation()
    start = 0
    for field, end in ("access", 1), ("pool", 8), ("namespace", 12), ("object", 18), ("data", 23):
        yield f"without the last byte of its {field}", good[: end - 1], f"malformed {start}"
        yield f"a length of its {field} that is too large", changed(good, start, struct.pack("<I", 65537)), f"malformed {start}"
        start = end
    assert start == len(good)
    yield "a byte behind it", good + b"\x00", "malformed 23"
    yield from ((f"access {access}", operation(access), "malformed 0") for access in (0, 3, 5, 8, 255))
    for field, place in ("pool", 1), ("space", 8), ("name", 12):
        for what, text in ("a minus alone", b"-"), ("a blank", b"a b"), ("256 letters", b"a" * 256), ("a zero", b"\x00"):
            yield f"{what} as its {field}", operation(**{field: text}), f"malformed {place}"
    yield "65,537 bytes of data", operation(data=bytes(65537)), "malformed 18"


def wrong_messages(guest):
    unit = guest.unit(FIRST, 17)
    good = operation()
    frames = [*wrong_headers(header(1, 1, 42), good), *wrong_tags()]
    frames += [(what, (17, header(1, 1, 42), body), reason) for what, body, reason in wrong_operations() if not what.startswith("a length of its access")]
    frames += [(f"type {kind}", (17, header(1, 1, kind), good), "unexpected 17") for kind in (0, 17, 18, 41, 43, 65535)]
    frames += [(f"number {seq} of a body that can't be read", (17, header(seq, 1, 42), good[:-1]), "malformed 18") for seq in (0, 5)]
    frames += [(f"a_missing_message_is_a_gap: number {seq}", (17, header(seq, 1, 42), good), "gap 1") for seq in (2, 3, LAST)]
    for what, frame, reason in frames:
        yield from refused_sealed(guest, unit, f"a message: {what}", frame, reason)


def taken_messages(guest):
    """Messages that are taken, once, in their order; what was taken before is acknowledged alone."""
    unit = guest.unit(FIRST, 17)
    good = operation()

    def handled(seq, outcome="done"):
        return f"handled osd.0 1 1 c1 {seq} write rbd - o1 61 {outcome}"

    for last in 1, 2:
        play = guest.play(unit, f"a_repeat_is_only_acknowledged, behind {last}")
        piece = b"".join(play.frame(DAEMON, FIRST, 17, header(seq, seq, 42), good) for seq in range(1, last + 1))
        again = [0, *range(1, last + 1)]
        piece += b"".join(play.frame(DAEMON, FIRST, 17, header(seq, 9, 42), good) for seq in again)
        play.comes(DAEMON, FIRST, piece)
        for seq in range(1, last + 1):
            play.turns(DAEMON, FIRST, given(FIRST, None, [None], sends(play, FIRST, *answered(seq, seq, b"1"))))
            play.journal.append(handled(seq))
        for _ in again:
            play.turns(DAEMON, FIRST, given(FIRST, None, [], sends(play, FIRST, (20, number(last)))))
        yield from play.end()
    play = guest.play(unit, "a_missing_message_is_a_gap: the third behind the first")
    play.comes(DAEMON, FIRST, b"".join(play.frame(DAEMON, FIRST, 17, header(seq, seq, 42), good) for seq in (1, 3, 2)))
    play.turns(DAEMON, FIRST, given(FIRST, None, [None], sends(play, FIRST, *answered(1, 1, b"1"))))
    play.journal.append(handled(1))
    play.refuses(DAEMON, FIRST, "gap 2")
    play.turns(DAEMON, FIRST)
    yield from play.end()
    play = guest.play(unit, "any other fields of the header, empty segments, any tid, and keepalives between")
    strange = header(1, LAST, 42, (0, 65535, 4294967295, 65535, LAST, 255, 0, 65535))
    play.comes(DAEMON, FIRST, play.frame(DAEMON, FIRST, 17, strange, good, b"", b"") + play.frame(DAEMON, FIRST, 18, time(7)) + play.frame(DAEMON, FIRST, 19, time(7)))
    play.turns(DAEMON, FIRST, given(FIRST, None, [None], sends(play, FIRST, *answered(1, LAST, b"1"))))
    play.turns(DAEMON, FIRST, given(FIRST, None, [], sends(play, FIRST, (19, time(7)))))
    play.turns(DAEMON, FIRST)
    yield from finished(play, [handled(1)])


def largest_operations(guest):
    """An operation with the most bytes of data, which its answer has too."""
    data = bytes(range(256)) * 256
    play = guest.play(guest.unit(FIRST, 17), "an operation with 65,536 bytes of data, and its answer with as many")
    play.comes(DAEMON, FIRST, play.frame(DAEMON, FIRST, 17, header(1, 1, 42), operation(access=4, data=data)))
    play.turns(DAEMON, FIRST, given(FIRST, None, [None], sends(play, FIRST, *answered(1, 1, data))))
    yield from finished(play, [f"handled osd.0 1 1 c1 1 exec rbd - o1 {data.hex()} done"])


def stale_epochs(guest):
    """A session is taken up on a second link while the first one lives: that is shut, and what comes on it is nothing."""
    unit = guest.unit(SECOND, 11)
    gone = next(i for i, (words, _) in enumerate(guest.run.blocks) if words[:3] == [DAEMON, "gone", FIRST])
    scene = GuestScene(guest.run, gone)
    play = Play(scene, "a_stale_epoch_is_refused: the older link is shut, and a message on it is nothing")
    seen = len(guest.run.entered(gone))
    for i in range(gone + 1, unit.event + 1):
        words, told = guest.run.blocks[i]
        if words[0] != DAEMON:
            continue
        shown = event_told(words, told)
        play.lines.append((row_of(words), shown + [f"  shut {FIRST}"] * (i == unit.event)))
    play.numbers[DAEMON] = int(place_of(guest.run.blocks[unit.event][0])[2]) + 1
    play.journal += guest.run.entered(unit.event + 1)[seen:]
    play.comes(DAEMON, FIRST, play.frame(DAEMON, FIRST, 17, header(2, 2, 42), operation()))
    play.turns(DAEMON, FIRST)
    yield from play.end()


# ---- so many that a call that gives up beyond a round number would show


def many_frames(guest):
    """200 frames in one piece: messages, repeats and keepalives in turn."""
    unit = guest.unit(FIRST, 17)
    play = guest.play(unit, "200 frames in one piece")
    piece, last, frames = b"", 0, []
    for i in range(200):
        if i % 4 == 3:
            frame, sent = (18, time(i)), [(19, time(i))]
        elif i % 4 == 2:
            frame, sent = (17, header(last, 0, 42), operation()), [(20, number(last))]
        else:
            last += 1
            frame, sent = (17, header(last, last, 42), operation()), answered(last, last, b"1")
        piece += play.frame(DAEMON, FIRST, *frame)
        frames.append((len(sent) == 2, sent, last))
    play.comes(DAEMON, FIRST, piece)
    for handled, sent, seq in frames:
        play.turns(DAEMON, FIRST, given(FIRST, None, [None] * handled, sends(play, FIRST, *sent)))
        play.journal += [f"handled osd.0 1 1 c1 {seq} write rbd - o1 61 done"] * handled
    yield from play.end()


BANNER = b"ceph v2\n" + struct.pack("<HQQ", 16, 1, 1)


def many_links(guest):
    """5,000 links over one run, of which three live at a time, at the daemon and at the monitor; and 1,030 links, of which 1,024 live with those before."""
    unit = guest.unit(FIRST, 17)
    scene = guest.scene(unit)
    for node in DAEMON, "mon":
        row = f"again {len(guest.run.heads) + scene.event} 5,000 links at {node}, three at a time"
        yield row, [row]
        yield f"links 5000 3 {node} 1000 900 opened 100 None", [f"{node} opened 100", "  lines 5000", f"  send 5099 {BANNER.hex()}"]
        row = f"again {len(guest.run.heads) + scene.event} 1,030 links at {node}"
        yield row, [row]
        # Two links live at either: the daemon's own to the monitor, with a guest's or the monitor's with the client.
        lines = 1022 + 2 * 8
        yield f"links 1030 2000 {node} 1000 900 opened 100 None", [f"{node} opened 100", f"  lines {lines}", "  entries 1", "  shut 1129"]
        yield "journal", scene.journal + [f"refused {node} {link} links-full 1024" for link in range(1122, 1130)]


# ---- two clients at one daemon


def takes_up(guest, play, gid):
    """The second client shows the cookies of the first one's session, which has this global id: it is told to begin anew, and does."""
    run, mine, other = guest.run, guest.unit("6", 8), guest.unit("5", 8)
    (ident,), (theirs,) = segments_of(mine.parts), segments_of(other.parts)
    drawn = next(line for line in run.blocks[other.event][1] if line.startswith("drawn cookie"))
    cookies = theirs[74:82] + bytes.fromhex(drawn.split()[2])
    play.numbers[DAEMON] -= 1
    asks = ident[:19] + cookies + number(2) + number(1) + number(0)
    play.comes(DAEMON, "6", play.frame(DAEMON, "6", 11, asks) + play.frame(DAEMON, "6", 8, ident))
    reason = f"owner-differs client.a {gid}"
    play.turns(DAEMON, "6", given("6", None, [reason], sends(play, "6", (12, b"\x01"))))
    play.journal.append(f"refused {DAEMON} 6 {reason}")
    # The cookie is that of the draw at which CLIENT_IDENT was handled.
    assert play.numbers[DAEMON] == int(place_of(run.blocks[mine.event][0])[2])
    ((tag, (answer,)),) = guest.sent(mine)
    play.turns(DAEMON, "6", given("6", None, guest.entered(mine), sends(play, "6", (tag, answer))))
    yield from finished(play, guest.entered(mine))


class NumberedGuest:
    """The first client with a ticket that has another global id: what comes to its daemon then, and what that gives."""

    def __init__(self, guest, gid):
        self.guest, self.run, self.gid = guest, guest.run, gid
        self.units = {unit.came: unit for unit in guest.units if guest.run.blocks[unit.event][0][2] == "5"}
        self.came, self.sent = b"", b""
        for words, told in self.run.blocks[: guest.unit("5", 2).came]:
            if words[:3] == [DAEMON, "bytes", "5"]:
                self.came += bytes.fromhex(words[3])
            self.sent += self.piece(words, told)

    def piece(self, words, told):
        """What was sent on its link."""
        return b"".join(bytes.fromhex(line.split()[2]) for line in told if words[0] == DAEMON and line.startswith("send 5 "))

    def authorizer(self, unit):
        """An authorizer with such a ticket, which is sealed anew."""
        shown = Shown(self.guest, unit)
        opened = next(line.split() for line in self.run.blocks[unit.event][1] if line.startswith("opened service"))
        key, content = bytes.fromhex(opened[3]), bytes.fromhex(opened[5])
        # Its version, the session key and the name stand before it.
        place = 1 + 28 + 4 + 4 + len("a")
        assert content[place : place + 8] == shown.payload[1:9] == number(3) and enveloped(key, content) in shown.payload
        ticket = enveloped(key, changed(content, place, number(self.gid)))
        payload = changed(changed(shown.payload, 1, number(self.gid)), shown.ends[3] - len(ticket), ticket)
        return shown.frame(payload)

    def signed(self, unit, content):
        """A signature under the session key of the ticket."""
        opened = next(line.split() for line in self.run.blocks[unit.event][1] if line.startswith(("opened session", "checked signature")))
        return hmac.new(bytes.fromhex(opened[3]), content, hashlib.sha256).digest()

    def frame(self, unit):
        """What comes in the place of a frame."""
        if unit.kind == "plain":
            return self.authorizer(unit)
        if unit.tag() == 7:
            return unit.way.copy().frame(7, self.signed(unit, self.sent))
        return unit.bytes

    def done(self, unit, piece):
        """AUTH_DONE with the global id, and AUTH_SIGNATURE behind it, in the place of what was recorded."""
        length = 36 + struct.unpack("<I", piece[2:6])[0]
        head, segment = piece[:28], piece[32 : length - 4]
        assert piece[:length] == plain(head, segment) and segment[:8] == number(3)
        answer = plain(head, changed(segment, 0, number(self.gid)))
        self.sent += answer
        line = next(line.split() for line in self.run.blocks[unit.event][1] if line.startswith("sealed connection"))
        way = Way(bytes.fromhex(line[3]), bytes.fromhex(line[5])[:12])
        return answer + way.frame(7, self.signed(unit, self.came))

    def told(self, unit):
        """What is printed for the turn of a frame."""
        words, told = self.run.blocks[unit.event]
        shown, piece = event_told(words, told), self.piece(words, told)
        if unit.kind == "plain" and unit.tag() == 5:
            return [f"  send 5 {self.done(unit, piece).hex()}" if line.startswith("  send") else line for line in shown]
        if unit.kind == "plain":
            self.sent += piece
        return shown

    def plays(self, play, last):
        """All that comes to the daemons until this event."""
        turned = {unit.event: unit for unit in self.units.values()}
        for event in range(self.guest.unit("5", 2).came, last):
            words, told = self.run.blocks[event]
            entered = self.run.entered(event + 1)[len(self.run.entered(event)) :]
            play.journal += [line.replace("client.a 3 ", f"client.a {self.gid} ") for line in entered]
            if event in self.units:
                frame = self.frame(self.units[event])
                self.came += frame
                play.lines.append((row_of(words, frame.hex()), event_told(words, told)))
            else:
                play.lines.append((row_of(words), self.told(turned[event]) if event in turned else event_told(words, told)))


def as_recorded(guest, play):
    """With the global id that it had all is as it was recorded."""
    blocks = guest.run.blocks[guest.unit("5", 2).came : guest.unit("6", 8).came]
    return play.lines[1:] == [(row_of(words), event_told(words, told)) for words, told in blocks]


def tried_foreign(run):
    """A session of another entity isn't taken up, also where its global id is as large as can be."""
    guest = Guest(run, ("5", "6"))
    mine = guest.unit("6", 8)
    yield from takes_up(guest, guest.play(mine, "a_session_of_another_entity_is_reset"), 3)
    for gid in 3, 2**32, 2**63 - 1, LAST:
        play = guest.play(guest.unit("5", 2), f"a_session_of_another_entity_is_reset: its global id is {gid}")
        NumberedGuest(guest, gid).plays(play, mine.came)
        assert gid > 3 or as_recorded(guest, play)
        if gid > 3:
            behind = guest.play(mine, "")
            play.ways, play.numbers = behind.ways, behind.numbers
            yield from takes_up(guest, play, gid)


# ---- all of it


def tried_hosted(run):
    """Behind the whole run: authorizers, whose refusals name tickets that were issued, and links at the monitor."""
    guest = Guest(run)
    yield from byte_by_byte(run, run.blocks, guest.units)
    yield from wrong_authorizers(guest)
    yield from many_links(guest)


def tried_alone(run):
    """Behind what came to the daemon alone: all else."""
    guest = Guest(run)
    yield from cuts(guest)
    for unit in guest.units:
        is_open = run.blocks[unit.event][0][2] == SECOND
        if not is_open or (unit.kind == "sealed" and unit.tag() in (11, 17)):
            yield from tried_unit(run, run.blocks, unit, is_open=True, wrong=None)
    for tried in wrong_signatures, wrong_idents, wrong_reconnects, wrong_messages, taken_messages, stale_epochs, many_frames, largest_operations:
        yield from tried(guest)
