"""What is tried of requests and replies on open links, behind the run with renewed tickets: rows, each with what has to be printed for it. What
the monitor answers is computed by docs/formats.md and docs/rules.md; what was recorded of it is computed too, and compared."""

import copy
import hashlib
import hmac
import struct

from answering import ROTATING, TICKETS, Bearer, Monitor, State, Way
from answering import blob, header, parts_of, request, ticket_info, ticket_list, ticket_part, time, told_generations
from broken import changed, denial, flipped, plain, units_of
from ciphers import enveloped, secret_of
from runs import event_told, heads_of, heads_told, key_text, place_of, row_of

# The links of the client and of the daemon to the monitor, and those of its entities in their order.
CLIENT, DAEMON = "2", "1"
NAMES = [CLIENT, DAEMON]
LAST = 2**64 - 1


class Scene:
    """A run up to one of its events: under which keys frames go on each link, who is at its other end, what the monitor keeps, what was entered,
    and which draw of each node is the next."""

    def __init__(self, run, event):
        self.run, self.event, self.journal = run, event, run.entered(event)
        self.ways, self.sessions, self.numbers, self.asked = {}, {}, {}, {}
        self.monitor, self.reading = None, "0"
        for words, told in run.blocks[:event]:
            self.happens(words, told)

    def happens(self, words, told):
        node, kind = words[:2]
        _, self.reading, number = place_of(words)
        self.numbers[node] = int(number) + 1
        link = next((line.split()[1] for line in told if line.startswith("send ")), words[2])
        for line in told:
            what, kind, *more = line.split(" ")
            if what in ("sealed", "opened") and kind == "connection":
                content = bytes.fromhex(more[3])
                way = Way(bytes.fromhex(more[1]), content[:12])
                way.counter += 1
                self.ways[node, link, "out" if what == "sealed" else "into"] = way
            if what == "signed" and kind == "signature":
                self.sessions[node, link] = bytes.fromhex(more[1])
        opened = [bytes.fromhex(line.split()[5])[12:] for line in told if line.startswith("opened connection")]
        if node == "mon" and opened and opened[0][0] == 17:
            self.answers(link, opened, number, told)
        elif node == "mon":
            self.saves(told)

    def saves(self, told):
        saved = next((bytes.fromhex(line[5:]) for line in told if line.startswith("save ")), None)
        issued = (self.monitor.issued if self.monitor else 0) + told.count("entry issued")
        if saved:
            self.monitor = Monitor(0, saved, issued)
        elif self.monitor:
            self.monitor.issued = issued

    def answers(self, link, parts, number, told):
        """What was recorded of a request is what is computed of it."""
        seq, tid = struct.unpack("<QQ", parts[0][32:48])
        length, code = struct.unpack("<IH", parts[1][:6])
        keys = struct.unpack("<I", parts[1][7:11])[0] if length > 3 else 0
        self.asked[link] = seq
        body, save, lines = self.monitor.replies(self.bearer(link), int(self.reading), int(number), code, keys)
        way = self.ways["mon", link, "out"].copy()
        way.counter -= 2
        assert event_told(["mon", "turn", link, "line"], told)[1:] == given(link, save, lines, way.frame(17, header(0, tid, 18), body))
        assert all(line in self.run.journal for line in lines)

    def bearer(self, link):
        entities, *_ = heads_of(self.run.schedule)
        place = NAMES.index(link)
        name, grants = entities[place]
        gid = next(int(line.split()[4]) for line in self.run.journal if line.startswith("issued") and line.split()[2:4] == [name, "auth"])
        caps = dict([grants.replace('"', "").split(" ", 1)]) if grants else {}
        return Bearer(name, secret_of(place + 1), gid, self.sessions["mon", link], caps)

    def bearers(self):
        return {link: self.bearer(link) for link in NAMES if ("mon", link) in self.sessions}


def given(link, save, lines, sent, shut=False):
    """What is printed for what a step gave."""
    told = [f"  save {save.hex()}"] if save else []
    told += [f"  entries {len(lines)}"] if lines else []
    told += [f"  send {link} {sent.hex()}"] if sent else []
    return told + ([f"  shut {link}"] if shut else [])


class Play:
    """What is played behind a scene."""

    def __init__(self, scene, what):
        self.ways, self.numbers, self.asked = copy.deepcopy((scene.ways, scene.numbers, scene.asked))
        self.monitor, self.journal = copy.deepcopy((scene.monitor, scene.journal))
        self.reading, self.bearers = int(scene.reading), scene.bearers()
        row = f"again {len(scene.run.heads) + scene.event} {what}"
        self.lines = [(row, [row])]

    def row(self, node, what, told):
        number = self.numbers[node]
        self.numbers[node] += 1
        first = " ".join(what.split(" ")[:2])
        self.lines.append((f"at {node} {self.reading} {number} {what}", [f"{node} {first}", *told]))

    def way(self, node, link, direction="into"):
        return self.ways[node, link, direction]

    def frame(self, node, link, tag, *segments, late=b"\x0e"):
        """The next frame that comes to a node on a link."""
        return self.way(node, link).seal(parts_of(tag, segments, late))

    def asks(self, link, body, seq=None, tid=None, kind=17):
        """The next message to the monitor on a link."""
        seq = self.asked.get(link, 0) + 1 if seq is None else seq
        self.asked[link] = seq
        return self.frame("mon", link, 17, header(seq, seq if tid is None else tid, kind), body)

    def comes(self, node, link, data):
        self.row(node, f"bytes {link} {data.hex()}", [])

    def turns(self, node, link, told=()):
        self.row(node, f"turn {link}", told)

    def refuses(self, node, link, reason):
        self.journal.append(f"refused {node} {link} {reason}")
        self.turns(node, link, given(link, None, [None], None, shut=True))

    def replies(self, link, tid, code, keys=0):
        """The monitor's turn at a request."""
        body, save, lines = self.monitor.replies(self.bearers[link], self.reading, self.numbers["mon"], code, keys)
        self.journal += lines
        if isinstance(body, str):
            return self.refuses("mon", link, body)
        sent = self.way("mon", link, "out").frame(17, header(0, tid, 18), body)
        return self.turns("mon", link, given(link, save, lines, sent))

    def wants(self, keys):
        """The client is told to renew: its request is sent."""
        self.asked["client"] = number = self.asked.get("client", 0) + 1
        sent = self.way("client.a", CLIENT, "out").frame(17, header(number, number, 17), request(TICKETS, keys))
        self.row("client.a", f"submit renew {keys}", given(CLIENT, None, [], sent))

    def wants_none(self):
        """The client is told to renew where no link is open."""
        self.journal.append("refused client.a 0 no-session")
        self.row("client.a", "submit renew 4", ["  entries 1"])

    def end(self):
        yield from self.lines
        yield "journal", self.journal


# ---- frames that are refused alike by both ends of an open link

# The fields of a header, and where each ends.
FIELDS = {"seq": 8, "tid": 16, "type": 18, "priority": 20, "version": 22, "data_pre_padding_len": 26, "data_off": 28, "ack_seq": 36, "flags": 37}
FIELDS |= {"compat_version": 39, "reserved": 41}


def wrong_headers(head, body):
    """Messages whose header can't be read, or that have too few or too many segments."""
    start = 0
    for field, end in FIELDS.items():
        yield f"a header without the last byte of its {field}", (17, head[: end - 1], body), f"malformed {start}"
        start = end
    yield "no header", (17, b"", body), "malformed 0"
    yield "a byte behind the header", (17, head + b"\x00", body), "malformed 41"
    yield "so many bytes behind the header that there are three parts", (17, head + bytes(20), body), "malformed 41"
    yield "a third segment that isn't empty", (17, head, body, b"\x00"), "malformed 41"
    yield "a fourth segment that isn't empty", (17, head, body, b"", b"\x00"), "malformed 41"
    yield "a header alone", (17, head), "unexpected 17"


def wrong_tags():
    """Frames that aren't due on an open link, and keepalives that can't be read."""
    for tag in (1, 5, 6, 7, 8, 9, 11, 12, 16, 20):
        yield f"a frame with tag {tag}", (tag, time(1)), f"unexpected {tag}"
    for tag in 18, 19:
        yield f"tag {tag} with two segments", (tag, time(1), b""), f"unexpected {tag}"
        yield f"tag {tag} with a time of seven bytes", (tag, time(1)[:7]), "malformed 0"
        yield f"tag {tag} with a time of 1,000,000,000 nanoseconds", (tag, struct.pack("<II", 1, 10**9)), "malformed 0"
        yield f"tag {tag} with a byte behind its time", (tag, time(1) + b"\x00"), "malformed 8"


def wrong_blobs(whole, other):
    """Bodies whose blob or whose code can't be read, and those of other codes, which are refused by this."""
    inner = whole[4:]
    yield "an empty body", b"", "malformed 0"
    yield "a length of three bytes", whole[:3], "malformed 0"
    yield "a length that is too large", changed(whole, 0, struct.pack("<I", len(inner) + 1)), "malformed 0"
    yield "a byte behind the blob", whole + b"\x00", f"malformed {len(whole)}"
    yield "an empty blob", blob(b""), "malformed 4"
    yield "a code of one byte", blob(inner[:1]), "malformed 4"
    yield "a code alone", blob(inner[:2]), "malformed 6"
    yield "another version", changed(whole, 6, b"\x02"), "malformed 6"
    yield "a byte behind it in the blob", blob(inner + b"\x00"), f"malformed {len(whole)}"
    for code in 0, 0x0100, 0x0300, 0xFFFF:
        yield f"code {code:#06x}", changed(whole, 4, struct.pack("<H", code)), other
    yield "another code alone", blob(b"\x00\x03"), other
    yield "another code, and a byte behind the blob", changed(whole, 4, b"\x00\x03") + b"\x00", other
    yield "another code, and a length that is too large", blob(b"\x00\x03")[:-1], "malformed 0"


# ---- at the monitor


def wrong_requests():
    """Bodies of requests that are refused."""
    yield from wrong_blobs(request(TICKETS, 4), "bad-request")
    yield "services of three bytes", blob(struct.pack("<HB", TICKETS, 1) + b"\x04\x00\x00"), "malformed 7"
    for what, body, reason in (
        ("a byte behind the blob", request(ROTATING) + b"\x00", "malformed 7"),
        ("its code alone", blob(b"\x00\x04"), "malformed 6"),
        ("another version", blob(b"\x00\x04\x02"), "malformed 6"),
        ("a byte behind it in the blob", blob(b"\x00\x04\x01\x00"), "malformed 7"),
    ):
        yield f"a request for generations: {what}", body, reason


def misnumbered():
    """Messages to the monitor by seq, type and body, of which the first is due."""
    good, asks, short = request(TICKETS, 4), request(ROTATING), request(TICKETS, 4)[:-1]
    for seq in 0, 2, LAST:
        yield f"number {seq}", seq, 17, good, "gap 1"
    yield "number 2 and another code", 2, 17, blob(b"\x00\x03"), "gap 1"
    yield "number 2 and another type", 2, 42, good, "gap 1"
    yield "number 2 and a client's request for generations", 2, 17, asks, "gap 1"
    yield "number 2 and a body that can't be read", 2, 17, short, "malformed 0"
    for kind in 0, 18, 42, 43, 65535:
        yield f"type {kind}", 1, kind, good, "bad-request"
    yield "type 42 and a body that can't be read", 1, 42, short, "bad-request"
    yield "a client's request for generations", 1, 17, asks, "not-a-daemon"


def refused_at_monitor(scene):
    """Each refusal of a request that a client's frame can give: nothing is sent, saved or issued, and nothing behind it is handled."""
    good = request(TICKETS, 4)
    frames = [*wrong_headers(header(1, 1, 17), good), *wrong_tags()]
    frames += [(what, (17, header(1, 1, 17), body), reason) for what, body, reason in wrong_requests()]
    frames += [(what, (17, header(seq, 1, kind), body), reason) for what, seq, kind, body, reason in misnumbered()]
    for what, (tag, *segments), reason in frames:
        play = Play(scene, f"to the monitor: {what}")
        play.comes("mon", CLIENT, play.frame("mon", CLIENT, tag, *segments) + play.asks(CLIENT, good, seq=1))
        play.refuses("mon", CLIENT, reason)
        play.turns("mon", CLIENT)
        yield from play.end()


def between_requests(scene):
    """A request that is answered, with what comes behind it in the same piece."""
    for what, seq, reason in (("the same number again", 1, "gap 2"), ("a number that is left out", 3, "gap 2")):
        play = Play(scene, f"to the monitor, behind a request: {what}")
        good = request(TICKETS, 4)
        play.comes("mon", CLIENT, play.asks(CLIENT, good) + play.asks(CLIENT, good, seq=seq) + play.asks(CLIENT, good, seq=2))
        play.replies(CLIENT, 1, TICKETS, 4)
        play.refuses("mon", CLIENT, reason)
        play.turns("mon", CLIENT)
        yield from play.end()


def taken_at_monitor(scene):
    """Requests that are answered: under any tid, with any other fields, with empty segments, for any sum of services."""
    play = Play(scene, "to the monitor: any other fields, empty segments, any tid")
    strange = header(1, LAST, 17, (0, 65535, 4294967295, 65535, LAST, 255, 0, 65535))
    play.comes("mon", CLIENT, play.frame("mon", CLIENT, 17, strange, request(TICKETS, 4), b"", b""))
    play.replies(CLIENT, LAST, TICKETS, 4)
    play.asked[CLIENT] = 1
    play.comes("mon", CLIENT, play.asks(CLIENT, request(TICKETS, 4), tid=0))
    play.replies(CLIENT, 0, TICKETS, 4)
    for keys in 0, 2, 32, 4294967295:
        play.comes("mon", CLIENT, play.asks(CLIENT, request(TICKETS, keys)))
        play.replies(CLIENT, play.asked[CLIENT], TICKETS, keys)
    yield from play.end()


def by_a_daemon(scene):
    """A daemon without capabilities asks for tickets and gets none; then for generations; then in the wrong order."""
    play = Play(scene, "to the monitor: a daemon asks for tickets, and for generations")
    play.comes("mon", DAEMON, play.asks(DAEMON, request(TICKETS, 22)) + play.asks(DAEMON, request(ROTATING)))
    play.replies(DAEMON, play.asked[DAEMON] - 1, TICKETS, 22)
    play.replies(DAEMON, play.asked[DAEMON], ROTATING)
    due = play.asked[DAEMON] + 1
    play.comes("mon", DAEMON, play.asks(DAEMON, request(ROTATING), seq=due + 1))
    play.refuses("mon", DAEMON, f"gap {due}")
    play.comes("mon", CLIENT, play.asks(CLIENT, request(TICKETS, 4)))
    play.replies(CLIENT, 1, TICKETS, 4)
    yield from play.end()


def behind_refused(scene):
    """The secrets are rotated at a request that is refused, and saved at the next one that is answered."""
    play = Play(scene, "to the monitor: the secrets are rotated at a request that is refused, and saved at the next that is answered")
    play.reading = 9000
    play.comes("mon", CLIENT, play.asks(CLIENT, request(ROTATING)))
    play.replies(CLIENT, 1, ROTATING)
    for _ in range(2):
        play.comes("mon", DAEMON, play.asks(DAEMON, request(ROTATING)))
        play.replies(DAEMON, play.asked[DAEMON], ROTATING)
    yield from play.end()


def behind_gap(scene):
    """Nothing is rotated at a message that isn't the next."""
    play = Play(scene, "to the monitor: at a number that isn't due nothing is rotated")
    play.reading = 9000
    play.comes("mon", CLIENT, play.asks(CLIENT, request(TICKETS, 4), seq=2))
    play.refuses("mon", CLIENT, "gap 1")
    play.comes("mon", DAEMON, play.asks(DAEMON, request(ROTATING)))
    play.replies(DAEMON, play.asked[DAEMON], ROTATING)
    yield from play.end()


def forgotten_at_monitor(scene):
    """A request on a link that is gone, and on one that the monitor forgot as it began anew."""
    for what, entered in ("gone 2", []), ("restart", ["restarted mon"]):
        play = Play(scene, f"to the monitor: {what}, and then a request")
        play.journal += entered
        play.row("mon", what, given(CLIENT, None, entered, None))
        play.comes("mon", CLIENT, play.asks(CLIENT, request(TICKETS, 4)))
        play.turns("mon", CLIENT)
        yield from play.end()


# ---- many frames


def many_at_monitor(scene):
    """Two hundred frames in one piece: keepalives, their answers, requests for no ticket, and here and there one for a ticket."""
    play = Play(scene, "to the monitor: 200 frames in one piece")
    piece, steps = b"", []
    for i in range(200):
        if i % 2 == 0:
            keys = 4 if i % 20 == 0 else 0
            piece += play.asks(CLIENT, request(TICKETS, keys))
            steps.append((17, play.asked[CLIENT], keys))
        else:
            tag = 19 if i % 8 == 1 else 18
            piece += play.frame("mon", CLIENT, tag, struct.pack("<II", i, 5))
            steps.append((tag, i, None))
    play.comes("mon", CLIENT, piece)
    for tag, number, keys in steps:
        if tag == 17:
            play.replies(CLIENT, number, TICKETS, keys)
        else:
            sent = play.way("mon", CLIENT, "out").frame(19, struct.pack("<II", number, 5)) if tag == 18 else None
            play.turns("mon", CLIENT, given(CLIENT, None, [], sent))
    play.turns("mon", CLIENT)
    yield from play.end()


def many_at_client(scene):
    """Two hundred frames in one piece: replies without a ticket, here and there one with a ticket, keepalives and their answers."""
    play = Play(scene, "to the client: 200 frames in one piece")
    for i in range(99):
        play.wants(4 if i % 10 == 0 else 0)
    piece, steps = b"", []
    for i in range(200):
        if i % 2 == 0:
            tid = i // 2 + 1
            piece += play.frame("client.a", CLIENT, 17, header(0, tid, 18), ticket_list([a_ticket(scene)] if (tid - 1) % 10 == 0 else []))
            steps.append(None)
        else:
            tag = 19 if i % 8 == 1 else 18
            piece += play.frame("client.a", CLIENT, tag, struct.pack("<II", i, 5))
            steps.append(struct.pack("<II", i, 5) if tag == 18 else None)
    play.comes("client.a", CLIENT, piece)
    for answered in steps:
        sent = play.way("client.a", CLIENT, "out").frame(19, answered) if answered else None
        play.turns("client.a", CLIENT, given(CLIENT, None, [], sent))
    play.turns("client.a", CLIENT)
    yield from play.end()


def cut_at_monitor(scene):
    """A request comes in two pieces, cut behind its first byte, and so on, each the next request."""
    play = Play(scene, "to the monitor: requests in two pieces, each cut a byte later")
    for place in range(1, 144):
        frame = play.asks(CLIENT, request(TICKETS, 0))
        assert len(frame) == 144
        play.comes("mon", CLIENT, frame[:place])
        play.turns("mon", CLIENT)
        play.comes("mon", CLIENT, frame[place:])
        play.replies(CLIENT, play.asked[CLIENT], TICKETS, 0)
    yield from play.end()


def cut_at_client(scene):
    """A reply comes in two pieces, cut behind its first byte, and so on, each to the next request."""
    play = Play(scene, "to the client: replies in two pieces, each cut a byte later")
    for place in range(1, 144):
        if place > 1:
            play.wants(0)
        frame = play.frame("client.a", CLIENT, 17, header(0, place, 18), ticket_list([]))
        assert len(frame) == 144
        play.comes("client.a", CLIENT, frame[:place])
        play.turns("client.a", CLIENT)
        play.comes("client.a", CLIENT, frame[place:])
        play.turns("client.a", CLIENT)
    yield from play.end()


# ---- at the client

SESSION = bytes(range(16))


def told_ticket(scene, service="osd", content=None, secret=None):
    """A TicketInfo, sealed for the client."""
    content = ticket_info(service, SESSION, 4000, 7600) if content is None else content
    return enveloped(scene.sessions["client.a", CLIENT] if secret is None else secret, content)


def a_ticket(scene, service="osd", info=None):
    return ticket_part(service, told_ticket(scene, service) if info is None else info, 2, b"the ticket itself")


def wrong_replies(scene):
    """Bodies of replies to a request for tickets that are refused."""
    osd, mgr = a_ticket(scene), a_ticket(scene, "mgr")
    whole, behind = ticket_list([osd]), 11 + len(osd)
    yield from wrong_blobs(whole, "bad-reply")
    yield "a count of three bytes", blob(whole[4:10]), "malformed 7"
    yield "a count of one more than there are", changed(whole, 7, b"\x02"), f"malformed {behind}"
    yield "a count of none", changed(whole, 7, b"\x00"), "malformed 11"
    for service in (0, 1, 3, 8, 32):
        yield f"a ticket for the service {service}", changed(whole, 11, struct.pack("<I", service)), "malformed 11"
    yield "MGR before OSD", ticket_list([mgr, osd]), f"malformed {11 + len(mgr)}"
    yield "OSD twice", ticket_list([osd, osd]), f"malformed {behind}"
    yield "another version of a ticket", changed(whole, 15, b"\x02"), "malformed 15"
    yield "a length of a TicketInfo that is too large", changed(whole, 16, struct.pack("<I", 65536)), "malformed 16"
    yield "another version of a ticket blob", changed(whole, 20 + 64, b"\x02"), "malformed 84"
    yield "a length of a ticket blob that is too large", changed(whole, 20 + 64 + 9, struct.pack("<I", 65536)), "malformed 84"
    sealed = told_generations(bytes(32))
    yield "generations", sealed, "bad-reply"
    yield "generations: their code alone", blob(b"\x00\x04"), "malformed 6"
    yield "generations: a length that is too large", changed(sealed, 6, struct.pack("<I", 33)), "malformed 6"
    yield "generations: a byte behind them in the blob", blob(sealed[4:] + b"\x00"), f"malformed {len(sealed)}"


def unopened(scene):
    """Replies of which a TicketInfo doesn't open to its record, in frames that are sealed right."""
    info, content = told_ticket(scene), ticket_info("osd", SESSION, 4000, 7600)
    assert len(info) == 64
    for place in 0, 63:
        yield f"another byte {place} of a TicketInfo", [a_ticket(scene, info=flipped(info, place))]
    yield "a TicketInfo without its last block", [a_ticket(scene, info=info[:48])]
    yield "an empty TicketInfo", [a_ticket(scene, info=b"")]
    yield "a TicketInfo of 63 bytes", [a_ticket(scene, info=info[:63])]
    yield "a TicketInfo under the client's own secret", [a_ticket(scene, info=told_ticket(scene, secret=secret_of(1)))]
    yield "a record of another kind", [a_ticket(scene, info=told_ticket(scene, content=b"\x03" + content[1:]))]
    yield "a TicketInfo with a byte behind it", [a_ticket(scene, info=told_ticket(scene, content=content + b"\x00"))]
    yield "a TicketInfo that ends too early", [a_ticket(scene, info=told_ticket(scene, content=content[:-1]))]
    yield "a service that there isn't", [a_ticket(scene, info=told_ticket(scene, content=changed(content, 1, b"\x03")))]
    yield "the second of two", [a_ticket(scene), a_ticket(scene, "mgr", info=flipped(info, 0))]


def refused_at_client(scene):
    """Each refusal of a reply: nothing is sent, nothing behind it is handled, and the link is no longer one on which tickets can be renewed."""
    good = ticket_list([a_ticket(scene)])
    frames = [*wrong_headers(header(0, 1, 18), good), *wrong_tags()]
    frames += [(what, (17, header(0, 1, 18), body), reason) for what, body, reason in wrong_replies(scene)]
    frames += [(what, (17, header(0, 1, 18), ticket_list(parts)), "unopened") for what, parts in unopened(scene)]
    for what, tid, kind, body, reason in (
        ("tid 0", 0, 18, good, "bad-reply"),
        ("tid 2", 2, 18, good, "bad-reply"),
        ("tid 2 and a body that can't be read", 2, 18, good[:-1], "malformed 0"),
        ("tid 2 and a TicketInfo that doesn't open", 2, 18, ticket_list([a_ticket(scene, info=b"")]), "bad-reply"),
        ("type 0", 1, 0, good, "unexpected 17"),
        ("type 17", 1, 17, request(TICKETS, 4), "unexpected 17"),
        ("type 42", 1, 42, good, "unexpected 17"),
        ("type 43, tid 2 and a body that can't be read", 2, 43, b"", "unexpected 17"),
    ):
        frames.append((what, (17, header(0, tid, kind), body), reason))
    for what, (tag, *segments), reason in frames:
        play = Play(scene, f"to the client: {what}")
        frame = play.frame("client.a", CLIENT, tag, *segments)
        play.comes("client.a", CLIENT, frame + play.frame("client.a", CLIENT, 17, header(0, 1, 18), good))
        play.refuses("client.a", CLIENT, reason)
        play.turns("client.a", CLIENT)
        play.wants_none()
        yield from play.end()


def taken_at_client(scene):
    """Three requests wait, and their replies come in order: with any seq and any other fields, with tickets of services that were not asked, and
    with none."""
    play = Play(scene, "to the client: three requests and their replies")
    play.wants(6)
    play.wants(0)
    strange = header(LAST, 1, 18, (0, 65535, 4294967295, 65535, LAST, 255, 0, 65535))
    bodies = [ticket_list([a_ticket(scene, service) for service in ("mds", "osd", "mgr")]), ticket_list([]), ticket_list([a_ticket(scene, "mgr")])]
    piece = play.frame("client.a", CLIENT, 17, strange, bodies[0], b"", b"")
    for tid in 2, 3:
        piece += play.frame("client.a", CLIENT, 17, header(0, tid, 18), bodies[tid - 1])
    piece += play.frame("client.a", CLIENT, 17, header(0, 3, 18), bodies[2])
    play.comes("client.a", CLIENT, piece)
    for _ in range(3):
        play.turns("client.a", CLIENT)
    play.refuses("client.a", CLIENT, "bad-reply")
    play.wants_none()
    yield from play.end()


def misordered_at_client(scene):
    """The second of two requests is answered first."""
    play = Play(scene, "to the client: the second of two requests is answered first")
    play.wants(4)
    play.comes("client.a", CLIENT, play.frame("client.a", CLIENT, 17, header(0, 2, 18), ticket_list([])))
    play.refuses("client.a", CLIENT, "bad-reply")
    yield from play.end()


def unasked_at_client(scene):
    """A reply where no request waits: of tickets, of generations, and one that can't be read."""
    for what, body, reason in (
        ("tickets", ticket_list([a_ticket(scene)]), "bad-reply"),
        ("generations", told_generations(bytes(32)), "bad-reply"),
        ("another code", blob(b"\x00\x03"), "bad-reply"),
        ("a body that can't be read", b"", "malformed 0"),
    ):
        play = Play(scene, f"to the client, which asked for nothing: {what}")
        play.comes("client.a", CLIENT, play.frame("client.a", CLIENT, 17, header(0, 1, 18), body))
        play.refuses("client.a", CLIENT, reason)
        yield from play.end()


def unopened_links(run, scene, first, last):
    """Renew where no link is open: before the login, at each of its stages, and where the link is gone, was forgotten, or is shut for a new login."""
    play = Play(Scene(run, first), "the client: Renew before the login, and at each of its stages")
    play.numbers.setdefault("client.a", 0)
    for event, (words, told) in enumerate(run.blocks[first:last], first):
        _, play.reading, number = place_of(words)
        if words[0] == "client.a" and event > first and play.numbers["client.a"] < int(number):
            play.wants_none()
        play.numbers[words[0]] = int(number) + 1
        play.lines.append((row_of(words), event_told(words, told)))
        play.journal += run.entered(event + 1)[len(run.entered(event)) :]
    yield from play.end()
    play = Play(Scene(run, first), "the client: Renew before anything else")
    play.numbers["client.a"] = 0
    play.wants_none()
    yield from play.end()
    for what, told, entered in (
        ("gone 2", [], []),
        ("restart", ["  entries 1"], ["restarted client.a"]),
        ("submit login 4", ["  open mon", "  shut 2"], []),
    ):
        play = Play(scene, f"the client: {what}, and then Renew")
        play.journal += entered
        play.row("client.a", what, told)
        play.wants_none()
        play.comes("client.a", CLIENT, play.frame("client.a", CLIENT, 17, header(0, 1, 18), ticket_list([])))
        play.turns("client.a", CLIENT)
        yield from play.end()


# ---- counters at their end: of the client alone, since it takes any secret of a connection


def spent_counters(run, first, last):
    """The secret of the connection comes with another counter, sealed right; so all that follows is sealed anew."""
    for what, at, counter, tell in (
        ("the counter for its parts is spent at Renew", 32, LAST - 3, spent_at_renew),
        ("the counter for the parts of replies is spent", 20, LAST - 3, spent_at_reply),
        ("the counter for the parts of replies is spent in the middle of one", 20, LAST - 4, spent_at_reply),
    ):
        yield from spent_counter(run, first, last, f"the client: {what}", at, counter, tell)


def spent_counter(run, first, last, what, at, counter, tell):
    blocks = run.blocks
    units = [unit for unit in units_of(blocks[:last]) if blocks[unit.event][0][0] == "client.a"]
    done = next(unit for unit in units if unit.kind == "plain" and unit.tag() == 6)
    secret = next(content[5:] for content in contents_of(blocks[done.event], "opened session") if content[0] == 7)
    session = Scene(run, last).sessions["client.a", CLIENT]
    other = changed(secret, at, struct.pack("<Q", counter))
    old, new = (enveloped(session, b"\x07" + blob(text)) for text in (secret, other))
    assert old in done.segment()
    piece = plain(done.preamble()[:28], done.segment().replace(old, new))
    into, out = Way(other[:16], other[16:28]), Way(other[:16], other[28:40])
    play = Play(Scene(run, done.came), what)
    play.ways["client.a", CLIENT, "into"], play.ways["client.a", CLIENT, "out"] = into, out
    covered = b"".join(unit.bytes for unit in units if unit.event < done.event) + piece
    signed = hmac.new(session, covered, hashlib.sha256).digest()
    signature, ident = [unit for unit in units if unit.kind == "sealed" and unit.event > done.event][:2]
    words = blocks[done.came][0]
    play.lines.append((row_of(words, (piece + into.seal(signature.parts)).hex()), [f"client.a bytes {CLIENT}"]))
    play.lines.append((row_of(blocks[done.event][0]), [f"client.a turn {CLIENT}", *given(CLIENT, None, [], out.frame(7, signed))]))
    sent = out.seal([content[12:] for content in contents_of(blocks[signature.event], "sealed connection")])
    play.lines.append((row_of(blocks[signature.event][0]), [f"client.a turn {CLIENT}", *given(CLIENT, None, [], sent)]))
    play.numbers["client.a"] = int(place_of(blocks[signature.event][0])[2]) + 1
    play.reading = int(place_of(words)[1])
    play.comes("client.a", CLIENT, into.seal(ident.parts))
    play.turns("client.a", CLIENT)
    tell(play)
    yield from play.end()


def contents_of(block, what):
    """What was sealed or opened at an event."""
    return [bytes.fromhex(line.split()[5]) for line in block[1] if line.startswith(what)]


def spent_at_renew(play):
    play.journal.append(f"refused client.a {CLIENT} counter-spent")
    play.row("client.a", "submit renew 4", given(CLIENT, None, [None], None, shut=True))
    play.wants_none()


def spent_at_reply(play):
    play.wants(0)
    way = play.way("client.a", CLIENT)
    parts = parts_of(17, (header(0, 1, 18), ticket_list([])))
    frame = way.seal(parts[: LAST - way.counter])
    play.comes("client.a", CLIENT, frame + bytes(144 - len(frame)))
    play.refuses("client.a", CLIENT, "counter-spent")


# ---- a monitor with other entities, and with a kept state near its end


def made_heads(caps, kept=b""):
    """The rows before the first event of a monitor whose entities have these caps, and which kept this state."""
    for (entity, number), grants in caps.items():
        yield f"ring [{entity}]"
        yield f"ring key = {key_text(secret_of(number))}"
        for service, text in grants.items():
            yield f'ring caps {service} = "{text}"'
    yield " ".join(["monitor 0 3600 43200", kept.hex()]).rstrip()


def begun(title, heads):
    """A run begins with these rows."""
    yield title, [title]
    yield from ((row, heads_told([row])) for row in heads)


def login_rows(run, link, last):
    """The rows of the monitor's part of a recorded login."""
    for words, told in run.blocks[:last]:
        if words[0] == "mon" and words[2] == link:
            yield row_of(words), event_told(words, told)


MORE = {("client.a", 1): {"mgr": "allow r", "osd": "allow *", "mds": "allow rw"}, ("osd.0", 2): {"osd": "allow x"}}


def more_tickets(run, scene, last):
    """Entities with more capabilities: each sum of services, by a client and by a daemon."""
    heads = list(made_heads(MORE))
    yield from begun("# more_tickets: tickets for each sum of services", heads)
    yield (row := f"again {len(heads)} the logins of a daemon and of a client"), [row]
    for words, told in run.blocks[:last]:
        if words[0] == "mon":
            yield row_of(words), event_told(words, told)
    play = Play(scene, "")
    play.lines = []
    play.bearers[CLIENT].caps, play.bearers[DAEMON].caps = MORE.values()
    for keys in (*range(0, 32, 2), 32, 63, 4294967295):
        play.comes("mon", CLIENT, play.asks(CLIENT, request(TICKETS, keys)))
        play.replies(CLIENT, play.asked[CLIENT], TICKETS, keys)
    for keys in 2, 4, 22:
        play.comes("mon", DAEMON, play.asks(DAEMON, request(TICKETS, keys)))
        play.replies(DAEMON, play.asked[DAEMON], TICKETS, keys)
    yield from play.end()


SPENT = {("osd.0", 2): {"osd": "allow *", "mds": "allow *"}}


def spent_ids(run, scene, first):
    """A monitor whose generations of OSD have the last ids and are over: a daemon that may have tickets for OSD and MDS logs in and asks."""
    recorded = next(line for words, told in run.blocks for line in told if line.startswith("save "))
    state = State(bytes.fromhex(recorded[5:]))
    state.next_gid = 1
    state.generations["osd"] = [(2**64 - 6 + i, bytes([i]) * 16, 100 * (i + 1)) for i in range(3)]
    kept = state.bytes()
    state.next_gid = 2
    heads = list(made_heads(SPENT, kept))
    yield from begun("# spent_ids: generations of OSD with the last ids, which are over", heads)
    yield (row := f"again {len(heads)} a daemon's login"), [row]
    logins = list(login_rows(run, DAEMON, first))[:-2]
    yield from ((row, [f"  save {state.bytes().hex()}" if line.startswith("  save") else line for line in told]) for row, told in logins)
    for what, asks in (
        ("a ticket for OSD", ((TICKETS, 4),)),
        ("tickets for MDS and OSD", ((TICKETS, 6),)),
        ("a ticket for MDS, then the generations of OSD, then a ticket for OSD", ((TICKETS, 2), (ROTATING, 0), (TICKETS, 4))),
    ):
        yield (row := f"again {len(heads) + len(logins)} a daemon asks for {what}"), [row]
        play = Play(scene, "")
        play.lines, play.journal = [], ["saved 2", *play.journal[1:2]]
        play.monitor = Monitor(0, state.bytes(), 1)
        play.bearers[DAEMON].caps = SPENT["osd.0", 2]
        for code, keys in asks:
            body = request(code) if code == ROTATING else request(code, keys)
            play.comes("mon", DAEMON, play.asks(DAEMON, body))
            play.replies(DAEMON, play.asked[DAEMON], code, keys)
        yield from play.end()


def spent_logins(run, last):
    """A monitor whose generations of AUTH, or of OSD, have the last ids and are over, or whose global ids were all given: the recorded login of a client
    that asks for a ticket for OSD."""
    recorded = next(line for words, told in run.blocks for line in told if line.startswith("save "))
    rows = [(words, told) for words, told in run.blocks[:last] if words[0] == "mon" and words[2] == CLIENT]
    proof = next(i for i, (_, told) in enumerate(rows) if "entry issued" in told)
    frame = bytes.fromhex(rows[proof - 1][0][3])
    for what, service, reason in (
        ("generations of AUTH with the last ids, which are over", "auth", "ids-spent"),
        ("generations of OSD with the last ids, which are over", "osd", "ids-spent"),
        ("the last global id was given", None, "gids-spent"),
    ):
        state = State(bytes.fromhex(recorded[5:]))
        if service:
            state.generations[service] = [(2**64 - 6 + i, bytes([i]) * 16, 100 * (i + 1)) for i in range(3)]
        else:
            state.next_gid = LAST
        heads = [f"{row} {state.bytes().hex()}" if row.startswith("monitor") else row for row in run.heads]
        yield from begun(f"# spent_logins: {what}", heads)
        yield from ((row_of(words), event_told(words, told, logs=True)) for words, told in rows[:proof])
        words = rows[proof][0]
        yield (row := f"again {len(heads) + proof} a login"), [row]
        yield row_of(words), ["mon turn 2", *given(CLIENT, None, [None], denial(frame[:28], 13), shut=True)]
        yield "journal", [f"refused mon {CLIENT} {reason}"]


# ---- the monitor's two calls alone: what no frames of a run can bring to it


def unmet(run):
    """Requests of an entity that isn't in the keyring, and behind the last numbers of messages."""
    yield (row := "# unmet: requests of an entity that isn't in the keyring, and behind the last numbers"), [row]
    yield from ((line, []) for line in run.rows() if line.startswith("ring "))
    most = 2**64 - 1
    for name, last, seq, code, told in (
        ("client.a", 0, 1, TICKETS, "answered"),
        ("client.b", 0, 1, TICKETS, "refused unknown-entity"),
        ("client.b", 0, 1, ROTATING, "refused not-a-daemon"),
        ("client.b", 0, 2, TICKETS, "refused gap 1"),
        ("client.a", most - 1, most, TICKETS, "answered"),
        ("client.a", most - 1, 1, TICKETS, f"refused gap {most}"),
        ("client.a", most, most, TICKETS, "refused spent"),
        ("client.a", most, 0, TICKETS, "refused spent"),
        ("client.a", most, 1, ROTATING, "refused spent"),
    ):
        body = request(code) if code == ROTATING else request(code, 4)
        row = f"request {name} {last} 1000 {header(seq, 1, 17).hex()} {body.hex()}"
        yield row, [f"request {name} {last}", f"  {told}"]


# ---- all of it


def tried_asked(run):
    events = [i for i, (words, _) in enumerate(run.blocks) if words[1] == "submit"]
    login, renew, again = events
    requests = [i for i, (words, _) in enumerate(run.blocks) if words[0] == "mon" and words[1] == "bytes" and i > renew]
    replies = [i for i, (words, _) in enumerate(run.blocks) if words[0] == "client.a" and words[1] == "bytes" and i > renew]
    first, open_links, asked, waiting = Scene(run, login - 2), Scene(run, renew), Scene(run, requests[0]), Scene(run, replies[0])
    open_links.reading = asked.reading
    Scene(run, len(run.blocks))
    waiting.asked["client"] = 1
    for tried in refused_at_monitor, between_requests, taken_at_monitor, by_a_daemon, behind_refused, behind_gap, forgotten_at_monitor:
        yield from tried(asked)
    yield from many_at_monitor(asked)
    yield from cut_at_monitor(asked)
    for tried in refused_at_client, taken_at_client, misordered_at_client, many_at_client, cut_at_client:
        yield from tried(waiting)
    yield from unasked_at_client(open_links)
    yield from unopened_links(run, open_links, login, renew)
    yield from spent_counters(run, login, renew)
    yield from more_tickets(run, open_links, renew)
    yield from spent_ids(run, first, login)
    yield from spent_logins(run, renew)
    yield from unmet(run)
