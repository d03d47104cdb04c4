"""What is tried of a daemon's own link to the monitor, behind a recorded run: each banner and frame that comes on it, cut and broken; wrong replies to
its request for generations; and links that aren't opened or don't live until they are open. Behind each the daemon fetches anew."""

import struct

from answering import blob, header, ticket_list, told_generations
from asked import LAST, Play, wrong_headers, wrong_tags
from broken import changed, flipped, plain, tried_unit
from ciphers import enveloped, secret_of
from hosted import DAEMON, Guest, finished, segments_of

OWN = "1"


def fetches(play):
    """The daemon is told to fetch, and no fetch is under way."""
    play.row(DAEMON, "submit fetch", ["  open mon"])


def refused(guest, unit, what, frame, reason):
    play = guest.play(unit, f"the daemon's own link: {what}")
    tag, *segments = frame
    play.comes(DAEMON, OWN, play.frame(DAEMON, OWN, tag, *segments) + play.frame(DAEMON, OWN, 17, *segments_of(unit.parts)))
    play.refuses(DAEMON, OWN, reason)
    play.turns(DAEMON, OWN)
    fetches(play)
    yield from play.end()


def generations(content):
    return told_generations(enveloped(secret_of(2), content))


def wrong_replies(guest):
    """Replies that are refused."""
    unit = guest.unit(OWN, 17)
    head, body = segments_of(unit.parts)
    content = bytes.fromhex(next(line for line in guest.run.blocks[unit.event][1] if line.startswith("opened principal")).split()[5])
    assert generations(content) == body
    frames = [*wrong_headers(head, body), *wrong_tags()]
    frames += [(what, (17, head, wrong), reason) for what, wrong, reason in wrong_replies_in(body)]
    frames += [(f"type {kind}", (17, header(0, 1, kind), body), "unexpected 17") for kind in (0, 17, 42, 43, 65535)]
    frames += [(f"tid {tid}", (17, header(0, tid, 18), body), "bad-reply") for tid in (0, 2, LAST)]
    frames.append(("tickets where generations are due", (17, head, ticket_list([])), "bad-reply"))
    for what, wrong in (
        ("another first byte", flipped(content, 0)),
        ("a record that is short", content[:-1]),
        ("a byte behind the record", content + b"\x00"),
        ("two generations", changed(content, 5, struct.pack("<I", 2))[: 9 + 88]),
        ("ids that don't rise", changed(content, 9, struct.pack("<Q", 2))),
    ):
        frames.append((f"generations: {what}", (17, head, generations(wrong)), "unopened"))
    frames.append(("generations that another secret seals", (17, head, told_generations(enveloped(secret_of(1), content))), "unopened"))
    frames.append(("no sealed generations", (17, head, told_generations(b"")), "unopened"))
    for what, frame, reason in frames:
        yield from refused(guest, unit, what, frame, reason)
    yield from unasked(guest, unit, head, body)


def wrong_replies_in(body):
    """Bodies whose blob or code can't be read, or is another one."""
    inner = body[4:]
    yield "an empty body", b"", "malformed 0"
    yield "a length of three bytes", body[:3], "malformed 0"
    yield "a length that is too large", changed(body, 0, struct.pack("<I", len(inner) + 1)), "malformed 0"
    yield "a byte behind the blob", body + b"\x00", f"malformed {len(body)}"
    yield "a code of one byte", blob(inner[:1]), "malformed 4"
    yield "its code alone", blob(inner[:2]), "malformed 6"
    yield "a byte behind it in the blob", blob(inner + b"\x00"), f"malformed {len(body)}"
    yield "a length of the sealed generations that is too large", changed(body, 6, struct.pack("<I", 65537)), "malformed 6"
    for code in 0, 0x0100, 0xFFFF:
        yield f"code {code:#06x}", changed(body, 4, struct.pack("<H", code)), "bad-reply"


def unasked(guest, unit, head, body):
    """A second reply, for which nothing asked."""
    play = guest.play(unit, "the daemon's own link: a second reply")
    play.comes(DAEMON, OWN, play.frame(DAEMON, OWN, 17, head, body) + play.frame(DAEMON, OWN, 17, header(0, 2, 18), body))
    play.turns(DAEMON, OWN, guest.recorded(unit))
    play.journal += guest.entered(unit)
    play.refuses(DAEMON, OWN, "bad-reply")
    fetches(play)
    yield from play.end()


def denied_logins(guest):
    """AUTH_BAD_METHOD in the place of AUTH_DONE."""
    unit = guest.unit(OWN, 6)
    for code in 13, 95, 0:
        play = guest.play(unit, f"the daemon's own link: denied by {code}")
        payload = struct.pack("<6I", 2, 2**32 - code if code else 0, 1, 2, 1, 2)
        play.comes(DAEMON, OWN, plain(changed(changed(unit.preamble()[:28], 0, b"\x03"), 2, struct.pack("<I", len(payload))), payload))
        play.refuses(DAEMON, OWN, f"denied {code}")
        fetches(play)
        yield from play.end()


def unopened_links(guest):
    """No link to the monitor could be opened; one is gone before it is open, at each of its turns; one that is open is gone."""
    run = guest.run
    first = next(i for i, (words, _) in enumerate(run.blocks) if words[:2] == [DAEMON, "opened"])
    play = Play(guest.scene_at(first), "the daemon's own link: it can't be opened")
    play.row(DAEMON, "submit fetch", [])
    play.row(DAEMON, "nolink mon", ["  entries 1"])
    fetches(play)
    play.row(DAEMON, "nolink mon", ["  entries 1"])
    yield from finished(play, [f"refused {DAEMON} 0 no-link"] * 2)
    reply = guest.unit(OWN, 17)
    asked = next(i for i, (words, _) in enumerate(run.blocks) if words[0] == DAEMON and words[1] == "turn" and i > guest.unit(OWN, 9).came)
    for event, (words, _) in enumerate(run.blocks[: reply.event + 1]):
        if words[0] != DAEMON or words[1] != "turn":
            continue
        play = Play(guest.scene_at(event + 1), f"the daemon's own link: it is gone behind the turn with draw {words[-1]}")
        lost = event < asked
        play.row(DAEMON, f"gone {OWN}", ["  entries 1"] * lost)
        fetches(play)
        yield from finished(play, [f"refused {DAEMON} {OWN} lost"] * lost)


def tried_own(run):
    guest = Guest(run, (OWN,))
    opened = guest.unit(OWN, 9).event
    for unit in guest.units:
        unit.lengths = None
        yield from tried_unit(run, run.blocks, unit, is_open=unit.event > opened, connects=(DAEMON,))
    for tried in wrong_replies, denied_logins, unopened_links:
        yield from tried(guest)
