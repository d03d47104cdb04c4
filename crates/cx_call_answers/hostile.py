"""Frames of a hostile daemon: each kind that comes to a client on a link to a daemon, cut at each length, and wrong in each of its fields, where it is due; and
what a client refuses by itself. What it has to give is by docs/formats.md and docs/rules.md."""

import struct

from answering import blob, header, parts_of, time
from asked import LAST, wrong_headers
from broken import BROKEN, Unit, changed, flipped
from calling import BANNER, FIRST, NODE, SECOND, SECRET, THIRD, answer, challenge_of, done, hello, made, plain_frame, reads, reply_content, server_ident
from ciphers import crc, enveloped, secret_of
from hosted import number, segments_of
from runs import place_of

NAMES = {
    1: "HELLO", 3: "AUTH_BAD_METHOD", 4: "AUTH_REPLY_MORE", 6: "AUTH_DONE", 7: "AUTH_SIGNATURE", 9: "SERVER_IDENT", 10: "IDENT_MISSING_FEATURES",
    12: "SESSION_RESET", 13: "SESSION_RETRY", 14: "SESSION_RETRY_GLOBAL", 15: "SESSION_RECONNECT_OK", 17: "an answer", 18: "KEEPALIVE2",
    19: "KEEPALIVE2_ACK", 20: "ACK",
}  # fmt: skip


def named(unit):
    return "the banner" if unit.kind == "banner" else NAMES[unit.tag()]


# ---- a frame in the place of another one


def refused(run, unit, what, data, reason, right=None):
    """What comes in the place of a banner or a frame is refused, and the right one behind it in the same piece is nothing. A link can be opened anew, and it is
    told whether a session is held."""
    link = run.link(unit)
    play = run.at(unit, what)
    play.comes(NODE, link, data + (unit.bytes if right is None else right))
    play.refuses(NODE, link, reason)
    play.turns(NODE, link)
    play.connects()
    play.sends(reads("o9"))
    yield from play.end()


def refused_plain(run, unit, what, frame, reason):
    tag, *segments = frame
    yield from refused(run, unit, what, plain_frame(tag, *segments), reason)


def refused_sealed(run, unit, what, frame, reason, late=b"\x0e"):
    tag, *segments = frame
    way = unit.way.copy()
    data = way.seal(parts_of(tag, segments, late))
    yield from refused(run, unit, what, data, reason, way.seal(unit.parts))


def taken(run, unit, what, frame, tell):
    """A frame in the place of another one is taken: what it does is told."""
    link = run.link(unit)
    play = run.at(unit, what)
    tag, *segments = frame
    if unit.kind == "plain":
        play.arrives(link, plain_frame(tag, *segments))
    else:
        play.hears(link, tag, *segments)
    tell(play, link)
    yield from play.end()


# ---- where each kind of frame is due: on the first link up to an answer and ACK, on the second one behind SESSION_RECONNECT


RETRIED = 7


def due_frames(run):
    """Each kind of frame, where it is due, with what is given for it."""
    key = run.shown.key
    first, last = run.unit(FIRST, 17), run.unit(SECOND, 15)
    challenge, finish, ident = run.unit(FIRST, 4), run.unit(FIRST, 6), run.unit(FIRST, 9)

    def sealed(place, tag, *segments):
        unit = made(tag, *segments, way=place.way)
        unit.event, unit.came = place.event, place.came
        return unit

    def bad(place):
        unit = made_plain(3, bad_method(13))
        unit.event, unit.came = place.event, place.came
        return unit

    yield run.banner(FIRST), lambda play, link: play.at_banner(link)
    yield run.unit(FIRST, 1), lambda play, link: play.at_hello(link)
    asked = next(int(line.split()[5][2:18], 16).to_bytes(8, "big") for line in run.blocks[challenge.event][1] if line.startswith("opened session"))
    yield challenge, lambda play, link: play.at_challenge(link, struct.unpack("<Q", asked)[0])
    yield bad(challenge), lambda play, link: play.refuses(NODE, link, "denied 13")
    yield finish, lambda play, link: play.at_done(link, secret_in(run))
    yield bad(finish), lambda play, link: play.refuses(NODE, link, "denied 13")
    yield run.unit(FIRST, 7), lambda play, link: play.at_signature(link)
    cookie = struct.unpack("<Q", segments_of(ident.parts)[0][-8:])[0]
    yield ident, lambda play, link: play.at_ident(link, cookie)
    yield sealed(ident, 10, number(5)), lambda play, link: play.refuses(NODE, link, "features 5")
    yield first, lambda play, link: play.at_answer(link, 1)
    yield sealed(first, 18, time(9)), lambda play, link: play.at_keepalive(link, time(9))
    yield sealed(first, 19, time(9)), lambda play, link: play.does(f"turn {link}")
    yield run.unit(FIRST, 20), lambda play, link: play.at_ack(link, 1)
    yield last, lambda play, link: play.at_ok(link, 1)
    yield sealed(last, 12, b"\x01"), lambda play, link: play.resets(link)
    yield sealed(last, 13, number(RETRIED)), lambda play, link: play.at_retry(link, RETRIED)
    yield sealed(last, 14, number(RETRIED)), lambda play, link: play.at_retry_global(link, RETRIED)


def made_plain(tag, segment):
    unit = Unit(None, None, 0, "plain")
    unit.bytes, unit.lengths = plain_frame(tag, segment), []
    return unit


def bad_method(code, method=2, methods=(2,), modes=(2,)):
    lists = b"".join(struct.pack(f"<{len(values) + 1}I", len(values), *values) for values in (methods, modes))
    return struct.pack("<II", method, -code % 2**32) + lists


def secret_in(run):
    content = next(line.split()[5] for line in run.blocks[run.unit(FIRST, 6).event][1] if line.startswith("opened session"))
    return bytes.fromhex(content)[13:]


def agrees(run, unit, tell):
    """What is told of a recorded frame is what was recorded."""
    play = run.at(unit, "")
    link = run.link(unit)
    play.links[link].taken += unit.bytes
    play.numbers[NODE] += 1
    tell(play, link)
    (_, told), *others = play.lines[1:]
    assert not others and told[1:] == run.recorded(unit) and play.journal == run.entered(unit.event + 1), (told, run.recorded(unit))


def recorded_ones(run):
    for unit, tell in due_frames(run):
        if unit in run.units:
            agrees(run, unit, tell)


def each_alone(run):
    """Each byte of a frame comes alone, with a turn behind it."""
    for unit, tell in due_frames(run):
        link = run.link(unit)
        play = run.at(unit, f"{named(unit)}: each byte comes alone")
        play.numbers[NODE] = int(place_of(run.blocks[unit.event][0])[2])
        play.links[link].taken += unit.bytes
        tell(play, link)
        row, told = play.lines.pop()
        _, node, reading, draw, *_ = row.split(" ")
        at = [f"  at {len(unit.bytes)}"] if told[1:] else []
        play.lines.append((f"drip {node} {reading} {draw} bytes {link} {unit.bytes.hex()}", [f"{node} bytes {link}", *at, *told[1:]]))
        yield from play.end()


# ---- each frame cut at each length, and then the link is gone


def cuts(run):
    for unit, _ in due_frames(run):
        link = run.link(unit)
        play = run.at(unit, "")
        _, reading, draw = place_of(run.blocks[unit.event][0])
        play.numbers[NODE] = int(draw)
        play.gone(link)
        _, told = play.lines.pop()
        start = len(play.lines)
        goes_on_behind(play, unit, link)
        rows = play.lines[start:]
        yield from ((f"behind {row}", []) for row, _ in rows)
        yield "behind journal", []
        lines = told[1:] + [line for _, more in rows for line in more]
        what = f"cuts {len(run.heads) + unit.came} {NODE} {reading} {draw} bytes {link} {unit.bytes.hex()}"
        yield what, [f"{NODE} bytes {link}", "  cut at 0", *lines, *play.journal, f"  of {len(unit.bytes)}"]


def goes_on_behind(play, unit, link):
    """What tells that nothing was handled of a frame that was cut: the session is as before, of which the next link tells."""
    if unit.kind == "sealed" and unit.tag() in (12, 13, 14, 15, 20):
        play.calls(THIRD)
        play.is_taken_up(THIRD, 0)
    else:
        play.sends(reads("o9"))


# ---- each stage: frames that aren't due there


def stages(run):
    """A frame that is due at each stage of a link, and the other tags that are due with it."""
    yield run.unit(FIRST, 1), (1,)
    yield run.unit(FIRST, 4), (3, 4)
    yield run.unit(FIRST, 6), (3, 6)
    yield run.unit(FIRST, 7), (7,)
    yield run.unit(FIRST, 9), (9, 10)
    yield run.unit(FIRST, 17), (17, 18, 19, 20)
    yield run.unit(SECOND, 15), (12, 13, 14, 15)


def wrong_tags(run):
    for unit, due in stages(run):
        for tag in range(1, 21):
            put, segment = (refused_plain, unit.segment()) if unit.kind == "plain" else (refused_sealed, segments_of(unit.parts)[0])
            if tag not in due:
                yield from put(run, unit, f"tag {tag} where {named(unit)} is due", (tag, segment), f"unexpected {tag}")
    for unit, _ in due_frames(run):
        if unit.kind == "banner" or unit.tag() == 17:
            continue
        put, segment = (refused_plain, unit.segment()) if unit.kind == "plain" else (refused_sealed, segments_of(unit.parts)[0])
        yield from put(run, unit, f"{named(unit)} of two segments", (unit.tag(), segment, b""), f"unexpected {unit.tag()}")


# ---- what frames are made of


def broken(run):
    """Sums, tags and lengths of each frame."""
    for unit, _ in due_frames(run):
        for what, data, reason in [*BROKEN[unit.kind](unit), *(more_broken(unit) if unit.kind != "banner" else more_banners(unit))]:
            if what != "a tag that isn't due":
                yield from refused(run, unit, f"{named(unit)}: {what}", data, reason)


def more_banners(unit):
    for place in range(8):
        yield f"another byte {place}", flipped(unit.bytes, place), "bad-banner"
    for length in 0, 15, 65535:
        yield f"a length of {length}", changed(unit.bytes, 8, struct.pack("<H", length)), "bad-banner"
    for required, bits in (2, 2), (3, 2), (2**63, 2**63), (LAST, LAST - 1):
        yield f"required features {required}", changed(unit.bytes, 18, number(required)), f"features {bits}"
    for supported in 0, 2, LAST - 1:
        yield f"supported features {supported}", changed(unit.bytes, 10, number(supported)), "features 1"
    yield "required features 4 of a peer that supports none", changed(unit.bytes, 10, bytes(8) + number(4)), "features 4"


def more_broken(unit):
    """Each field of the preamble, and behind the segments."""
    head = unit.preamble()[:28]

    def anew(new):
        if unit.kind == "plain":
            return new + crc(0, new) + unit.bytes[32:]
        return unit.anew([new + crc(0, new) + unit.parts[0][32:], *unit.parts[1:]])

    for tag in 0, 22, 255:
        yield f"tag {tag}", anew(changed(head, 0, bytes([tag]))), "bad-shape"
    for count in 0, 5, 255:
        yield f"a count of {count} segments", anew(changed(head, 1, bytes([count]))), "bad-shape"
    yield "a segment that isn't there with a length", anew(changed(head, 20, b"\x01")), "bad-shape"
    yield "a segment that isn't there with an alignment", anew(changed(head, 24, b"\x08")), "bad-shape"
    yield "flags", anew(changed(head, 26, b"\x01")), "bad-shape"
    yield "a reserved byte", anew(changed(head, 27, b"\x01")), "bad-shape"
    yield "the greatest length", anew(changed(head, 2, b"\xff\xff\xff\xff")), "too-long"
    if head[1] > 1:
        yield "the greatest length of the second segment", anew(changed(head, 8, b"\xff\xff\xff\xff")), "too-long"
        yield "lengths that are too large together", anew(changed(head, 8, struct.pack("<I", 1048576))), "too-long"
    if unit.kind == "sealed":
        yield from wrong_fills(unit)


def wrong_fills(unit):
    first, length = unit.parts[0], struct.unpack("<I", unit.preamble()[2:6])[0]
    if length < 48:
        yield "a fill of the inline bytes that isn't zero", unit.anew([changed(first, 32 + length, b"\x01"), *unit.parts[1:]]), "bad-shape"
    if length > 48 and length % 16:
        second = unit.parts[1]
        yield "a fill of the second part that isn't zero", unit.anew([first, flipped(second, len(second) - 1), *unit.parts[2:]]), "bad-shape"


def one_too_long(run):
    """A length of one byte too many: the frame isn't whole, and then the link is gone."""
    for unit, _ in due_frames(run):
        if unit.kind != "plain":
            continue
        head = unit.preamble()[:28]
        longer = changed(head, 2, struct.pack("<I", struct.unpack("<I", head[2:6])[0] + 1))
        link = run.link(unit)
        play = run.at(unit, f"{named(unit)}: a length of one byte too many, and then the link is gone")
        play.comes(NODE, link, longer + crc(0, longer) + unit.bytes[32:])
        play.turns(NODE, link)
        play.gone(link)
        yield from play.end()


# ---- each field of a payload


def fields(name, segment, ends):
    """Payloads that end too early, by the field that can't be read, and one with a byte left over."""
    start = 0
    for field, end in ends.items():
        yield f"{name}: without the last byte of its {field}", segment[: end - 1], f"malformed {start}"
        start = end
    assert start == len(segment)
    yield f"{name}: nothing", b"", "malformed 0"
    yield f"{name}: a byte behind it", segment + b"\x00", f"malformed {start}"


def in_addresses(name, segment, place):
    yield f"{name}: another version of the address", changed(segment, place, b"\x02"), f"malformed {place}"
    for kind in 0, 1, 3:
        yield f"{name}: type {kind} of the address", changed(segment, place + 1, struct.pack("<I", kind)), f"malformed {place}"


def wrong_hellos(run):
    unit = run.unit(FIRST, 1)
    frames = [*fields("HELLO", hello(), {"type": 1, "address": 16}), *in_addresses("HELLO", hello(), 1)]
    frames += [(f"HELLO: type {kind}", hello(kind), "malformed 0") for kind in (0, 3, 5, 33, 64, 255)]
    for what, segment, reason in frames:
        yield from refused_plain(run, unit, what, (1, segment), reason)
    for kind in 1, 2, 8, 16, 32:
        yield from taken(run, unit, f"HELLO: type {kind} isn't minded", (1, hello(kind)), lambda play, link: play.at_hello(link))
    strange = bytes([4]) + b"\x01" + struct.pack("<II", 2, 2**32 - 1) + b"\xff" * 6
    yield from taken(run, unit, "HELLO: any nonce, address and port", (1, strange), lambda play, link: play.at_hello(link))


def taken_banners(run):
    unit = run.banner(FIRST)
    link = run.link(unit)
    for what, data in (
        ("it requires nothing", changed(BANNER, 18, number(0))),
        ("it supports all", changed(BANNER, 10, number(LAST))),
        ("20 bytes are skipped", changed(BANNER, 8, struct.pack("<H", 36)) + bytes(range(20))),
        ("240 bytes are skipped", changed(BANNER, 8, struct.pack("<H", 256)) + bytes(240)),
    ):
        play = run.at(unit, f"the banner: {what}")
        play.comes(NODE, link, data[:-1])
        play.turns(NODE, link)
        play.comes(NODE, link, data[-1:])
        play.at_banner(link)
        yield from play.end()


def unopened_records(content, key):
    """What opens to no spelling of a record."""
    good = enveloped(key, content)
    for place in 0, 15, len(good) - 1:
        yield f"another byte {place}", flipped(good, place)
    yield "without its last block", good[:-16]
    yield "without its last byte", good[:-1]
    yield "a block behind it", good + bytes(16)
    yield "empty", b""
    yield "under another key", enveloped(secret_of(1), content)
    yield "another kind", enveloped(key, changed(content, 0, b"\x03"))
    yield "a record that is short", enveloped(key, content[:-1])
    yield "a byte behind the record", enveloped(key, content + b"\x00")
    yield "no content", enveloped(key, b"")


def wrong_challenges(run):
    unit, key = run.unit(FIRST, 4), run.shown.key
    good = challenge_of(key, 7)
    whole = len(good)
    frames = list(fields("AUTH_REPLY_MORE", good, {"payload": whole}))
    frames += [(f"AUTH_REPLY_MORE: a length of {n}", changed(good, 0, struct.pack("<I", n)), "malformed 0") for n in (whole - 3, 65536, 2**32 - 1)]
    inner = good[4:]
    for what, payload, reason in fields("AUTH_REPLY_MORE: in the payload", inner, {"sealed record": len(inner)}):
        frames.append((what, blob(payload), reason))
    frames += [(f"AUTH_REPLY_MORE: a length of the record of {n}", blob(changed(inner, 0, struct.pack("<I", n))), "malformed 0") for n in (33, 65536, 2**32 - 1)]
    frames += [(f"AUTH_REPLY_MORE: the sealed record: {what}", blob(blob(record)), "unopened") for what, record in unopened_records(b"\x04" + number(7), key)]
    for what, segment, reason in frames:
        yield from refused_plain(run, unit, what, (4, segment), reason)
    for value in 0, 1, LAST - 1, LAST:
        tell = lambda play, link: play.at_challenge(link, value)
        yield from taken(run, unit, f"AUTH_REPLY_MORE: the challenge {value}", (4, challenge_of(key, value)), tell)


BAD_METHOD = {"method": 4, "result": 8, "count of methods": 12, "first method": 16, "count of modes": 20, "first mode": 24}


def wrong_denials(run):
    for unit in run.unit(FIRST, 4), run.unit(FIRST, 6):
        name = f"AUTH_BAD_METHOD where {named(unit)} is due"
        frames = list(fields(name, bad_method(13), BAD_METHOD))
        frames.append((f"{name}: 17 methods", bad_method(13, methods=range(17)), "malformed 8"))
        frames.append((f"{name}: 17 modes", bad_method(13, modes=range(17)), "malformed 16"))
        frames.append((f"{name}: a count of methods of 4294967295", changed(bad_method(13), 8, b"\xff\xff\xff\xff"), "malformed 8"))
        frames += [(f"{name}: code {code}", bad_method(code), f"denied {code}") for code in (0, 1, 13, 95, 2**31, 2**32 - 1)]
        frames.append((f"{name}: another method", bad_method(13, method=1), "denied 13"))
        frames.append((f"{name}: no methods and no modes", bad_method(13, methods=(), modes=()), "denied 13"))
        frames.append((f"{name}: 16 methods and 16 modes", bad_method(13, methods=range(16), modes=range(16)), "denied 13"))
        for what, segment, reason in frames:
            yield from refused_plain(run, unit, what, (3, segment), reason)


def wrong_dones(run):
    unit, key = run.unit(FIRST, 6), run.shown.key
    play = run.at(unit, "")
    nonce, gid = play.links[FIRST].nonce, play.gid
    content = reply_content(nonce, SECRET)
    inner = blob(enveloped(key, content))
    good = done(gid, 2, inner)
    frames = list(fields("AUTH_DONE", good, {"global id": 8, "mode": 12, "payload": len(good)}))
    frames += [(f"AUTH_DONE: a length of {n}", changed(good, 12, struct.pack("<I", n)), "malformed 12") for n in (len(inner) + 1, 65536, 2**32 - 1)]
    frames += [(f"AUTH_DONE: mode {mode}", done(gid, mode, inner), "mode") for mode in (0, 1, 3, 2**32 - 1)]
    frames.append(("AUTH_DONE: mode 1, and a payload that can't be read", done(gid, 1, b""), "mode"))
    for what, payload, reason in fields("AUTH_DONE: in the payload", inner, {"sealed record": len(inner)}):
        frames.append((what, done(gid, 2, payload), reason))
    frames += [(f"AUTH_DONE: a length of the record of {n}", done(gid, 2, changed(inner, 0, struct.pack("<I", n))), "malformed 0") for n in (97, 65536, 2**32 - 1)]
    frames += [(f"AUTH_DONE: the sealed record: {what}", done(gid, 2, blob(record)), "unopened") for what, record in unopened_records(content, key)]
    for length in 0, 63, 65:
        frames.append((f"AUTH_DONE: a secret of {length} bytes", done(gid, 2, blob(enveloped(key, reply_content(nonce, bytes(length))))), "unopened"))
    due = (nonce + 1) % 2**64
    for got in nonce, (nonce + 2) % 2**64, 0, 1, LAST:
        wrong = changed(content, 1, number(got))
        frames.append((f"AUTH_DONE: a reply over another nonce, {got}", done(gid, 2, blob(enveloped(key, wrong))), f"nonce-wrong {due} {got}"))
    for what, segment, reason in frames:
        yield from refused_plain(run, unit, what, (6, segment), reason)
    yield from taken(run, unit, "AUTH_DONE: another secret", (6, good), lambda play, link: play.at_done(link, SECRET))
    for other in 0, LAST:
        tell = lambda play, link: play.at_done(link, SECRET)
        yield from taken(run, unit, f"AUTH_DONE: the global id {other} isn't minded", (6, done(other, 2, inner)), tell)
    yield from other_secrets(run, unit, good)


def other_secrets(run, unit, good):
    """AUTH_SIGNATURE under another secret than the one that was told: its tag is wrong."""
    play = run.at(unit, "AUTH_DONE: another secret, and AUTH_SIGNATURE under the first one")
    play.arrives(FIRST, plain_frame(6, good))
    play.at_done(FIRST, SECRET)
    play.comes(NODE, FIRST, run.unit(FIRST, 7).bytes)
    play.refuses(NODE, FIRST, "bad-tag")
    yield from play.end()


def wrong_signatures(run):
    unit = run.unit(FIRST, 7)
    (code,) = segments_of(unit.parts)
    frames = list(fields("AUTH_SIGNATURE", code, {"code": 32}))
    frames += [(f"a_foreign_signature_is_refused: another byte {place}", flipped(code, place), "signature-wrong") for place in (0, 31)]
    (other,) = segments_of(run.unit(SECOND, 7).parts)
    frames.append(("a_foreign_signature_is_refused: that of another link", other, "signature-wrong"))
    for what, segment, reason in frames:
        yield from refused_sealed(run, unit, what, (7, segment), reason)


IDENT = {"count": 4, "address": 19, "global id": 27, "global_seq": 35, "supported": 43, "required": 51, "flags": 59, "cookie": 67}


def wrong_idents(run):
    unit = run.unit(FIRST, 9)
    (ident,) = segments_of(unit.parts)
    assert ident[:59] + bytes(8) == server_ident(0)
    frames = [*fields("SERVER_IDENT", ident, IDENT), *in_addresses("SERVER_IDENT", ident, 4)]
    for count in 0, 2, 2**32 - 1:
        frames.append((f"SERVER_IDENT: {count} addresses", changed(ident, 0, struct.pack("<I", count)), "malformed 0"))
    for what, segment, reason in frames:
        yield from refused_sealed(run, unit, what, (9, segment), reason)
    missing = list(fields("IDENT_MISSING_FEATURES", number(5), {"features": 8}))
    missing += [(f"IDENT_MISSING_FEATURES: {bits}", number(bits), f"features {bits}") for bits in (0, 1, 2**63, LAST)]
    for what, segment, reason in missing:
        yield from refused_sealed(run, unit, what, (10, segment), reason)
    yield from taken_idents(run, unit)


def taken_idents(run, unit):
    """SERVER_IDENT with any numbers; only its cookie is kept, and shown on the next link. A session is lossy as the Connect said."""
    for what, fields_of, cookie in (
        ("any numbers, and flags that say lossy", (LAST, LAST, LAST, LAST, LAST), LAST),
        ("the cookie 0", (0, 0, 0, 0, 1), 0),
    ):
        play = run.at(unit, f"SERVER_IDENT: {what}")
        play.hears(FIRST, 9, server_ident(cookie, fields_of, b"\x01" + struct.pack("<II", 2, 2**32 - 1) + b"\xff" * 6))
        play.at_ident(FIRST, cookie)
        play.sends(reads("o1"))
        play.gone(FIRST)
        play.sends(reads("o2"))
        play.calls(SECOND)
        play.is_taken_up(SECOND, 0)
        yield from play.end()


def wrong_reconnects(run):
    """What can't be read in the place of SESSION_RECONNECT_OK: behind it the session is held, and what waits in it is sent on the next link."""
    unit = run.unit(SECOND, 15)
    frames = [(15, *row) for row in fields("SESSION_RECONNECT_OK", number(1), {"seq": 8})]
    frames += [(12, *row) for row in fields("SESSION_RESET", b"\x01", {"flag": 1})]
    frames += [(12, f"SESSION_RESET: {flag}", bytes([flag]), "malformed 0") for flag in (2, 255)]
    frames += [(13, *row) for row in fields("SESSION_RETRY", number(1), {"number": 8})]
    frames += [(14, *row) for row in fields("SESSION_RETRY_GLOBAL", number(1), {"number": 8})]
    for tag, what, segment, reason in frames:
        yield from refused_sealed(run, unit, what, (tag, segment), reason)


ANSWER = {"outcome": 1, "data": 6}


def wrong_answers(run):
    unit = run.unit(FIRST, 17)
    head, body = segments_of(unit.parts)
    assert body == answer(0, b"1") and head == header(0, 1, 43)
    frames = [*wrong_headers(head, body)]
    frames += [(what, (17, head, wrong), reason) for what, wrong, reason in fields("the body", body, ANSWER)]
    frames += [(f"a length of its data of {n}", (17, head, changed(body, 1, struct.pack("<I", n))), "malformed 1") for n in (2, 65537, 2**32 - 1)]
    frames.append(("65,537 bytes of data", (17, head, answer(0, bytes(65537))), "malformed 1"))
    frames += [(f"outcome {outcome}", (17, head, answer(outcome)), "malformed 0") for outcome in (3, 4, 255)]
    frames += [(f"type {kind}", (17, header(0, 1, kind), body), "unexpected 17") for kind in (0, 17, 18, 41, 42, 44, 65535)]
    frames.append(("type 18 and a body that can't be read", (17, header(0, 1, 18), b""), "unexpected 17"))
    for what, frame, reason in frames:
        yield from refused_sealed(run, unit, f"an answer: {what}", frame, reason)
    ack = run.unit(FIRST, 20)
    for what, segment, reason in fields("ACK", number(1), {"seq": 8}):
        yield from refused_sealed(run, ack, what, (20, segment), reason)
    for tag in 18, 19:
        for what, segment, reason in fields(NAMES[tag], time(1), {"time": 8}):
            yield from refused_sealed(run, unit, what, (tag, segment), reason)
        yield from refused_sealed(run, unit, f"{NAMES[tag]}: 1,000,000,000 nanoseconds", (tag, struct.pack("<II", 1, 10**9)), "malformed 0")


def taken_answers(run):
    """Answers with any other fields, of each outcome, under any tid, and of the greatest length."""
    unit = run.unit(FIRST, 17)
    play = run.at(unit, "an answer: any other fields, empty segments, any tid and outcome, and the most data")
    strange = header(LAST, LAST, 43, (0, 65535, 4294967295, 65535, LAST, 255, 0, 65535))
    frames = [(strange, LAST, 1, b"")]
    frames += [(header(7, 0, 43), 0, 2, b""), (header(0, 1, 43), 1, 0, bytes(65536)), (header(0, 1, 43), 1, 1, b"data"), (header(0, 1, 43), 1, 0, b"")]
    for head, tid, outcome, data in frames:
        play.hears(FIRST, 17, head, answer(outcome, data), *[b"", b""][: outcome + 1])
        play.at_answer(FIRST, tid, ("done", "denied", "no-handler")[outcome])
    yield from play.end()


HOSTILE = (
    each_alone, cuts, wrong_tags, broken, one_too_long, wrong_hellos, taken_banners, wrong_challenges, wrong_denials, wrong_dones, wrong_signatures, wrong_idents,
    wrong_reconnects, wrong_answers, taken_answers,
)  # fmt: skip


def tried_hostile(run):
    recorded_ones(run)
    for tried in HOSTILE:
        yield from tried(run)
