"""What a client is told to do with its daemons, and what it does of itself: connects and sends that are refused, sessions that are taken up again, reset,
forgotten or spent, counters at their end, and so many frames and links that a call that gives up beyond a round number would show."""

import struct

from answering import blob, header, parts_of, ticket_info, ticket_list, ticket_part, time
from asked import LAST
from calling import BANNER, DAEMON, FIRST, MOST, NODE, SECOND, THIRD, Operation, Shown, answer, done, hello, plain_frame, reads, reply_content, server_ident
from ciphers import enveloped
from hosted import number
from runs import place_of

OTHER = "osd.1"


def event_of(run, *words):
    """The first event of the client with these words."""
    return next(i for i, (found, _) in enumerate(run.blocks) if found[0] == NODE and tuple(found[1 : 1 + len(words)]) == words)


# ---- Connect


def busy(run):
    """A Connect while a link to that daemon lives, at each of its stages; one to another daemon is none of these, nor one that waits for its link."""
    opened = event_of(run, "opened", FIRST)
    for unit in [u for u in run.units if run.link(u) == FIRST]:
        play = run.behind(unit.event, f"a Connect behind the turn of {names(unit)}")
        play.forbids(f"connect {DAEMON} False", "busy")
        play.connects(OTHER)
        yield from play.end()
    play = run.behind(opened, "a Connect as soon as the link is open")
    play.forbids(f"connect {DAEMON} True", "busy")
    yield from play.end()
    play = run.behind(opened - 1, "a Connect while the link of another one is waited for: the later one counts")
    play.connects(lossy=True)
    play.opens(FIRST)
    play.does(f"opened {SECOND} {DAEMON}")
    play.greets(FIRST)
    play.is_asked(FIRST)
    play.is_admitted(FIRST)
    yield from play.end()


def names(unit):
    return "the banner" if unit.kind == "banner" else f"frame {unit.tag()}"


def no_tickets(run):
    """A Connect without a ticket of its daemon's service: before the login, behind each of its turns but the last ones, and behind a Restart."""
    login, connect = event_of(run, "submit", "login"), event_of(run, "submit", "connect")
    for event in range(login - 1, connect):
        if event >= login and run.blocks[event][0][1] not in ("submit", "turn"):
            continue
        play = run.behind(event, f"no-ticket, before the client's draw {event_draw(run, event)}")
        for daemon in DAEMON, "mds.a", "mgr.b":
            if daemon == DAEMON and is_held(run, event):
                play.connects()
            else:
                play.forbids(f"connect {daemon} False", f"no-ticket {daemon[:3]}")
        yield from play.end()
    play = run.behind(connect - 1, "no-ticket: behind a Restart, which also takes back the link that is waited for")
    play.connects()
    play.does("restart", [f"restarted {NODE}"])
    play.does(f"opened {FIRST} {DAEMON}")
    play.forbids(f"connect {DAEMON} False", "no-ticket osd")
    yield from play.end()


def event_draw(run, event):
    return int(place_of(run.blocks[event][0])[2]) + 1 if event >= 0 else 0


def is_held(run, event):
    """Whether the login was held by then: the monitor's AUTH_SIGNATURE was found equal."""
    return any(line.startswith("checked signature") for _, told in run.blocks[: event + 1] for line in told)


def no_links(run):
    """A link that can't be opened, and links for which none waits."""
    start = event_of(run, "submit", "connect")
    play = run.behind(start, "no-link: the link to a daemon can't be opened")
    play.does(f"nolink {DAEMON}", [f"refused {NODE} 0 no-link"])
    play.does(f"opened {FIRST} {DAEMON}")
    play.forbids(f"send {DAEMON} {reads('o1').row}", "no-session")
    play.connects()
    play.does(f"nolink {OTHER}", [f"refused {NODE} 0 no-link"])
    play.opens(FIRST)
    play.does(f"nolink {DAEMON}", [f"refused {NODE} 0 no-link"])
    play.forbids(f"connect {DAEMON} False", "busy")
    play.greets(FIRST)
    play.is_asked(FIRST)
    play.is_admitted(FIRST)
    play.opens_session(FIRST)
    yield from play.end()


# ---- Send


def no_sessions(run):
    """A Send before the session is held: at each stage of the first link, to another daemon, and behind a Restart."""
    for unit in [u for u in run.units if run.link(u) == FIRST][:5]:
        play = run.behind(unit.event, f"no-session: Send behind the turn of {names(unit)}")
        play.forbids(f"send {DAEMON} {reads('o1').row}", "no-session")
        yield from play.end()
    ident = run.unit(FIRST, 9)
    play = run.behind(ident.event, "no-session: to another daemon, and behind a Restart")
    play.forbids(f"send {OTHER} {reads('o1').row}", "no-session")
    play.sends(reads("o1"))
    play.does("restart", [f"restarted {NODE}"])
    play.forbids(f"send {DAEMON} {reads('o2').row}", "no-session")
    play.does(f"bytes {FIRST} {plain_frame(1, hello()).hex()}")
    play.does(f"turn {FIRST}")
    yield from play.end()


def full_queues(run):
    """1,024 operations wait while no link is open, and the next one isn't taken; all of them are sent in order on the next link. The queue is full on that too,
    and ACK makes room."""
    what = "a_full_queue_gives_the_operation_back, the_queue_is_sent_in_order_behind_a_reconnect"
    play = run.behind(event_of(run, "gone", FIRST), what)
    for i in range(MOST - 1):
        play.sends(reads(f"o{i + 3}"))
    for _ in range(2):
        play.sends(reads("more"))
    play.calls(SECOND)
    play.is_taken_up(SECOND, 1)
    for seq in 1, 2, 1000:
        play.hears(SECOND, 20, number(seq))
        play.at_ack(SECOND, seq)
        for _ in range(2):
            play.sends(reads("more"))
    play.gone(SECOND)
    play.calls(THIRD)
    play.is_taken_up(THIRD, 1020)
    yield from play.end()


# ---- sessions that are taken up again


def at_second(run, what):
    """The client behind AUTH_SIGNATURE of the second link: SESSION_RECONNECT was sent, and one operation waits."""
    return run.behind(run.unit(SECOND, 7).event, what)


def acknowledgements(run):
    for last in 0, 1, 2, 3, LAST:
        play = at_second(run, f"SESSION_RECONNECT_OK: {last}")
        play.is_taken_up(SECOND, last)
        play.sends(reads("o3"))
        play.gone(SECOND)
        play.calls(THIRD)
        play.is_taken_up(THIRD, last)
        yield from play.end()
    play = run.behind(run.unit(FIRST, 9).event, "ACK: out of order, again, and beyond what was sent")
    for i in range(4):
        play.sends(reads(f"o{i}"))
    for seq in 2, 1, 2, 0:
        play.hears(FIRST, 20, number(seq))
        play.at_ack(FIRST, seq)
    play.gone(FIRST)
    play.sends(reads("o4"))
    play.calls(SECOND)
    play.is_taken_up(SECOND, 0)
    play.hears(SECOND, 20, number(LAST))
    play.at_ack(SECOND, LAST)
    play.sends(reads("o5"))
    play.gone(SECOND)
    play.calls(THIRD)
    play.is_taken_up(THIRD, 0)
    yield from play.end()


def retries(run):
    """SESSION_RETRY and SESSION_RETRY_GLOBAL with any number: one's own is that plus one, also where it was above that; behind the last one it is a reset."""
    for kept in 0, 1, 6, 2**63, LAST - 1:
        for tag in 13, 14:
            play = at_second(run, f"{'SESSION_RETRY' if tag == 13 else 'SESSION_RETRY_GLOBAL'}: {kept}, and on the next link")
            for number_of in 9, kept:
                play.hears(SECOND, tag, number(number_of))
                (play.at_retry if tag == 13 else play.at_retry_global)(SECOND, number_of)
            play.is_taken_up(SECOND, 1)
            play.gone(SECOND)
            if kept == LAST - 1 and tag == 14:
                for _ in range(2):
                    play.forbids(f"connect {DAEMON} False", "spent")
            else:
                play.calls(THIRD)
            yield from play.end()
    for tag in 13, 14:
        play = at_second(run, f"{'SESSION_RETRY' if tag == 13 else 'SESSION_RETRY_GLOBAL'}: {LAST} is a reset")
        play.hears(SECOND, tag, number(LAST))
        play.at_retry(SECOND, LAST)
        play.forbids(f"send {DAEMON} {reads('o3').row}", "no-session")
        play.opens_session(SECOND)
        play.sends(reads("o1"))
        yield from play.end()


def resets(run):
    """SESSION_RESET of either kind, a second one, which isn't due, and an ident behind it."""
    for flag in b"\x00", b"\x01":
        play = at_second(run, f"SESSION_RESET: {flag[0]}")
        play.hears(SECOND, 12, flag)
        play.resets(SECOND)
        play.forbids(f"send {DAEMON} {reads('o3').row}", "no-session")
        play.opens_session(SECOND)
        play.sends(reads("o1"))
        play.gone(SECOND)
        play.calls(THIRD)
        play.is_taken_up(THIRD, 0)
        yield from play.end()
    play = at_second(run, "SESSION_RESET: a second one")
    play.hears(SECOND, 12, b"\x01")
    play.resets(SECOND)
    play.hears(SECOND, 12, b"\x01")
    play.refuses(NODE, SECOND, "unexpected 12")
    play.calls(THIRD)
    yield from play.end()
    play = at_second(run, "SESSION_RESET: the link is gone before SERVER_IDENT")
    play.hears(SECOND, 12, b"\x01")
    play.resets(SECOND)
    play.gone(SECOND)
    play.calls(THIRD)
    play.opens_session(THIRD)
    yield from play.end()


# ---- lossy sessions


def lossy_sessions(run):
    start = event_of(run, "submit", "connect")

    def begun(what):
        play = run.behind(start - 1, what)
        play.calls(FIRST, lossy=True)
        play.opens_session(FIRST)
        play.sends(reads("o1"))
        return play

    play = begun("a lossy session: it ends with its link")
    play.gone(FIRST)
    play.forbids(f"send {DAEMON} {reads('o2').row}", "no-session")
    play.calls(SECOND)
    play.opens_session(SECOND)
    play.gone(SECOND)
    play.sends(reads("o1"))
    yield from play.end()
    play = begun("a lossy session: a link that the client itself refuses doesn't end it; one that is gone before it is open does")
    play.hears(FIRST, 16, b"")
    play.refuses(NODE, FIRST, "unexpected 16")
    play.does(f"gone {FIRST}")
    play.sends(reads("o2"))
    play.calls(SECOND)
    play.gone(SECOND)
    play.forbids(f"send {DAEMON} {reads('o3').row}", "no-session")
    yield from play.end()
    play = begun("a lossy session: taken up on a link whose Connect isn't lossy it is lossy still")
    play.hears(FIRST, 16, b"")
    play.refuses(NODE, FIRST, "unexpected 16")
    play.calls(SECOND)
    play.is_taken_up(SECOND, 0)
    play.gone(SECOND)
    play.forbids(f"send {DAEMON} {reads('o3').row}", "no-session")
    yield from play.end()
    play = run.behind(run.unit(FIRST, 9).event, "a session that isn't lossy: taken up on a link whose Connect is lossy it isn't; behind a reset it is")
    play.gone(FIRST)
    play.calls(SECOND, lossy=True)
    play.is_taken_up(SECOND, 0)
    play.gone(SECOND)
    play.sends(reads("o1"))
    play.calls(THIRD, lossy=True)
    play.hears(THIRD, 12, b"\x01")
    play.resets(THIRD)
    play.opens_session(THIRD)
    play.sends(reads("o1"))
    play.gone(THIRD)
    play.forbids(f"send {DAEMON} {reads('o3').row}", "no-session")
    yield from play.end()


# ---- several daemons, and the monitor


def several_daemons(run):
    """Sessions with three daemons beside each other, whose links open, and are gone, in any order."""
    play = run.behind(event_of(run, "submit", "connect") - 1, "three daemons: each has its own link and session")
    daemons = {"3": DAEMON, "4": OTHER, "5": "osd.x-2"}
    for link, daemon in daemons.items():
        play.calls(link, daemon)
    for link, daemon in reversed(daemons.items()):
        play.opens_session(link, int(link))
        play.sends(reads(f"o{link}"), daemon)
    play.hears("4", 20, number(1))
    play.at_ack("4", 1)
    play.hears("5", 16, b"")
    play.refuses(NODE, "5", "unexpected 16")
    play.gone("3")
    for daemon in daemons.values():
        play.sends(reads("more"), daemon)
    for link, daemon in ("6", "osd.x-2"), ("7", DAEMON):
        play.calls(link, daemon)
        play.is_taken_up(link, 0)
    play.forbids(f"connect {OTHER} False", "busy")
    yield from play.end()


def shown_tickets(run):
    """A ticket that is renewed before HELLO is shown, with the global id that is held; a link to a daemon lives on as the client logs in anew."""
    connect = event_of(run, "submit", "connect")
    key = bytes(range(100, 116))
    for what, blob_of, code in (
        ("another ticket is held by HELLO: it is shown", b"another ticket", None),
        ("the longest ticket that can be shown", bytes(65454), None),
        ("a ticket that is too long to be shown", bytes(65455), "too-long"),
    ):
        play = run.behind(connect - 1, what)
        play.connects()
        play.opens(FIRST)
        play.arrives(FIRST, BANNER)
        play.at_banner(FIRST)
        play.wants(4)
        info = enveloped(play.session_with_monitor(), ticket_info("osd", key, 1000, 9000))
        play.comes(NODE, "2", play.frame(NODE, "2", 17, header(0, 1, 18), ticket_list([ticket_part("osd", info, 9, blob_of)])))
        play.turns(NODE, "2")
        play.shown = Shown(b"\x01" + number(play.gid) + struct.pack("<I", 4) + b"\x01" + number(9) + blob(blob_of), key)
        play.arrives(FIRST, plain_frame(1, hello()))
        if code:
            play.refuses(NODE, FIRST, code)
        else:
            play.at_hello(FIRST)
        if len(blob_of) < 100:
            play.is_asked(FIRST)
            play.is_admitted(FIRST)
        yield from play.end()
    play = run.behind(run.unit(FIRST, 7).event, "a login while a link to a daemon lives: that goes on")
    play.row(NODE, "submit login 4", ["  open mon", "  shut 2"])
    play.opens_session(FIRST)
    play.sends(reads("o1"))
    play.does("nolink mon", [f"refused {NODE} 0 no-link"])
    play.hears(FIRST, 17, header(0, 1, 43), answer(0, b"data"))
    play.at_answer(FIRST, 1)
    yield from play.end()
    yield from forgotten_tickets(run)


def forgotten_tickets(run):
    """The monitor denies a second login with code 13, which forgets all tickets; where a link to a daemon was asked for before, the ticket of the Connect is
    shown, and no other one can be asked for."""
    play = run.behind(event_of(run, "submit", "connect") - 1, "the tickets are forgotten before HELLO: that of the Connect is shown")
    play.connects()
    play.opens(FIRST)
    play.row(NODE, "submit login 4", ["  open mon", "  shut 2"])
    play.row(NODE, "opened 9 mon", [f"  send 9 {BANNER.hex()}"])
    play.comes(NODE, "9", BANNER)
    play.row(NODE, "turn 9", [f"  send 9 {plain_frame(1, bytes([8]) + hello()[1:]).hex()}"])
    play.comes(NODE, "9", plain_frame(1, hello(1)))
    login = b"\x0a" + struct.pack("<I", 8) + blob(b"a") + number(play.gid)
    play.row(NODE, "turn 9", [f"  send 9 {plain_frame(2, struct.pack('<I', 2) + play.modes + blob(login)).hex()}"])
    play.comes(NODE, "9", plain_frame(3, struct.pack("<6I", 2, 2**32 - 13, 1, 2, 1, 2)))
    play.does("turn 9", [f"refused {NODE} 9 denied 13"], "9", shuts=["9"])
    play.forbids(f"connect {OTHER} False", "no-ticket osd")
    play.greets(FIRST)
    play.is_asked(FIRST)
    # No global id is held any more, and CLIENT_IDENT has that which is held.
    play.held_gid = 0
    play.is_admitted(FIRST)
    play.opens_session(FIRST)
    play.gone(FIRST)
    play.forbids(f"connect {DAEMON} False", "no-ticket osd")
    yield from play.end()


# ---- counters at their end: a client takes any secret of a connection


def secret_at(into, out):
    return bytes(range(16)) + b"into" + number(into) + b"sent" + number(out) + bytes(24)


COUNTER = "counter-spent: "


def until_done(play, link, secret):
    """A connect, up to AUTH_DONE, which comes."""
    play.connects()
    play.opens(link)
    play.greets(link)
    play.is_asked(link)
    content = reply_content(play.links[link].nonce, secret)
    play.arrives(link, plain_frame(6, done(play.gid, 2, blob(enveloped(play.shown.key, content)))))


def until_signature(play, link, secret):
    """A connect, up to AUTH_SIGNATURE, which comes."""
    until_done(play, link, secret)
    play.at_done(link, secret)
    play.hears(link, 7, play.signature(link))


def is_spent(play, link, *entries, at=None):
    """What was entered and counted stands, and the link is refused."""
    play.does(at or f"turn {link}", [*entries, f"refused {NODE} {link} counter-spent"], link, shuts=[link])
    del play.links[link]


def spent_counters(run):
    """On a first link."""
    start = event_of(run, "submit", "connect") - 1
    play = run.behind(start, COUNTER + "for the client's AUTH_SIGNATURE")
    until_done(play, FIRST, secret_at(0, LAST))
    is_spent(play, FIRST)
    play.connects()
    yield from play.end()
    for out in LAST - 1, LAST - 2:
        play = run.behind(start, COUNTER + f"for CLIENT_IDENT, at {out}")
        until_signature(play, FIRST, secret_at(0, out))
        is_spent(play, FIRST)
        yield from play.end()
    for into in LAST, LAST - 1, LAST - 2:
        play = run.behind(start, COUNTER + f"for frames of the daemon, at {into}")
        secret = secret_at(into, 0)
        until_done(play, FIRST, secret)
        play.at_done(FIRST, secret)
        if into < LAST:
            play.hears(FIRST, 7, play.signature(FIRST))
            play.at_signature(FIRST)
        # So much of the next frame comes as has counters; what is behind it can't be opened.
        way = play.way(NODE, FIRST)
        play.comes(NODE, FIRST, way.seal(parts_of(9, [server_ident(77)])[: LAST - way.counter]) + bytes(200))
        play.refuses(NODE, FIRST, "counter-spent")
        yield from play.end()
    for out in LAST - 3, LAST - 4:
        play = run.behind(start, COUNTER + f"for an operation, at {out}, which is entered and waits")
        play.calls(FIRST, secret=secret_at(0, out))
        play.opens_session(FIRST)
        session = play.held[DAEMON]
        session.takes(reads("o1"))
        sent = f"sent {NODE} {DAEMON} {play.rank(session.own)} 1 {reads('o1').line}"
        is_spent(play, FIRST, sent, at=f"submit send {DAEMON} {reads('o1').row}")
        play.calls(SECOND)
        play.is_taken_up(SECOND, 0)
        yield from play.end()
    play = run.behind(start, COUNTER + "for the answer to a KEEPALIVE2")
    play.calls(FIRST, secret=secret_at(0, LAST - 3))
    play.opens_session(FIRST)
    play.hears(FIRST, 19, time(5))
    play.turns(NODE, FIRST)
    play.hears(FIRST, 18, time(5))
    is_spent(play, FIRST)
    play.sends(reads("o1"))
    yield from play.end()


def spent_behind(run):
    """On a second link: SESSION_RECONNECT, what is sent again, a second SESSION_RECONNECT, and CLIENT_IDENT behind a reset can't be sealed."""
    gone = event_of(run, "gone", FIRST)
    play = run.behind(gone, COUNTER + "for SESSION_RECONNECT, which counts all the same")
    until_signature(play, SECOND, secret_at(0, LAST - 2))
    play.held[DAEMON].connects += 1
    is_spent(play, SECOND)
    play.calls(THIRD)
    play.is_taken_up(THIRD, 1)
    yield from play.end()
    play = run.behind(gone, COUNTER + "for what is sent again: none of it is")
    play.sends(reads("o3"))
    play.calls(SECOND, secret=secret_at(0, LAST - 6))
    play.hears(SECOND, 15, number(1))
    play.held[DAEMON].acknowledged(1)
    is_spent(play, SECOND)
    play.calls(THIRD)
    play.is_taken_up(THIRD, 0)
    yield from play.end()
    for tag, name in (13, "SESSION_RETRY"), (14, "SESSION_RETRY_GLOBAL"), (12, "SESSION_RESET"):
        play = run.behind(gone, COUNTER + f"behind {name}, which counts all the same")
        play.calls(SECOND, secret=secret_at(0, LAST - 4))
        play.hears(SECOND, tag, b"\x01" if tag == 12 else number(20))
        if tag == 13:
            play.held[DAEMON].connects = 21
        if tag == 14:
            play.global_seq = 21
        if tag == 12:
            del play.held[DAEMON]
        is_spent(play, SECOND, *[f"refused {NODE} {SECOND} reset"] * (tag == 12))
        play.calls(THIRD)
        yield from play.end()


# ---- so many that a call that gives up beyond a round number would show


def largest_operations(run):
    """An operation with the most bytes of data is sent, and sent again behind a reconnect; its answer has as many."""
    data = bytes(range(256)) * 256
    play = run.behind(run.unit(FIRST, 9).event, "an operation with 65,536 bytes of data, and its answer with as many")
    play.sends(Operation(["exec", "rbd", "", "o1", data.hex()]))
    play.gone(FIRST)
    play.calls(SECOND)
    play.is_taken_up(SECOND, 0)
    play.hears(SECOND, 17, header(0, 1, 43), answer(0, data))
    play.at_answer(SECOND, 1)
    play.hears(SECOND, 20, number(1))
    play.at_ack(SECOND, 1)
    yield from play.end()


def many_frames(run):
    """200 frames in one piece: answers, ACK and keepalives in turn."""
    play = run.behind(run.unit(FIRST, 9).event, "200 frames in one piece")
    for i in range(50):
        play.sends(reads(f"o{i}"))
    piece, tells = b"", []
    for i in range(200):
        seq = i // 4 + 1
        frames = (17, header(0, seq, 43), answer(i % 3, b"data"[: i % 5])), (20, number(seq)), (18, time(i)), (19, time(i))
        frame = frames[i % 4]
        piece += play.frame(NODE, FIRST, *frame)
        tells.append((frame, seq, i))
    play.comes(NODE, FIRST, piece)
    for (tag, *_), seq, i in tells:
        if tag == 17:
            play.at_answer(FIRST, seq, ("done", "denied", "no-handler")[i % 3])
        elif tag == 20:
            play.at_ack(FIRST, seq)
        elif tag == 18:
            play.at_keepalive(FIRST, time(i))
        else:
            play.turns(NODE, FIRST)
    play.turns(NODE, FIRST)
    play.gone(FIRST)
    play.sends(reads("last"))
    play.calls(SECOND)
    play.is_taken_up(SECOND, 50)
    yield from play.end()


def many_links(run):
    """5,000 links to three daemons in turn, three at a time, each gone before it is open; then one that opens a session, whose CLIENT_IDENT counts them. And
    1,100 links to so many daemons at once."""
    for count, few, what in (5000, 3, "5,000 links, three at a time"), (1100, 1100, "1,100 links at once"):
        play = run.behind(event_of(run, "submit", "connect") - 1, what)
        last, daemon = 100 + count - 1, f"osd.{(count - 1) % few}"
        ends = [f"{NODE} gone {last - few}", "  entries 1"] if count > few else []
        shown = [*ends, f"{NODE} submit connect", f"  open {daemon}", f"{NODE} opened {last}", f"  send {last} {BANNER.hex()}"]
        lines = 4 * count + 2 * (count - few)
        play.lines.append((f"calls {count} {few} 100 {NODE} 1000 {play.numbers[NODE]}", [f"{NODE} calls 100", f"  lines {lines}", *shown]))
        play.numbers[NODE] += 1
        play.global_seq += count
        for live in range(min(count, few)):
            play.forbids(f"connect osd.{live} False", "busy") if live < 3 else None
        play.calls("90000", "osd.last")
        play.opens_session("90000")
        play.sends(reads("o1"), "osd.last")
        yield from play.lines


TOLD = (
    busy, no_tickets, no_links, no_sessions, full_queues, acknowledgements, retries, resets, lossy_sessions, several_daemons, shown_tickets, spent_counters, spent_behind,
    many_frames, many_links, largest_operations,
)  # fmt: skip


def tried_told(run):
    for tried in TOLD:
        yield from tried(run)
