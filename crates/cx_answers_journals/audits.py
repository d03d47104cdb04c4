#!/usr/bin/env python3
"""An auditor of journals, which `expected.py` asks. With names of files, what is said of each journal in them: `audits.py FILE..`.

Written from docs/guide.md, "The lines of a journal", and from the rules as README.md of cx_audit has them.
"""

import re
import sys

NUMBER = r"(?:0|[1-9][0-9]*)"
ID = r"[A-Za-z0-9_.:+/-]"
ENTITY = rf"(?:(?:mds|osd|client|mgr|auth)\.{ID}{{1,64}}|mon\.{ID}{{0,64}})"
NODE = rf"(?:mon|{ENTITY})"
TYPE = r"(?:mon|mds|osd|client|mgr|auth)"
READING = rf"{NUMBER}(?:\.[0-9]{{9}})?"
IDS = rf"(?:-|{NUMBER},{NUMBER},{NUMBER})"
CAPS = r'"[ !#-\[\]-~]{0,4096}"'
PART = r"(?:-|[A-Za-z0-9_.-]{1,255})"
DATA = r"(?:-|(?:[0-9a-f]{2})+)"
OPERATION = rf"(?:read|write|exec) {PART} {PART} {PART} {DATA}"
COOKIE = rf"c{NUMBER}"
OUTCOME = r"(?:done|denied|no-handler)"
KIND = "principal|auth|service|session|connection|proof|signature|challenge|nonce|cookie|rotation"
TICKET = rf"ticket={NUMBER}"
PLAIN = (
    "bad-banner|bad-crc|bad-shape|too-long|bad-tag|aborted|counter-spent|method|mode|unknown-entity|wrong-proof|gids-spent|ids-spent|"
    "signature-wrong|unopened|not-a-daemon|bad-request|bad-reply|reset|lost|no-session|no-link|busy|spent|unknown-session"
)
REASON = "|".join(
    [
        PLAIN,
        "links-full 1024|queue-full 1024|book-full 4096",
        rf"(?:features|malformed|reclaim|cookie-in-use|stale-connect|stale-global|gap|stale) {NUMBER}",
        rf"unexpected {NUMBER}|denied {NUMBER}|nonce-wrong {NUMBER} {NUMBER}",
        rf"no-ticket {TYPE}|wrong-service {TYPE} {TYPE}|owner-differs {ENTITY} {NUMBER}",
        rf"(?:unknown-generation|ticket-unopened) {NUMBER} {TICKET}",
        rf"(?:gid-differs|challenge-wrong) {NUMBER} {NUMBER} {TICKET}",
        rf"expired {READING} {READING} {TICKET}|authorizer-unopened {TICKET}",
    ]
)
SESSION = rf"({ENTITY}) ({NUMBER}) ({NUMBER}) ({COOKIE}) ({ENTITY}) ({NUMBER}) ({READING}) ({CAPS})"
LINES = {
    "saved": rf"({NUMBER})",
    "issued": rf"({NUMBER}) ({ENTITY}) ({TYPE}) ({NUMBER}) ({NUMBER}) ({READING}) ({READING}) ({CAPS})",
    "fetched": rf"({ENTITY}) ({READING}) ({IDS})",
    "looked": rf"({ENTITY}) ({NUMBER}) ({IDS}) (-|{READING})",
    "admitted": SESSION,
    "resumed": SESSION,
    "sent": rf"({ENTITY}) ({ENTITY}) ({COOKIE}) ({NUMBER}) ({OPERATION})",
    "handled": rf"({ENTITY}) ({NUMBER}) ({NUMBER}) ({COOKIE}) ({NUMBER}) ({OPERATION}) ({OUTCOME})",
    "answered": rf"({ENTITY}) ({ENTITY}) ({NUMBER}) ({OUTCOME})",
    "refused": rf"({NODE}) ({NUMBER}) ({REASON})",
    "ended": rf"({ENTITY}) ({NUMBER})",
    "restarted": rf"({NODE})",
    "broken": rf"(?:sealing|draw) {NODE} (?:{KIND}) ({NUMBER})",
    "leaked": rf"({ENTITY})",
    "administered": rf"({ENTITY}) (?:caps|del|get) {PART} ({READING}) (?:done|denied|rejected|no-handler)",
}
# numbers that are narrower than 2 ^ 64, by the kind of line and the place of the number
SHORT = {("looked", 1), ("refused", 1), ("broken", 0)}


def nanoseconds(word):
    """The reading, where the word is its printed form."""
    seconds, _, nine = word.partition(".")
    if int(seconds) >= 18_446_744_073 or nine == "000000000":
        return None
    return int(seconds) * 10**9 + int(nine or 0)


def parsed(line, issued, cookies):
    """The kind and the words of a line that is one, else nothing."""
    kind, _, rest = line.partition(" ")
    found = re.fullmatch(LINES.get(kind, r"(?!)"), rest)
    if not found or not line.isascii():
        return None
    words = found.groups()
    for place, word in enumerate(words):
        if re.fullmatch(NUMBER, word) and int(word) >= (2**32 if (kind, place) in SHORT else 2**64):
            return None
        if re.fullmatch(COOKIE, word) and not 1 <= int(word[1:]) <= cookies + 1:
            return None
        if re.fullmatch(IDS, word) and word != "-":
            first, second, third = (int(i) for i in word.split(","))
            if (second, third) != (first + 1, first + 2) or third >= 2**64:
                return None
    readings = {"issued": (5, 6), "fetched": (1,), "looked": (3,), "admitted": (6,), "resumed": (6,), "administered": (1,)}
    for place in readings.get(kind, ()):
        if words[place] != "-" and nanoseconds(words[place]) is None:
            return None
    if kind == "issued" and int(words[0]) != issued + 1:
        return None
    if kind == "refused" and not reason_holds(words[2].split(" "), issued):
        return None
    return kind, words


def reason_holds(words, issued):
    head, rest = words[0], words[1:]
    if rest and rest[-1].startswith("ticket=") and int(rest[-1][7:]) > issued:
        return False
    if head == "expired":
        return nanoseconds(rest[0]) is not None and nanoseconds(rest[1]) is not None
    bound = {"unexpected": 2**8, "denied": 2**32}.get(head, 2**64)
    return all(int(word) < bound for word in rest if re.fullmatch(NUMBER, word))


def session_of(earlier, words):
    """The session in which the words of a handled line are, where there is one."""
    daemon, number, epoch, cookie = words[:4]
    for kind, old in reversed(earlier):
        if kind in ("admitted", "resumed") and old[:4] == (daemon, number, epoch, cookie):
            return old
        if kind in ("resumed", "ended") and old[:2] == (daemon, number):
            return None
        if kind == "restarted" and old[0] == daemon:
            return None
    return None


def broken_rule(whole, earlier, handled, kind, words):
    """The least rule that the entry breaks, else nothing."""
    tickets = [old for older, old in earlier if older == "issued"]
    if kind in ("admitted", "resumed"):
        daemon, _, _, _, entity, gid, at, caps = words
        service = daemon.partition(".")[0]
        backed = any(
            (t[1], t[2], t[3], t[7]) == (entity, service, gid, caps) and nanoseconds(at) < nanoseconds(t[6]) for t in tickets
        )
        return None if backed else 11
    if kind == "handled":
        session = session_of(earlier, words)
        if session is None:
            return 12
        cookie, entity = words[3], session[4]
        if ("leaked", (entity,)) in whole:
            return None
        done = handled.setdefault((cookie, entity), [])
        sent = [(old[3], old[4]) for older, old in earlier if older == "sent" and (old[2], old[0]) == (cookie, entity)]
        done.append((words[4], words[5]))
        return None if sent[: len(done)] == done else 15
    if kind == "refused":
        reason = words[2].split(" ")
        if reason[0] not in ("unknown-generation", "ticket-unopened") or words[0] == "mon":
            return None
        generation, ticket = reason[1], reason[2][7:]
        service = words[0].partition(".")[0]
        if not any((t[0], t[2], t[4]) == (ticket, service, generation) for t in tickets):
            return None
        looks = [old for older, old in earlier if older == "looked" and old[:2] == words[:2]]
        return None if looks and generation not in looks[-1][2].split(",") else 13
    if kind == "issued":
        same = [t for t in tickets if t[3] == words[3]]
        if any(t[1] != words[1] for t in same):
            return 16
        renewed = any(t[2] == "auth" and nanoseconds(words[5]) < nanoseconds(t[6]) for t in same)
        return 16 if words[2] == "auth" and same and not renewed else None
    return None


def said_of(text):
    lines = text.split("\n")
    if lines[-1] == "":
        lines.pop()
    whole, issued, cookies = [], 0, 0
    for number, line in enumerate(lines, 1):
        entry = parsed(line, issued, cookies)
        if entry is None:
            return f"bad {number}"
        whole.append(entry)
        issued += entry[0] == "issued"
        for word in entry[1]:
            if re.fullmatch(COOKIE, word):
                cookies = max(cookies, int(word[1:]))
    earlier, handled = [], {}
    for number, (kind, words) in enumerate(whole, 1):
        rule = broken_rule(whole, earlier, handled, kind, words)
        if rule:
            return f"breaks {number} {rule}"
        earlier.append((kind, words))
    return "legal"


if __name__ == "__main__":
    for name in sys.argv[1:]:
        with open(name, encoding="latin-1", newline="") as file:
            print(name, said_of(file.read()))
