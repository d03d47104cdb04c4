"""The recorded runs, as rows of this crate's program and as what it prints for them."""

import base64
import os
import struct

from ciphers import secret_of

RUNS = {
    "first_login": "a daemon's login and request, of which the monitor's part is played, and a client's login",
    "kept_gid": "a second login with an old ticket, after a rotation",
    "reclaim_denied": "a client whose global id isn't kept is denied, forgets its tickets, and logs in anew",
    "failed_save_old": "a save fails and leaves the old state",
    "failed_save_new": "a save fails and leaves the new state",
    "repeated_draw": "two clients with one seed",
    "leaked_client": "an Authenticate that was forged",
    "crc_alone": "a client that offers crc alone is denied",
    "renewed_tickets": "tickets that are renewed on an open link, and a daemon's requests, of which the monitor's part is played, around a rotation",
}

# What was drawn, sealed, opened, signed and found equal stands before all else that an event gave, in its own order. It is told of the
# recorded runs, and not of what is tried behind one.
SEALS = ("drawn ", "sealed ", "opened ", "signed ", "checked ")

# Entries of a journal that the machines don't make.
UNTOLD = ("leaked", "broken", "fetched", "looked", "admitted", "sent", "handled", "answered")


def is_left_out(words, served):
    """A daemon has no machine, and a client's machine serves its links to the monitor alone."""
    node, kind = words[:2]
    if node.startswith("osd."):
        return True
    if kind == "submit":
        return words[2] in ("connect", "send")
    if kind == "opened" and words[3].startswith("osd."):
        served.discard(words[2])
    elif kind == "opened":
        served.add(words[2])
    return kind in ("opened", "bytes", "turn", "gone") and words[2] not in served


def blocks_of(text):
    """The events, each with what the node did, and the lines of the journal."""
    body, journal = text.rstrip("\n").split("\njournal")
    blocks, block, served = [], None, set()
    for line in body.split("\n"):
        if line.startswith("event "):
            _, _, *words = line.split()
            block = words, []
            if not is_left_out(words, served):
                blocks.append(block)
        else:
            block[1].append(line.strip())
    return blocks, [line for line in journal.split("\n") if line and not line.startswith(UNTOLD)]


def heads_of(schedule):
    """The entities with their grants, the seeds and the modes that a schedule names, and the life of a ticket for AUTH."""
    entities, seeds, modes, life = [], {}, {}, 43200
    for line in schedule.split("\n"):
        words = line.split(" ")
        if words[0] == "entity":
            entities.append((words[1], " ".join(words[2:])))
        if words[0] == "seed":
            seeds[words[1]] = words[2]
        if words[0] == "modes":
            modes[words[1]] = words[2]
        if words[0] == "auth-lifetime":
            life = int(words[1])
    return entities, seeds, modes, life


def key_text(secret):
    return base64.b64encode(struct.pack("<HIIH", 1, 0, 0, 16) + secret).decode()


def recorded(name, kind):
    folder = os.path.join(os.path.dirname(os.path.abspath(__file__)), "recorded")
    with open(f"{folder}/{name}.{kind}") as f:
        return f.read()


class Run:
    """A recorded run."""

    def __init__(self, name):
        self.schedule = recorded(name, "schedule")
        self.blocks, self.journal = blocks_of(recorded(name, "trace"))
        self.name = name
        self.heads = list(self.head_rows())

    def head_rows(self):
        """The rows before the first event."""
        entities, seeds, modes, life = heads_of(self.schedule)
        for i, (entity, grants) in enumerate(entities):
            yield f"ring [{entity}]"
            yield f"ring key = {key_text(secret_of(i + 1))}"
            if grants:
                service, caps = grants.split(" ", 1)
                yield f"ring caps {service} = {caps}"
        yield f"monitor {seeds.get('mon', 0)} 3600 {life}"
        for i, (entity, _) in enumerate(entities):
            if entity.startswith("client."):
                yield f"client {entity} {seeds.get(entity, i + 1)} {i + 1} {modes.get(entity, 'crc,secure')}"

    def entered(self, event):
        """The journal before this event."""
        return self.journal[: sum(line.startswith("entry ") for _, told in self.blocks[:event] for line in told)]

    def title(self):
        return f"# {self.name}: {RUNS[self.name]}"

    def rows(self):
        yield self.title()
        yield from self.heads
        for words, told in self.blocks:
            if any(line.startswith("the save fails") for line in told):
                yield f"fails {self.name.rsplit('_', 1)[1]}"
            yield row_of(words)
        yield "journal"

    def answers(self):
        yield self.title()
        yield from heads_told(self.heads)
        for words, told in self.blocks:
            yield from event_told(words, told, logs=True)
        yield from self.journal


def heads_told(heads):
    """What is printed for the rows before the first event."""
    return [row for row in heads if row.startswith(("monitor", "client", "daemon"))]


def place_of(words):
    at = words.index("line")
    return words[at + 1], words[at + 3], words[at + 5]


def row_of(words, piece=None):
    _, reading, draw = place_of(words)
    what = words[1 : words.index("line")]
    return f"at {words[0]} {reading} {draw} {' '.join(what if piece is None else what[:2] + [piece])}"


def event_told(words, told, logs=False):
    """What is printed for an event."""
    lines = [f"{words[0]} {' '.join(words[1 : min(words.index('line'), 3)])}"]
    entries = sum(line.startswith("entry ") for line in told)
    lines += [f"  {line}" for line in told if logs and line.startswith(SEALS)]
    for kind in ("save ", "the save fails", "send ", "open ", "shut "):
        if kind == "send " and entries:
            lines.append(f"  entries {entries}")
        for line in told:
            if line.startswith(kind):
                lines.append("  fails" if kind == "the save fails" else f"  {line}")
    return lines
