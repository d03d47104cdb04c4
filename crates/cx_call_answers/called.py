"""What of the recorded runs comes to their clients, on links to the monitor and to daemons."""

from broken import byte_by_byte, tried_unit, units_of
from runs import Run, event_told, heads_of, recorded, row_of

CALLED = {
    "first_login": "a session with one operation",
    "expired_ticket": "a ticket that is shown as it expires",
    "unknown_generation": "a ticket under a generation that is over",
    "forgotten_view": "a daemon that denies, and admits then",
    "lost_connect": "a link that is gone before the daemon could admit",
    "lossy_session": "a session that ends with its link",
    "lost_message": "a session that is taken up again behind a message that was lost",
    "resumed_session": "a session that is taken up again behind an answer that was lost",
    "reset_session": "a session that the daemon dropped, and another one",
    "two_clients_two_daemons": "two clients and two daemons",
    "wrong_challenge": "an authorizer that was made for another link",
    "renewed_tickets": "a ticket that was renewed is shown",
}


def parted(text):
    """The events of the clients, each with what the client did, and the lines of the journal that they entered."""
    body, journal = text.rstrip("\n").split("\njournal")
    lines = [line for line in journal.split("\n") if line and not line.startswith(("leaked", "broken"))]
    blocks, played, entered = [], [], []
    for line in body.split("\n"):
        if line.startswith("event "):
            blocks.append((line.split(" ")[2:], []))
        else:
            blocks[-1][1].append(line.strip())
    for words, told in blocks:
        count = sum(line.startswith("entry ") for line in told)
        here, lines = lines[:count], lines[count:]
        if words[0].startswith("client."):
            played.append((words, told))
            entered += here
    assert not lines
    return played, entered


class CallerRun(Run):
    """What of a recorded run comes to its clients."""

    def __init__(self, name):
        self.name = name
        self.schedule = recorded(name, "schedule")
        self.blocks, self.journal = parted(recorded(name, "trace"))
        self.heads = [row for row in self.head_rows() if row.startswith("ring ")] + list(self.caller_rows())

    def caller_rows(self):
        entities, seeds, modes, _ = heads_of(self.schedule)
        for i, (entity, _) in enumerate(entities):
            if entity.startswith("client."):
                yield f"client {entity} {seeds.get(entity, i + 1)} {i + 1} {modes.get(entity, 'crc,secure')}"

    def title(self):
        return f"# {self.name}: {CALLED[self.name]}"

    def answers(self):
        yield self.title()
        yield from (row for row in self.heads if row.startswith("client"))
        for words, told in self.blocks:
            yield from event_told(words, told, logs=True)
        yield from self.journal


# ---- what is tried of a client's links to daemons


def is_call(words, calls):
    return (words[0], words[2]) in calls


class Calls:
    """A run by what comes to its clients on their links to daemons."""

    def __init__(self, run):
        self.run = run
        calls = {(words[0], words[2]) for words, _ in run.blocks if words[1] == "opened" and words[3] != "mon"}
        self.units = [unit for unit in units_of(run.blocks) if is_call(run.blocks[unit.event][0], calls)]
        for unit in self.units:
            unit.lengths = LENGTHS.get(unit.tag(), []) if unit.kind == "plain" else []

    def link(self, unit):
        return self.run.blocks[unit.event][0][2]

    def is_open(self, unit):
        """Whether the link was open as this came."""
        return any(u.kind == "sealed" and u.tag() in (9, 15) and self.link(u) == self.link(unit) and u.event < unit.event for u in self.units)


# The lengths in payloads of cephx that come from a daemon, as broken.LENGTHS.
LENGTHS = {4: [(0, 0, 0, "blob")], 6: [(0, 12, 12, "blob")]}


# ---- what no recorded run catches, by name


def answer_behind_reset(run):
    calls = Calls(run)
    unit = [u for u in calls.units if u.kind == "sealed" and u.tag() == 17][-1]
    row = f"again {len(run.heads) + unit.came} an_answer_behind_a_reset_is_of_the_new_session"
    yield row, [row]
    for words, told in run.blocks[unit.came : unit.event + 1]:
        yield row_of(words), event_told(words, told)
    assert run.entered(unit.event + 1)[-1] == "answered client.a osd.0 1 done" and "sent client.a osd.0 c2 1 read rbd - o2 -" in run.journal
    yield "journal", run.entered(unit.event + 1)


# ---- each kind of frame


def tried_broken(run):
    """Each kind of frame but ACK on a link to a daemon on which a session is taken up, cut in half and broken. ACK is the tag that isn't due elsewhere."""
    calls = Calls(run)
    for unit in calls.units:
        if calls.link(unit) == "4" and (unit.kind == "banner" or unit.tag() != 20):
            yield from tried_unit(run, run.blocks, unit, calls.is_open(unit), wrong=None)


def tried_bytes(run):
    """All that comes on links to daemons, byte by byte."""
    yield from byte_by_byte(run, run.blocks, Calls(run).units)


TRIED = {
    "first_login": (tried_bytes,),
    "lost_message": (tried_bytes,),
    "resumed_session": (tried_bytes,),
    "reset_session": (tried_bytes, tried_broken, answer_behind_reset),
}


def tried(run):
    for each in TRIED.get(run.name, ()):
        yield from each(run)
