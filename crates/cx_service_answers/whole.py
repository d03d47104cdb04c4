"""The recorded runs with their daemons: what comes to the monitor, to the daemons, and to clients on their links to the monitor."""

from runs import Run, heads_of, recorded

WHOLE = {
    "first_login": "a daemon's fetch, a login, a session with one operation",
    "expired_ticket": "a ticket that is shown as it expires",
    "unknown_generation": "a ticket under a generation that is over",
    "forgotten_view": "a daemon that began anew denies, and admits after a fetch",
    "wrong_challenge": "a second authorizer that is repeated",
    "lost_connect": "a link that is gone before the daemon could admit",
    "lossy_session": "a session that ends with its link",
    "lost_message": "a session that is taken up again behind a message that was lost",
    "resumed_session": "a session that is taken up again behind an answer that was lost",
    "reset_session": "a session that the daemon dropped, and another one",
    "renewed_tickets": "fetches by command and by tick, around a rotation",
    "two_clients_two_daemons": "two clients and two daemons",
}


def is_called(words, calls):
    """What comes to a client on a link to a daemon, or has it open one: no machine of this program has such links."""
    node, kind = words[:2]
    if not node.startswith("client."):
        return False
    if kind == "submit":
        return words[2] in ("connect", "send")
    if kind == "opened" and words[3] != "mon":
        calls.add((node, words[2]))
    return kind in ("opened", "bytes", "turn", "gone") and (node, words[2]) in calls


def parted(text):
    """The events that are played, each with what the node did, and the lines of the journal that they entered."""
    body, journal = text.rstrip("\n").split("\njournal")
    lines = [line for line in journal.split("\n") if line and not line.startswith(("leaked", "broken"))]
    blocks, calls = [], set()
    for line in body.split("\n"):
        if line.startswith("event "):
            blocks.append((line.split()[2:], []))
        else:
            blocks[-1][1].append(line.strip())
    played, entered = [], []
    for words, told in blocks:
        count = sum(line.startswith("entry ") for line in told)
        here, lines = lines[:count], lines[count:]
        if not is_called(words, calls):
            played.append((words, told))
            entered += here
    assert not lines
    return played, entered


class WholeRun(Run):
    """A recorded run with its daemons."""

    def __init__(self, name):
        super().__init__(name)
        self.blocks, self.journal = parted(recorded(name, "trace"))
        self.heads += self.daemon_rows()

    def daemon_rows(self):
        entities, seeds, modes, _ = heads_of(self.schedule)
        for i, (entity, _) in enumerate(entities):
            if not entity.startswith("client."):
                yield f"daemon {entity} {seeds.get(entity, i + 1)} {i + 1} {modes.get(entity, 'secure')}"

    def title(self):
        return f"# with daemons: {self.name}: {WHOLE[self.name]}"


class LoneRun(WholeRun):
    """What of a recorded run comes to one of its daemons, alone."""

    def __init__(self, name, daemon):
        super().__init__(name)
        self.heads = [row for row in self.heads if row.startswith(("ring ", f"daemon {daemon} "))]
        entered, alone = 0, []
        for words, told in self.blocks:
            count = sum(line.startswith("entry ") for line in told)
            if words[0] == daemon:
                alone += self.journal[entered : entered + count]
            entered += count
        self.blocks = [(words, told) for words, told in self.blocks if words[0] == daemon]
        self.journal = alone

    def title(self):
        return f"# a daemon alone: {self.name}: {WHOLE[self.name]}"
