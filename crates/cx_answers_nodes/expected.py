#!/usr/bin/env python3
"""The rows of this crate's program, and what it has to print, from the runs that are recorded in crates/cx_answers_machines: in crates/cx_answers_nodes,

    ./expected.py rows > stdin
    ./expected.py answers > stdout

What one node of a recorded run got on its links comes on the links of that node alone, and what it is told is its script. Nothing of what has to be
printed was taken from the crates: it is what an independent implementation had the node do, one event after the other.
"""

import itertools
import os
import sys

sys.path.append(os.path.join(os.path.dirname(os.path.abspath(__file__)), "..", "cx_answers_machines"))
from ciphers import secret_of
from runs import Run, heads_of, key_text, place_of

# A run, the node of it that is driven, what fails, and what the run shows.
RUNS = (
    ("first_login", "mon", "", "the monitor, to which a daemon and a client log in, and which answers a request"),
    ("renewed_tickets", "mon", "", "the monitor, which answers a daemon's and a client's requests"),
    ("kept_gid", "mon", "", "the monitor, to which a client logs in twice"),
    ("kept_gid", "client.a", "", "a client that logs in twice"),
    ("reclaim_denied", "mon", "", "the monitor denies a login that keeps a global id"),
    ("reclaim_denied", "client.a", "", "a client that is denied, and logs in anew"),
    ("failed_save_old", "mon", "", "the monitor stops at a save that fails and leaves the old state"),
    ("failed_save_new", "mon", "", "the monitor stops at a save that fails and leaves the new state"),
    ("repeated_draw", "mon", "", "the monitor, to which two clients log in"),
    ("crc_alone", "mon", "", "the monitor denies a client that offers crc alone"),
    ("kept_gid", "mon", "dice 12", "the dice fail at the step that would check the proof"),
    ("kept_gid", "mon", "dice 32", "the dice fail at the step that would check the second proof"),
    ("kept_gid", "mon", "wait 7", "a wait on the links fails behind the first login"),
    ("kept_gid", "client.a", "open 1", "a link to the monitor can't be opened, and the client is told so"),
    ("crc_alone", "mon", "send 1", "the banner can't be sent, so the link is gone, and what comes on it is nothing to the monitor"),
)

# The run of which each save, roll, wait and send of the monitor fails in turn.
TABLE = ("first_login", "mon")

# Which entries of a journal a node makes.
MONITORS = ("saved ", "issued ", "refused mon ", "restarted mon")


class Ends(Exception):
    """The run of the node ends before its time."""


class Alone:
    """One node of a run: the rows of what comes to it, and what it does."""

    def __init__(self, name, node, fails):
        run = Run(name)
        self.schedule, self.journal, self.name, self.node = run.schedule, run.journal, name, node
        self.blocks = [(words, told) for words, told in run.blocks if words[0] == node]
        self.what, self.number = (fails.split(" ") + ["0"])[:2] if fails else ("", "0")
        self.number = int(self.number)
        self.comes, self.does, self.readings, self.orders, self.fails = [], [], [], [], []
        self.steps = self.entries = self.saves = self.calls = self.waits = self.sends = 0
        self.dead = False
        self.last = len(self.blocks)
        self.ended = "done"
        try:
            self.play()
        except Ends as end:
            self.ended = str(end)

    def fail(self, what, done, number, row):
        """Whether this call is the one that is to fail."""
        if self.what != what or self.number != done:
            return False
        self.fails.append(f"{row} {number}")
        return True

    def step(self, reading):
        self.steps += 1
        self.readings.append(reading)
        if self.fail("dice", self.steps, self.steps, "dice"):
            self.does.append("  roll fails")
            raise Ends("dice")

    def wait(self, row, does):
        self.calls += 1
        self.waits += 1
        self.comes.append(row)
        if self.fail("wait", self.waits, self.calls, "links"):
            self.does.append("wait fails")
            raise Ends("links")
        self.does.append(does)

    def play(self):
        """A turn that turned nothing stands nowhere in a record, but it is a step, and costs a draw."""
        turning = False
        for place, (words, told) in enumerate(self.blocks):
            if place > self.last:
                break
            kind = words[1]
            _, reading, draw = place_of(words)
            if turning and kind != "turn":
                self.step(self.readings[-1])
                turning = False
            # What a node doesn't serve yet was left out of the record. Nothing comes in its place, as often as it cost draws.
            while not self.dead and self.steps < int(draw):
                self.wait("quiet", "quiet")
                self.step(reading)
            self.comes_to(kind, words)
            if self.dead:
                continue
            turning = turning or kind == "bytes"
            self.step(reading)
            self.tell(told, place)
        if turning and not self.dead:
            self.step(self.readings[-1])

    def comes_to(self, kind, words):
        if kind == "submit":
            self.orders.append(f"login {words[3]}")
            self.wait("quiet", "quiet")
        if kind == "opened" and words[3] == "None":
            self.wait(f"opened {words[2]}", f"opened {words[2]}")
        if kind == "bytes":
            self.wait(f"bytes {words[2]} {words[3]}", f"bytes {words[2]} {len(words[3]) // 2}")
        if kind == "gone":
            self.wait(f"gone {words[2]}", f"gone {words[2]}")

    def tell(self, told, place):
        """What a step does, in the order of a node: saved, sent, opened, shut."""
        if any(line.startswith("save ") for line in told):
            self.saves += 1
            left = self.name.rsplit("_", 1)[1] if any(line.startswith("the save fails") for line in told) else None
            if self.what in ("old", "new") and self.number == self.saves:
                left = self.what
            if left:
                self.fails.append(f"{left} {self.saves}")
                self.does.append("  save fails")
                raise Ends("keeper")
            self.does.append("  save")
        self.entries += sum(line.startswith("entry ") for line in told)
        for line in told:
            if line.startswith("send "):
                self.calls += 1
                self.sends += 1
                if self.fail("send", self.sends, self.calls, "links"):
                    # The link is gone, so all else that was recorded on it is nothing to the node. Where another link opens behind that, its draws
                    # would be others, so what was recorded of that is left out.
                    link = line.split()[1]
                    self.does.append(f"  send {link} fails")
                    self.dead = True
                    behind = self.blocks[place + 1 :]
                    other = next((i for i, (words, _) in enumerate(behind) if words[1] == "opened"), len(behind))
                    assert all(words[2] == link for words, _ in behind[:other])
                    self.last = place + other
                    return
                self.does.append(f"  {line}")
        for line in told:
            if line.startswith("open "):
                self.calls += 1
                if self.fail("open", 1, self.calls, "links"):
                    # Nothing more comes.
                    self.does.append("  open fails")
                    self.journal = [f"refused {self.node} 0 no-link"]
                    self.entries += 1
                    raise Ends("done")
                opened = next(words for words, _ in self.blocks[place + 1 :] if words[1] == "opened")
                self.does.append(f"  open {opened[2]}")
        self.does += [f"  {line}" for line in told if line.startswith("shut ")]

    def title(self, shows):
        return f"# {self.name}, {self.node}: {shows}"

    def rows(self, shows):
        entities, seeds, modes, life = heads_of(self.schedule)
        yield self.title(shows)
        for i, (entity, grants) in enumerate(entities):
            yield f"ring [{entity}]"
            yield f"ring key = {key_text(secret_of(i + 1))}"
            if grants:
                service, caps = grants.split(" ", 1)
                yield f"ring caps {service} = {caps}"
        if self.node == "mon":
            yield f"monitor {seeds.get('mon', 0)} 3600 {life}"
        for i, (entity, _) in enumerate(entities):
            if entity == self.node:
                yield f"client {entity} {seeds.get(entity, i + 1)} {i + 1} {modes.get(entity, 'crc,secure')}"
        for reading, same in itertools.groupby(self.readings):
            yield f"at {reading} {len(list(same))}"
        yield from (f"fails {row}" for row in self.fails)
        yield from (f"order {order}" for order in self.orders)
        yield from self.comes
        yield f"drive {len(self.comes)}"

    def answers(self, shows):
        yield self.title(shows)
        yield from self.does
        yield f"ended {self.ended}"
        own = MONITORS if self.node == "mon" else (f"refused {self.node} ",)
        yield from [line for line in self.journal if line.startswith(own)][: self.entries]


def table():
    """Each save leaving the old state and the new one, each roll, each wait and each send of a run, failing in turn."""
    name, node = TABLE
    whole = Alone(name, node, "")
    for i in range(1, whole.saves + 1):
        yield name, node, f"old {i}", f"save {i} fails and leaves the old state"
        yield name, node, f"new {i}", f"save {i} fails and leaves the new state"
    for i in range(1, whole.steps + 1):
        yield name, node, f"dice {i}", f"roll {i} fails"
    for i in range(1, whole.waits + 1):
        yield name, node, f"wait {i}", f"wait {i} fails"
    for i in range(1, whole.sends + 1):
        yield name, node, f"send {i}", f"send {i} fails, and its link is gone"


def main():
    for name, node, fails, shows in (*RUNS, *table()):
        alone = Alone(name, node, fails)
        for line in alone.rows(shows) if sys.argv[1] == "rows" else alone.answers(shows):
            print(line)


main()
