#!/usr/bin/env python3
"""What the program of this crate has to print: `expected.py < stdin > stdout`.

Written from the two premises as README.md of cx_steps has them: a leaked key counts for the whole log, what was made or drawn for what
comes behind it. What is said of journals is said by `audits.py`.
"""

import sys

from audits import said_of

SERVERS = ("mds.", "osd.", "mgr.")
KEYS = ("principal", "connection", "session", "rotation")


def key_of(entry):
    """The key that an entry draws."""
    if entry["what"] == "drawn" and entry["kind"] in KEYS:
        return entry["value"][:32]
    return None


def first_breach(log, leaked):
    leaked_keys = {key_of(e) for e in log if key_of(e) and e["whose"] in leaked}
    made, keys, values = set(), set(), set()
    for entry in log:
        why = None
        if entry["what"] in ("sealed", "signed"):
            made.add((entry["what"], entry["key"], entry["content"]))
        elif entry["what"] in ("opened", "checked"):
            due = {"opened": "sealed", "checked": "signed"}[entry["what"]]
            server = entry["node"] == "mon" or entry["node"].startswith(SERVERS)
            if (due, entry["key"], entry["content"]) not in made and not (server and entry["key"] in leaked_keys):
                why = "sealing"
        elif entry["kind"] in KEYS:
            why = "draw" if key_of(entry) in keys else None
            keys.add(key_of(entry))
        else:
            value = entry["kind"], entry["value"]
            why = "draw" if value in values else None
            values.add(value)
        if why:
            return f"broken {why} {entry['node']} {entry['kind']} {entry['line']}"
    return "sound and fresh"


def entry_of(words):
    node, line, what, kind, *parts = words
    entry = {"node": node, "line": line, "what": what, "kind": kind}
    if what == "drawn":
        return entry | {"value": parts[0].lower(), "whose": parts[1] if len(parts) > 1 else None}
    return entry | {"key": parts[0].lower(), "content": parts[1].lower()}


log, leaked, text = [], [], ""
for row in open(0, encoding="latin-1", newline="").read().split("\n"):
    words = row.split(" ")
    if row.startswith("#"):
        print(row)
    elif row.startswith(">"):
        text += row[1:] + "\n"
    elif row == "audit":
        print(said_of(text))
        text = ""
    elif words[0] == "log":
        log, leaked = [], words[1:]
    elif words[0] == "told":
        print(first_breach(log, leaked))
    elif words[0] == "many":
        log += [entry_of(words[2:] + [f"{number:08}"]) for number in range(int(words[1]))]
    elif row:
        log.append(entry_of(words))
