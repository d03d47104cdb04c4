#!/usr/bin/env python3
"""The rows of this crate's program, and what it has to print, from the runs that are recorded in crates/cx_answers_machines: in crates/cx_service_answers,

    ./expected.py rows > stdin
    ./expected.py answers > stdout

An independent implementation recorded the runs. What is tried behind them is made here by docs/formats.md and docs/rules.md, with ciphers bit by
bit. Nothing of it was taken from the crates.
"""

import os
import sys

sys.path.append(os.path.join(os.path.dirname(os.path.abspath(__file__)), "..", "cx_answers_machines"))
from hosted import DAEMON, tried_alone, tried_foreign, tried_hosted
from own import tried_own
from whole import WHOLE, LoneRun, WholeRun

# What is tried behind which run.
BEHIND = {"first_login": (tried_own,), "lost_message": (tried_hosted,), "two_clients_two_daemons": (tried_foreign,)}



def runs():
    """The runs, each with what is tried behind it."""
    yield from ((WholeRun(name), BEHIND.get(name, ())) for name in WHOLE)
    yield LoneRun("lost_message", DAEMON), (tried_alone,)


def main():
    for run, behind in runs():
        for line in run.rows() if sys.argv[1] == "rows" else run.answers():
            print(line)
        for tried in behind:
            for row, told in tried(run):
                for line in [row] if sys.argv[1] == "rows" else told:
                    print(line)


if __name__ == "__main__":
    main()
