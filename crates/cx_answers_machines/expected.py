#!/usr/bin/env python3
"""The rows of this crate's program, and what it has to print, from the recorded runs: in crates/cx_answers_machines,

    ./expected.py rows > stdin
    ./expected.py answers > stdout

An independent implementation recorded the runs. What is tried behind them is made here by docs/formats.md and docs/rules.md, with ciphers bit by
bit. Nothing of it was taken from the crates.
"""

import sys

from asked import tried_asked
from broken import tried_login, tried_requests
from daemons import tried_daemons
from runs import RUNS, Run

# What is tried behind which run.
BEHIND = {"kept_gid": (tried_login,), "renewed_tickets": (tried_requests, tried_asked, tried_daemons)}


def main():
    for name in RUNS:
        run = Run(name)
        for line in run.rows() if sys.argv[1] == "rows" else run.answers():
            print(line)
        for tried in BEHIND.get(name, ()):
            for row, told in tried(run):
                for line in [row] if sys.argv[1] == "rows" else told:
                    print(line)


if __name__ == "__main__":
    main()
