#!/usr/bin/env python3
"""The rows of this crate's program, and what it has to print, from the runs that are recorded in crates/cx_answers_machines: in crates/cx_call_answers,

    ./expected.py rows > stdin
    ./expected.py answers > stdout

An independent implementation recorded the runs. What is tried behind them is made here by docs/formats.md and docs/rules.md, with ciphers bit by
bit. Nothing of it was taken from the crates.
"""

import os
import sys

FOLDER = os.path.dirname(os.path.abspath(__file__))
sys.path += [os.path.join(FOLDER, "..", other) for other in ("cx_answers_machines", "cx_service_answers")]
from called import CALLED, CallerRun, tried
from calling import LoneCaller
from hostile import tried_hostile
from told import tried_told


def runs():
    """The runs, each with what is tried behind it."""
    yield from ((CallerRun(name), (tried,)) for name in CALLED)
    yield LoneCaller("lost_message"), (tried_hostile, tried_told)


def main():
    for run, behind in runs():
        for line in run.rows() if sys.argv[1] == "rows" else run.answers():
            print(line)
        for each in behind:
            for row, told in each(run):
                for line in [row] if sys.argv[1] == "rows" else told:
                    print(line)


if __name__ == "__main__":
    main()
