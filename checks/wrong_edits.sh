#!/usr/bin/env bash
# Tries the wrong edits that the gate doesn't try: checks/wrong_edits.sh [--libraries TREE] [CRATE..]; wrong_edits.py says how.
exec python3 "$(dirname "$0")/wrong_edits.py" "$@"
