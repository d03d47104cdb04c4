#!/usr/bin/env python3
"""Tries the wrong edits that the gate doesn't try: checks/wrong_edits/CRATE/NAME.edit, in the form of must-fail/*.edit.

checks/wrong_edits.sh [--libraries TREE] [CRATE..] tries those of each crate, or of all where none is named. It needs the libraries
below these crates as `rt ci` leaves them in crates/*/out/rlib, of this tree or of TREE, a clone of it. Of each crate it first has the
functions proved that its edits change, with what they call, as they stand; over what that proved it then checks these functions with
edits made, as many at once as stand in functions of their own. An edit is refused where the prover admits no proof of its function,
and not only because that one calls another which is not proved: then it is tried again without the other's edit. Where an edit changes
no function, or its function is proved all the same, the whole crate is checked with it, and must not be proved. The last line says how many
are refused; the status is 0 where all are."""

import hashlib
import os
import re
import shutil
import subprocess
import sys
import tempfile
from concurrent.futures import ThreadPoolExecutor

TOP = os.path.realpath(os.path.join(os.path.dirname(os.path.abspath(__file__)), ".."))
EDITS = os.path.join(TOP, "checks", "wrong_edits")
KIT = os.path.dirname(subprocess.run(["rt", "doc"], check=True, capture_output=True, text=True).stdout.strip())
PARTS = ("src", "specs", "proofs")
HEAD = re.compile(r"^\s*(?:pub(?:\([a-z]+\))? )?(?:const )?fn ([a-z]\w*)")
BLOCK = re.compile(r"^impl\b.*?(?:\bfor )?(?:\w+::)*([A-Z]\w*)(?:<[^{]*>)? *(?:where.*)?\{?$")
LIMIT = re.compile(r"antt ran out of (stack|the (steps|memory))|outgrew the memory limit|stopped at the step limit")


def stop(why):
    print(f"wrong_edits: {why}", file=sys.stderr)
    sys.exit(2)


def graph():
    below = {}
    with open(os.path.join(TOP, "crates.txt"), encoding="utf-8") as lines:
        for line in lines:
            head, colon, deps = line.split("#")[0].partition(":")
            if colon:
                below[head.split()[0]] = deps.split()
    return below


def all_below(below, crate):
    """Returns the crates below this one, as `crates.txt` orders them."""
    found, left = set(), [crate]
    while left:
        for dep in below[left.pop()]:
            if dep in below and dep not in found:
                found.add(dep)
                left.append(dep)
    return [it for it in below if it in found]


def library_of(libraries, crate):
    return os.path.join(libraries, "crates", crate, "out", "rlib", f"{crate}.rlib")


def stop_without(libraries, crates):
    """Stops where the library of one of the crates isn't there, or was built of other texts."""
    for crate in crates:
        built = os.path.join(library_of(libraries, crate), "format")
        if not os.path.isfile(built):
            stop(f"the library of {crate} is needed, which `rt ci` leaves in crates/{crate}/out: run that first")
        # (one that an earlier run kept is older than the clone, and was linked into it)
        built_at = max(os.stat(built).st_mtime, os.stat(built).st_ctime)
        if texts_of(TOP, crate) != texts_of(libraries, crate) or newest(libraries, crate) > built_at:
            stop(f"{crate} isn't what its library in crates/{crate}/out was built of: run `rt ci` first")


class Edit:
    """An edit: its pairs of texts by file, and the functions that it changes, each as the names by which the prover may know it."""

    def __init__(self, crate, name):
        self.label, self.crate = f"{crate}/{name}", crate
        self.pairs, self.functions = [], {}
        path = old = None
        with open(os.path.join(EDITS, crate, name), encoding="utf-8") as lines:
            for line in lines.read().split("\n"):
                word, _, rest = line.partition(":")
                rest = rest.removeprefix(" ")
                if word == "file":
                    path = rest.strip()
                elif word == "old":
                    old = rest
                elif word == "new":
                    self.pairs.append((path, old, rest))
        texts = {}
        for path, old, new in self.pairs:
            text = texts.get(path) or read(crate, path)
            if text.count(old) != 1:
                stop(f"{self.label}: an 'old:' text stands in {path} {text.count(old)} times, and not once")
            self.functions[function_at(path, text, text.index(old))] = None
            texts[path] = text.replace(old, new)
        if any(self.functions):
            # (an import, say, which the function needs)
            self.functions.pop((), None)

    def change(self, texts):
        """Returns the texts with the edit made too, or None where it can't be made after those that were made already."""
        texts = dict(texts)
        for path, old, new in self.pairs:
            text = texts.get(path) or read(self.crate, path)
            if text.count(old) != 1:
                return None
            texts[path] = text.replace(old, new)
        return texts


def read(crate, path):
    with open(os.path.join(TOP, "crates", crate, path), encoding="utf-8") as text:
        return text.read()


def function_at(path, text, at):
    """Returns the names by which the prover may know the function around that place, the longest first; none where it stands in no function."""
    name, block = None, None
    for line in text[: text.find("\n", at)].split("\n"):
        if line.startswith("impl"):
            found = BLOCK.match(line)
            block = found[1] if found else None
        elif line.startswith("}"):
            name, block = None, None
        found = HEAD.match(line)
        if found:
            name = found[1]
    module = re.sub(r"^src/|(/mod)?\.rt$", "", path).replace("/", "::")
    if not path.startswith("src/") or not name:
        return ()
    owned = [f"{block}::{name}"] if block else []
    inside = [it if module in ("lib", "main") else f"{module}::{it}" for it in owned + [name]]
    return tuple(dict.fromkeys(inside + owned + [name]))


def put_together(edits):
    """Returns as many of the edits as can be made at once, in functions of their own, with the texts that they make; at least one."""
    chosen, texts, functions = [], {}, set()
    for edit in edits:
        changed = edit.change(texts)
        if not chosen or changed and not functions & set(edit.functions):
            chosen.append(edit)
            texts = changed
            functions |= set(edit.functions)
    return chosen, texts


def files_of(top, crate):
    folder = os.path.join(top, "crates", crate)
    return sorted(os.path.join(at, file) for part in PARTS for at, _, files in os.walk(os.path.join(folder, part)) for file in files)


def newest(top, crate):
    """Returns when a text of the crate was changed last."""
    return max(os.stat(it).st_mtime for it in files_of(top, crate))


def texts_of(top, crate):
    """Returns a sum of the crate's texts."""
    sum = hashlib.sha256()
    for file in files_of(top, crate):
        with open(file, "rb") as text:
            sum.update(os.path.relpath(file, top).encode() + b"\0" + text.read() + b"\0")
    return sum.hexdigest()


class Trial:
    """A crate's copy, in which its edits are tried."""

    def __init__(self, below, crate, libraries, room):
        self.crate, self.room = crate, room
        self.folder = os.path.join(TOP, "crates", crate)
        root = "src/main.rt" if os.path.isfile(os.path.join(self.folder, "src", "main.rt")) else "src/lib.rt"
        self.words = [os.path.join(KIT, "bin", "rattle"), "check", "--crate-name", crate, root]
        for dep in dict.fromkeys(["std", *below[crate]]):
            self.words += ["--extern", f"{dep}={library_of(libraries, dep) if dep in below else os.path.join(KIT, 'rlibs', dep + '.rlib')}"]
        self.words += ["-L", f"dependency={KIT}/rlibs"]
        for dep in all_below(below, crate):
            self.words += ["-L", f"dependency={os.path.dirname(library_of(libraries, dep))}"]
        self.words += ["--antt-project", f"{KIT}/rattle/logic/antt-project.json", "--logic-built", f"{KIT}/logic_built"]
        self.words += ["--links", f"{crate}=", "--jobs", "1", "--incremental", os.path.join(room, "kept")]
        os.mkdir(os.path.join(room, "kept"))

    def check(self, texts, only):
        """Checks the crate with these texts in place of its own, of the functions that are named or of all, and returns the status and what was said."""
        copy = os.path.join(self.room, "copy")
        shutil.rmtree(copy, ignore_errors=True)
        for part in PARTS:
            if os.path.isdir(os.path.join(self.folder, part)):
                shutil.copytree(os.path.join(self.folder, part), os.path.join(copy, part))
        for path, text in texts.items():
            with open(os.path.join(copy, path), "w", encoding="utf-8") as file:
                file.write(text)
        words = [word for name in only for word in ("--only", name)]
        ran = subprocess.run(self.words + words, cwd=copy, stdin=subprocess.DEVNULL, stdout=subprocess.PIPE, stderr=subprocess.STDOUT, errors="replace")
        return ran.returncode, ran.stdout.rstrip("\n").split("\n")

    def named(self, functions):
        """Has the functions proved as they stand, with what they call, and returns the name by which the prover knows each, if any."""
        left = {it: list(it) for it in functions}
        while any(left.values()):
            status, said = self.check({}, [it[0] for it in left.values() if it])
            if not status:
                break
            unknown = next((found[1] for it in said for found in [re.search(r"`\w+` has \S+ functions? `(\S+)`", it)] if found), None)
            unknown = unknown or next((it[0] for it in left.values() if it and any(f"`{it[0]}`" in line for line in said)), None)
            if status != 2 or not unknown:
                stop(f"{self.crate} isn't proved as it stands: {first_error(said)}")
            for it in left.values():
                if it[:1] == [unknown]:
                    it.pop(0)
        return {it: names[0] if names else None for it, names in left.items()}

    def tried_at_once(self, edits, texts, named):
        """Returns what the prover says of each edit's function where all are made: of those that have no proof for their own sake, and of those that
        are proved all the same (None). Of a function that calls one of the first it tells nothing."""
        only = {edit: [named[it] for it in edit.functions] for edit in edits}
        status, said = self.check(texts, [it for names in only.values() for it in names])
        if status not in (0, 1) or not re.match(r"only=\d+ proved=\d+$", said[-1]):
            return {}
        lines = {found[1]: it for it in said for found in [re.match(r"fn (\S+): (?:proved|no proof|not proved)", it)] if found}
        told = {}
        for edit, names in only.items():
            own = [line for at, line in lines.items() if any(at.endswith(f"::{name}") for name in names)]
            without = [it for it in own if not it.endswith(": proved")]
            alone = [it for it in without if not re.search(r"which (is|are) not proved|was not admitted", it)]
            if alone or own and not without:
                told[edit] = alone[0][:160] if alone else None
        return told

    def refused_alone(self, edit):
        """Returns whether the crate isn't proved with the edit, and what was said."""
        status, said = self.check(edit.change({}), [])
        if status == 1 and said[-1].startswith("logic=not-proved"):
            return True, first_error(said)
        if status == 3 and any(LIMIT.search(it) for it in said):
            return True, f"only by a limit of the prover: {first_error(said)}"
        return False, "the crate is still proved with it" if not status else f"not tried: {first_error(said)}"


def first_error(said):
    return next((it[:160] for it in said if re.match(r"\S+:\d+:\d+: error", it)), said[-1][:160])


def tried_of(below, crate, edits, libraries):
    """Tries the crate's edits, says what became of each, and returns how many there are and how many were refused."""
    with tempfile.TemporaryDirectory(prefix="wrong-edits-") as room:
        trial = Trial(below, crate, libraries, room)
        named = trial.named(dict.fromkeys(it for edit in edits for it in edit.functions))
        told = by_function(trial, [it for it in edits if all(named[at] for at in it.functions)], named)
        for edit in edits:
            is_refused, why = (True, told[edit]) if told.get(edit) else trial.refused_alone(edit)
            told[edit] = why if is_refused else None
            print(f"{edit.label}: {'refused, as it must be' if is_refused else 'NOT REFUSED'}: {why}", flush=True)
    return len(edits), sum(it is not None for it in told.values())


def by_function(trial, left, named):
    """Returns what the prover says of the edits' functions, of those that it doesn't prove; of the others None, or nothing."""
    told, at_once = {}, len(left)
    while left:
        group, texts = put_together(left[:at_once])
        found = trial.tried_at_once(group, texts, named)
        if not found and len(group) > 1:
            # (one of them gives no text that can be checked)
            at_once = 1
            continue
        told.update(found)
        # (nothing is refused, so no function is left out for the sake of another)
        gone = found if any(found.values()) else group
        left = [it for it in left if it not in gone]
    return told


def main(words):
    libraries = TOP
    if words[:1] == ["--libraries"]:
        if len(words) < 2:
            stop("--libraries wants a tree")
        libraries, words = os.path.realpath(words[1]), words[2:]
    below, having = graph(), sorted(os.listdir(EDITS))
    for crate in words:
        if crate not in having:
            stop(f"no edits of {crate}")
    crates = words or [it for it in below if it in having]
    needed = {dep for crate in crates for dep in all_below(below, crate)}
    stop_without(libraries, [it for it in below if it in needed])
    edits = {crate: [Edit(crate, it) for it in sorted(os.listdir(os.path.join(EDITS, crate)))] for crate in crates}
    with ThreadPoolExecutor(int(os.environ.get("RT_JOBS") or len(os.sched_getaffinity(0)))) as pool:
        done = list(pool.map(lambda it: tried_of(below, it, edits[it], libraries), crates))
    tried, refused = (sum(it) for it in zip(*done))
    print(f"{refused} of {tried} wrong edits refused")
    return refused != tried


if __name__ == "__main__":
    sys.exit(main(sys.argv[1:]))
