#!/usr/bin/env python3
"""Tries the twins of the wrong programs: each has to be proved.

A must-fail edit that changes the shape of the code shows something only where its twin, the same change of shape without the
error, is proved with the same proof files: otherwise it may be refused because a proof fits one shape of the code alone.
An edit file gives the twin by lines '# twin: TEXT', each behind the 'new:' line in whose place TEXT stands in the twin. A pair
without such a line keeps its 'new:' text. To rt these lines are comments.

For each edit that has a twin, or for those that are named, this applies the twin to a temporary copy of crates/ (without out/,
so that each check begins with what rt keeps on this machine) and runs 'rt check' in the crate there: a line each says whether it
is proved. NAME is a crate, CRATE/EDIT or the path of an edit file.

Status: 0 where every twin is proved, 1 where one is not or can't be applied, 2 where a name is none.
"""
import argparse
import os
import pathlib
import re
import shutil
import subprocess
import sys
import tempfile
import time

TOP = pathlib.Path(__file__).resolve().parent.parent
# how the check is run; RT_JOBS says how many processors it takes
CHECK = ["rt", "check"]


def pairs_of(edit):
    """The edit's replacements as [path, old, new, twin or None], in their order."""
    path, old, pairs = None, None, []
    for line in edit.read_text(encoding="utf-8").split("\n"):
        word, _, text = line.partition(":")
        text = text.removeprefix(" ")
        if word == "file":
            path = text.strip()
        elif word == "old":
            old = text
        elif word == "new":
            pairs.append([path, old, text, None])
        elif word == "# twin":
            if not pairs or pairs[-1][3] is not None:
                raise ValueError("a '# twin:' line stands behind no 'new:' line of its own")
            pairs[-1][3] = text
    return pairs


def twin_of(edit, crate):
    """The texts of the files that the twin changes, by their path in the crate."""
    texts = {}
    for path, old, new, twin in pairs_of(edit):
        text = texts.get(path) or (crate / path).read_text(encoding="utf-8")
        if text.count(old) != 1:
            raise ValueError(f"an 'old:' text stands in {path} {text.count(old)} times, and not once")
        texts[path] = text.replace(old, new if twin is None else twin)
    return texts


def has_twin(edit):
    return any(pair[3] is not None for pair in pairs_of(edit))


def edits_named(names):
    """The edit files that the names say, all that have a twin where there are none; None for a name that is none."""
    every = sorted(TOP.glob("crates/*/must-fail/*.edit"))
    if not names:
        return [edit for edit in every if has_twin(edit)]
    found = []
    for name in names:
        here = pathlib.Path(name).resolve()
        if here in every:
            found.append(here)
            continue
        crate, _, rest = name.strip("/").partition("/")
        named = [edit for edit in every if edit.parts[-3] == crate and rest in ("", edit.stem)]
        if not named:
            print(f"twins: {name} is no crate with edits and no edit", file=sys.stderr)
            return None
        found += [edit for edit in named if rest or has_twin(edit)]
    return found


def tried(edit, copy):
    """Whether the twin is proved, and what to say. The copy is as it was behind it."""
    crate = copy / "crates" / edit.parts[-3]
    if not has_twin(edit):
        return False, "NO TWIN: the edit has no '# twin:' line"
    try:
        texts = twin_of(edit, crate)
    except (OSError, ValueError) as error:
        return False, f"NOT APPLIED: {error}"
    before = {path: (crate / path).read_text(encoding="utf-8") for path in texts}
    if texts == before:
        return True, "proved where the crate is: the twin is the code as it stands"
    try:
        for path, text in texts.items():
            (crate / path).write_text(text, encoding="utf-8")
        ran = subprocess.run(
            CHECK,
            cwd=crate,
            stdin=subprocess.DEVNULL,
            stdout=subprocess.PIPE,
            stderr=subprocess.STDOUT,
            text=True,
            errors="replace",
        )
    finally:
        for path, text in before.items():
            (crate / path).write_text(text, encoding="utf-8")
    lines = ran.stdout.rstrip().split("\n")
    if ran.returncode == 0:
        return True, "proved"
    told = [line for line in lines if re.search(r": error|error\[|it is not proved", line)] or lines[-4:]
    return False, "REFUSED: " + "\n    ".join(told[:4])


def main():
    about, _, more = __doc__.partition("\n\n")
    args = argparse.ArgumentParser(description=about, epilog=more, formatter_class=argparse.RawDescriptionHelpFormatter)
    args.add_argument("--list", action="store_true", help="lists the edits that have a twin, and tries none")
    which = "a crate, CRATE/EDIT or an edit file; all that have a twin where none is given"
    args.add_argument("names", metavar="NAME", nargs="*", help=which)
    given = args.parse_args()
    edits = edits_named(given.names)
    if edits is None:
        return 2
    if given.list:
        for edit in edits:
            print(f"{edit.parts[-3]}/{edit.stem}")
        return 0
    refused = 0
    with tempfile.TemporaryDirectory(prefix="twins-") as room:
        copy = pathlib.Path(room)
        shutil.copytree(TOP / "crates", copy / "crates", ignore=shutil.ignore_patterns("out"))
        for name in ("crates.txt", "HANDLES"):
            if (TOP / name).is_file():
                shutil.copy2(TOP / name, copy / name)
        for edit in edits:
            began = time.monotonic()
            is_proved, what = tried(edit, copy)
            refused += not is_proved
            print(f"{edit.parts[-3]}/{edit.stem}: {what} ({time.monotonic() - began:.0f} s)", flush=True)
    print(f"{len(edits) - refused} twins proved, {refused} not")
    return 1 if refused else 0


if __name__ == "__main__":
    sys.exit(main())
