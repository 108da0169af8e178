#!/usr/bin/env python3
"""Spells the repository's own definitions and lemmas in snake case: run once, at the top, right after the kit's port.py.

usage: tools/respell.py [--list]

A name that specs/ or proofs/ declare, and that begins with a small letter, loses its capitals and dashes: `lastSoc` becomes `last_soc`, `read-back` becomes
`read_back`. Types, facts and constructors keep their capitals, names that Rattle makes (steps and goals, behind a dot) and names of the library stay.
The names in OTHER would meet another name. What port.py renamed already is given in RENAMED, for the texts that it does not read: must-fail edits and pages.
It turns .antt files; in .rt files clauses, ghost items and comments; the lines of must-fail edits; code spans of .md pages. --list prints the table alone.
"""

import os
import re
import subprocess
import sys

WORD = r"[^\s(){}.;,@\"«»`\[\]:|↦]+"
DECLARED = re.compile(
    r"^ *(?:pub |abbrev |unfoldable |mutual )*(?:(data|record|ruleset|syntax) )?([^\s(){}.;,@\"«»:]+)((?: \{[^{}\n]*\})*) :(?!:)",
    re.M,
)
# a definition's new name is taken by a lemma or an alias where both are read: the lemma gets the ending that says so
OTHER = {
    "errorKind": "error_kind_of",
    "withValues": "plain_with_values",
    "found_all": "found_all_lem",
    "has_room": "has_room_lem",
    "node_at": "node_at_lem",
    "same_flag": "same_flag_lem",
    "same_kind": "same_kind_lem",
    "one_less": "one_less_lem",
    "goes_on": "goes_on_lem",
    "one_more": "one_more_lem",
    "of_node": "of_node_lem",
    "kept_by": "kept_by_lem",
    "written_at": "written_at_lem",
    "left_by": "left_by_lem",
    "taken_back": "taken_back_lem",
    "by_state": "by_state_lem",
    "of_parts": "of_parts_lem",
    "no_line": "no_line_lem",
    "handed_out": "handed_out_lem",
    "moved_down": "moved_down_lem",
}


def texts(*endings):
    for top in ("crates", "docs", "compare", "scripts", "tests"):
        for folder, dirs, files in os.walk(top):
            dirs[:] = sorted(d for d in dirs if d not in ("out", "target", "fixtures"))
            for name in sorted(files):
                if name.endswith(endings):
                    yield os.path.join(folder, name)
    if ".md" in endings:
        yield "README.md"


def spelled(name):
    name = name.replace("getD", "get_or").replace("-", "_")
    return re.sub(r"(?<=[a-z0-9])([A-Z])", lambda m: "_" + m[1].lower(), name)


def table():
    """The rows of every name that is declared here. A lemma that would have its definition's name gets the ending that says so."""
    rows, every = {}, set()
    for path in texts(".antt"):
        with open(path, encoding="utf-8") as file:
            for found in DECLARED.finditer(file.read()):
                name = found[2]
                every.add(name)
                made = name.startswith(("invariant-", "decreases-"))
                if name[0].islower() and not made and spelled(name) != name:
                    rows[name] = spelled(name)
    taken = every | {new for old, new in rows.items() if "-" not in old}
    return {old: new + "_lem" * ("-" in old and new in taken) for old, new in rows.items()}


def before():
    here = os.path.join(os.path.dirname(os.path.abspath(__file__)), "respelled_by_port.txt")
    with open(here, encoding="utf-8") as file:
        return {name: spelled(name) for name in file.read().split()}


def turned(text, rows):
    return re.sub(WORD, lambda m: rows.get(m[0], m[0]), text)


def in_antt(text, rows, path):
    """Behind a dot a name with a dash is a step's where Rattle made the record: only the records and modules of this repository have names of the table."""
    return turned(text, rows)


def in_rt(text, rows):
    """All but strings: no name of Rust's code has a capital behind a small letter, or a dash without blanks."""
    parts = re.split(r'("(?:\\.|[^"\\\n])*")', text)
    return "".join(part if k % 2 else turned(part, rows) for k, part in enumerate(parts))


def in_spans(text, rows):
    return re.sub(r"`[^`\n]*`", lambda m: turned(m[0], rows), text)


def main(argv):
    rows = table()
    for old, new in OTHER.items():
        rows[old] = new
    if argv[1:] == ["--list"]:
        print("\n".join(f"{old}\t{new}" for old, new in sorted(rows.items())))
        return 0
    lemmas = {old: new for old, new in rows.items() if old in OTHER and new.endswith("_lem")}
    names = {old: new for old, new in rows.items() if old not in lemmas}
    count = 0
    for path in texts(".antt", ".rt", ".edit", ".md", ".py", ".sh", ".rt.txt"):
        with open(path, encoding="utf-8") as file:
            text = file.read()
        if path.endswith(".antt"):
            new = in_antt(text, {**names, **(lemmas if "/proofs/" in path else {})}, path)
        elif path.endswith(".rt"):
            new = in_rt(text, names)
        elif path.endswith(".edit"):
            new = turned(text, {**before(), **names})
        elif path.endswith(".md"):
            new = in_spans(text, {**before(), **names})
        else:
            new = text
        if new != text:
            count += 1
            with open(path, "w", encoding="utf-8") as file:
                file.write(new)
    print(f"respell: {len(rows)} names, {count} files changed; laying them out")
    for crate in sorted(os.listdir("crates")):
        subprocess.run(["rt", "fmt"], cwd=os.path.join("crates", crate), check=True, stdout=subprocess.DEVNULL)
    return 0


if __name__ == "__main__":
    raise SystemExit(main(sys.argv))
