#!/usr/bin/env python3
"""Each public function says what it ensures, and none asks anything of its caller but those of tests/requires.txt, each by the very text there.

A function is public that has `pub` before its `fn`, in its crate alone (`pub(crate)`) left out. A call on a head, a function that is lent `head`, may ask
for nothing. tests/requires.txt has a block for each function that may: its file, its name, and the clauses, as they stand behind `requires`.

    contracts.py           checks
    contracts.py --store   writes tests/requires.txt anew: look at the difference before it is committed"""
import pathlib
import re
import sys

ROOT = pathlib.Path(__file__).resolve().parent.parent
STORED = ROOT / "tests/requires.txt"
FUNCTION = re.compile(r'^ *(?:#\[no_mangle\] *)?pub (?:const )?(?:extern "C" )?fn (\w+)', re.M)
BODY = re.compile(r"^ *\{|\{ *\}?$", re.M)
CLAUSE = re.compile(r"^ *(requires|ensures)\*?(?: (\w+))? (?=\{)", re.M)


def closing(text, at):
    """The place of the brace that closes the one at `at`."""
    depth = 0
    for place in range(at, len(text)):
        depth += {"{": 1, "}": -1}.get(text[place], 0)
        if depth == 0:
            return place
    sys.exit("tests/contracts.py: a brace is not closed: " + text[at:at + 60])


def public_functions():
    """Each public function: its file, its name, its signature, and its clauses as (word, label, text)."""
    for file in sorted(ROOT.glob("crates/*/src/**/*.rt")):
        source = file.read_text()
        for start in FUNCTION.finditer(source):
            yield str(file.relative_to(ROOT)), start.group(1), *read_function(source, start.end())


def read_function(source, at):
    """The signature behind the name, and the clauses up to the body."""
    signature, clauses = None, []
    while True:
        clause, brace = CLAUSE.search(source, at), BODY.search(source, at)
        if clause is None or brace is not None and brace.start() < clause.start():
            return signature or source[at:brace.start()], clauses
        signature = signature or source[at:clause.start()]
        end = closing(source, clause.end())
        text = " ".join(source[clause.end() + 1:end].split())
        clauses.append((clause.group(1), clause.group(2) or "", text))
        at = end + 1


def block(file, name, clauses):
    asked = ["    " + (label + ": " if label else "") + text for word, label, text in clauses if word == "requires"]
    return "\n".join([f"{file} {name}"] + asked) if asked else None


def main():
    functions = list(public_functions())
    asking = [b for b in (block(file, name, clauses) for file, name, _, clauses in functions) if b]
    if sys.argv[1:] == ["--store"]:
        STORED.write_text("\n\n".join(asking) + "\n")
        print(f"tests/requires.txt: {len(asking)} functions that ask something of their callers")
        return 0
    if sys.argv[1:]:
        print(__doc__, file=sys.stderr)
        return 2
    known = STORED.read_text().rstrip("\n").split("\n\n")
    wrong = [f"asks what tests/requires.txt does not have:\n{b}" for b in asking if b not in known]
    wrong += [f"is in tests/requires.txt, and asks this no more:\n{b}" for b in known if b not in asking]
    for file, name, signature, clauses in functions:
        if not any(word == "ensures" for word, _, _ in clauses):
            wrong.append(f"public, and says nothing of what it ensures: {file} {name}")
        if re.search(r"\bhead: &", signature) and any(word == "requires" for word, _, _ in clauses):
            wrong.append(f"a call on a head that asks something of its caller: {file} {name}")
    for line in wrong:
        print(line)
    if not wrong:
        print(f"ok: each of {len(functions)} public functions says what it ensures; {len(asking)} ask something of their callers, by the text in tests/requires.txt")
    return 1 if wrong else 0


if __name__ == "__main__":
    sys.exit(main())
