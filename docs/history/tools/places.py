#!/usr/bin/env python3
"""Counts the places of issue 35 by plain patterns, from the repository's top.

    python3 tools/places.py                 the files as they stand
    python3 tools/places.py --at COMMIT     the files of a commit
    python3 tools/places.py --list          each place too, as path:line
    python3 tools/places.py --crates A,B    of these crates alone
    python3 tools/places.py --by-crate      the numbers of each crate beside one another

A pattern finds what has the shape, whether or not it should change: docs/DESIGN-PASS.md says which stay, and why.
"""
import argparse
import collections
import io
import pathlib
import re
import subprocess
import tarfile

FILE = re.compile(r"crates/([^/]+)/(src/.*\.rt|proofs/.*\.antt)$")
WORDS = set("as break const continue else enum false fn for if impl in let loop match mod move mut pub ref return self Self "
            "static struct super true type unsafe use where while crate".split())


def read(commit):
    if commit is None:
        found = {str(p): p.read_text() for p in pathlib.Path("crates").rglob("*") if p.suffix in (".rt", ".antt") and FILE.match(str(p))}
    else:
        tar = tarfile.open(fileobj=io.BytesIO(subprocess.run(["git", "archive", commit, "crates"], check=True, stdout=subprocess.PIPE).stdout))
        found = {m.name: tar.extractfile(m).read().decode() for m in tar if m.isfile() and FILE.match(m.name)}
    return dict(sorted(found.items()))


def blank(text):
    # Same length and same lines, so that places stay right.
    pattern = r'//[^\n]*|"(?:\\.|[^"\\])*"|b?\'(?:\\.|[^\'\\\n])\''
    return re.sub(pattern, lambda m: re.sub(r"[^\n]", " ", m[0]) if m[0].startswith("//") else '"' + re.sub(r"[^\n]", " ", m[0][1:-1]) + '"', text)


def close(text, at):
    # The place behind the bracket that closes the one at a place.
    ends, depth = {"{": "}", "(": ")", "[": "]"}[text[at]], 0
    for i in range(at, len(text)):
        depth += (text[i] == text[at]) - (text[i] == ends)
        if depth == 0:
            return i + 1
    return len(text)


def split(text, by=","):
    parts, depth, last = [], 0, 0
    for i, c in enumerate(text):
        depth += (c in "([{") - (c in ")]}")
        if depth == 0 and c == by:
            parts.append(text[last:i])
            last = i + 1
    return [p.strip() for p in parts + [text[last:]] if p.strip()]


def conjuncts(text):
    text = " ".join(text.split())
    while text.startswith("(") and close(text, 0) == len(text):
        text = text[1:-1].strip()
    parts = split(text, "×")
    return [text] if len(parts) == 1 else [c for p in parts for c in conjuncts(p)]


class Fn:
    def __init__(self, path, text, m, impls):
        self.path, self.name, self.line = path, m[1], text.count("\n", 0, m.start()) + 1
        self.owner = next((head for head, a, b in reversed(impls) if a < m.start() < b), "")
        self.in_trait = " for " in self.owner or self.owner.startswith("trait")
        start = text.index("(", m.end() - 1)
        if text[m.end() - 1] == "<":
            depth, i = 0, m.end() - 1
            while True:
                depth += (text[i] == "<") - (text[i] == ">" and text[i - 1] != "-")
                i += 1
                if depth == 0:
                    break
            start = text.index("(", i)
        end = close(text, start)
        self.params = [tuple(" ".join(x.split()) for x in p.removeprefix("mut ").split(":", 1)) for p in split(text[start + 1:end - 1]) if ":" in p]
        self.clauses, i = [], end
        while True:
            i = min([x for x in (text.find("{", i), text.find(";", i)) if x >= 0], default=len(text) - 1)
            if text[i] != "{":
                self.body, self.at = "", i
                return
            clause = re.search(r"\b(requires|ensures)(?:\s+\w+)?\s*$", text[end:i])
            if not clause:
                self.body, self.at = text[i + 1:close(text, i) - 1], i + 1
                return
            self.clauses += conjuncts(text[i + 1:close(text, i) - 1])
            i = end = close(text, i)

    def place(self):
        return f"{self.path}:{self.line}"


def items(text, word):
    # (head, first place, last place) of each item that begins with a word.
    out = []
    for m in re.finditer(rf"^[ ]*(?:pub(?:\([^)]*\))? )?{word}\b[^{{;]*\{{", text, re.M):
        out.append((" ".join(m[0].replace("pub ", "").rstrip("{").split()), m.start(), close(text, m.end() - 1)))
    return out


def loops(text, word):
    for m in re.finditer(rf"\b{word}\b([^{{;]*)\{{", text):
        yield m[1].strip(), text[m.end():close(text, m.end() - 1) - 1], m.start()


def tokens(body):
    names = lambda t: t if t in WORDS else "x"
    return " ".join(names(t) if t[0].isalpha() or t[0] == "_" else "0" if t[0].isdigit() else t for t in re.findall(r"[A-Za-z_]\w*|\d\w*|[^\w\s]", body))


def is_number(arm):
    return re.match(r"(?:0x[\dA-Fa-f_]+|\d[\d_]*)\s*(?:\||=>|\.\.)", arm)


def main():
    args = argparse.ArgumentParser()
    args.add_argument("--at")
    args.add_argument("--list", action="store_true")
    args.add_argument("--by-crate", action="store_true")
    args.add_argument("--crates", default="")
    args = args.parse_args()
    found = collections.OrderedDict()
    rows = [("1", "enums of the shape of Option or Result"), ("1", "structs with one bool beside a value"),
            ("1", "as_u8 .. as_u64 by a match of constants"), ("1", "inherent try_from"),
            ("2", "groups of functions with the same body (names, numbers blanked)"), ("2", "functions in these groups"),
            ("3", "while loops with a counter"), ("3", "other while loops"), ("3", "loop"), ("3", "for over a range that indexes"),
            ("4", "inherent equal, same, eq, copy, compare, as_*, try_from, from_*, to_*, print_*"),
            ("5", "clauses that stand in three or more functions of a crate"), ("5", "three or more parameters that travel through three or more functions"),
            ("6", "functions with an array or slice and its length beside it"), ("6", "structs with an array and a length"), ("6", "loops that search"),
            ("7", "matches of numbers that call a function in two arms or more"), ("7", "matches that call another function in each of three arms or more"),
            ("7", "fn pointers, tables of functions"),
            ("8", "proof files"), ("8", "answers"), ("8", "answers that repeat another's text in their file"), ("8", "lemmas"), ("8", "lines of proofs")]
    for row in rows:
        found[row] = []

    def add(n, what, crate, place, said="", k=1):
        key = next(r for r in rows if r[0] == n and r[1].startswith(what))
        found[key].append((crate, place, said, k))

    wanted = set(args.crates.split(",")) - {""}
    files = {p: t for p, t in read(args.at).items() if not wanted or FILE.match(p)[1] in wanted}
    sources = {p: blank(t) for p, t in files.items() if p.endswith(".rt")}
    aliases = {m[1] for t in sources.values() for m in re.finditer(r"\btype (\w+) = \[", t)}
    is_array = lambda t: "[" in t or any(re.search(rf"\b{a}\b", t) for a in aliases)
    is_length = lambda name, t: re.fullmatch(r"(\w+_)?(count|len|length|number|size|n|used|filled)", name) and re.fullmatch(r"&?(mut )?(u8|u16|u32|u64|usize)", t)
    fns = []
    for path, text in sources.items():
        crate = FILE.match(path)[1]
        line = lambda at: f"{path}:{text.count(chr(10), 0, at) + 1}"
        for head, a, b in items(text, "enum"):
            arms = split(text[text.index("{", a) + 1:b - 1])
            payload = [re.split(r"[({]", x, maxsplit=1)[1].rstrip(")} ") if re.search(r"[({]", x) else "" for x in arms]
            bare = [p in ("", "Refusal") or re.match(r"(Refused|Failed|Err)\b", x) is not None for p, x in zip(payload, arms)]
            # Two bare arms with one refusal among them are a Result<(), Refusal>.
            if len(arms) == 2 and any(payload) and (sum(bare) == 1 or sum(p == "" for p in payload) == 1):
                add("1", "enums", crate, line(a), head + ": " + ", ".join(" ".join(x.split()) for x in arms))
        for head, a, b in items(text, "struct"):
            fields = [f.removeprefix("pub ").split(":", 1) for f in split(text[text.index("{", a) + 1:b - 1]) if ":" in f]
            fields = [(n.strip(), t.strip()) for n, t in fields]
            if sum(t == "bool" for n, t in fields) == 1 and len(fields) > 1:
                add("1", "structs", crate, line(a), head)
            if any(is_array(t) for n, t in fields) and any(is_length(n, t) for n, t in fields):
                add("6", "structs", crate, line(a), head)
        impls = items(text, "impl") + items(text, "trait")
        impls.sort(key=lambda x: x[1])
        for m in re.finditer(r"\bfn (\w+)\s*[<(]", text):
            fns.append(Fn(path, text, m, impls))
        for head, body, at in loops(text, "while"):
            add("3", "while loops" if re.search(r"\b(\w+) [+-]= 1;|\b(\w+) = \2 [+-] 1;", body) else "other while", crate, line(at), head)
            if re.search(r"\bif\b[^{]*\{\s*(return|break)\b", body):
                add("6", "loops", crate, line(at), "while " + head)
        for head, body, at in loops(text, "loop"):
            add("3", "loop", crate, line(at))
        for head, body, at in loops(text, "for"):
            m = re.match(r"(\w+) in .*\.\.", head)
            if m and re.search(rf"\[[^\]]*\b{m[1]}\b[^\]]*\]", body):
                add("3", "for over", crate, line(at), head)
            if re.match(r"\w.* in ", head) and re.search(r"\bif\b[^{]*\{\s*(return|break)\b", body):
                add("6", "loops", crate, line(at), "for " + head)
        for head, body, at in loops(text, "match"):
            arms = re.findall(r"^\s*((?:[\w:|.& ]|\([^()]*\)|\{[^{}]*\})+=>\s*\{?\s*(?:return )?[^\n]*)", body, re.M)
            calls = [re.search(r"=>\s*\{?\s*(?:return )?((?:\w+::)*[a-z_]\w*)\(", x) for x in arms]
            names = {c[1] for c in calls if c}
            if sum(bool(is_number(x)) for x in arms) >= 2 and len([c for c in calls if c]) >= 2:
                add("7", "matches of numbers", crate, line(at), head)
            elif len(names) >= 3:
                add("7", "matches that call", crate, line(at), head)
        for m in re.finditer(r"[:<,(=]\s*&?fn\(", text):
            add("7", "fn pointers", crate, line(m.start()))

    for f in fns:
        crate = FILE.match(f.path)[1]
        if re.fullmatch(r"as_u(8|16|32|64)", f.name) and "match" in f.body:
            add("1", "as_u8", crate, f.place(), f.owner)
        if f.name == "try_from" and not f.in_trait:
            add("1", "inherent", crate, f.place(), f.owner)
        if not f.in_trait and re.fullmatch(r"equals?|(is_)?same(_\w+)?|eq(_\w+)?|copy(_\w+)?|compare(_\w+)?|as_\w+|try_from(_\w+)?|from_\w+|to_\w+|print(_\w+)?", f.name):
            add("4", "inherent", crate, f.place(), (f.owner + " " + f.name).strip())
        if any(is_array(t) for n, t in f.params) and any(is_length(n, t) for n, t in f.params):
            add("6", "functions", crate, f.place(), f.name + ": " + ", ".join(n for n, t in f.params))

    same = collections.defaultdict(list)
    for f in fns:
        key = tokens(f.body)
        # Shorter ones are a call or a field, and say nothing.
        if len(key.split()) >= 12:
            same[key].append(f)
    for group in same.values():
        if len(group) > 1:
            crate = FILE.match(group[0].path)[1]
            add("2", "groups", crate, group[0].place(), " ".join(f.name for f in group))
            for f in group:
                add("2", "functions", FILE.match(f.path)[1], f.place(), f.name)

    for crate in sorted({FILE.match(f.path)[1] for f in fns}):
        mine = [f for f in fns if FILE.match(f.path)[1] == crate]
        clauses = collections.defaultdict(list)
        for f in mine:
            for c in set(re.sub(r"\.(now|old|new)\b", "", c) for c in f.clauses):
                clauses[c].append(f)
        for c, fs in clauses.items():
            if len(fs) >= 3:
                add("5", "clauses", crate, fs[0].place(), f"{len(fs)}: {c}")
        sets = {frozenset(n for n, t in f.params) for f in mine}
        groups = {a & b for a in sets for b in sets}
        groups |= {a & b for a in groups for b in groups}
        having = lambda g: [f for f in mine if g <= {n for n, t in f.params}]
        groups = [g for g in groups if len(g) >= 3 and len(having(g)) >= 3]
        for g in sorted(groups, key=lambda g: (len(g), sorted(g))):
            if not any(g < h for h in groups):
                fs = having(g)
                add("5", "three or more", crate, fs[0].place(), f"{len(fs)}: " + " ".join(n for n, t in fs[0].params if n in g))

    for path, text in files.items():
        if not path.endswith(".antt"):
            continue
        crate, name = FILE.match(path)[1], path.rsplit("/", 1)[1]
        add("8", "proof files", crate, path + ":1")
        add("8", "lines", crate, path + ":1", k=text.count("\n"))
        if name == "Answers.antt":
            answers = list(re.finditer(r"^pub (\S+) : goal\.\S+\n((?:(?!\n\n).)*)", text, re.M | re.S))
            shapes = collections.Counter()
            for m in answers:
                add("8", "answers", crate, f"{path}:{text.count(chr(10), 0, m.start()) + 1}", m[1])
                body = m[2].split("=\n", 1)[-1].split("= ", 1)[-1] if "=\n" not in m[2] else m[2].split("=\n", 1)[1]
                shape = re.sub(r"\d+", "0", re.sub(r"\bc\.[\w.\-]+", "c", " ".join(body.split())))
                shapes[shape] += 1
                if shapes[shape] > 1:
                    add("8", "answers that", crate, f"{path}:{text.count(chr(10), 0, m.start()) + 1}", m[1])
        elif name not in ("Invariants.antt", "Lib.antt", "Proof.antt"):
            for m in re.finditer(r"^ {0,4}(?:pub )?(?!record\b)([\w\-]+) :(?! [^\n]*:=)", text, re.M):
                add("8", "lemmas", crate, f"{path}:{text.count(chr(10), 0, m.start()) + 1}", m[1])

    total = lambda places: sum(p[3] for p in places)
    for row, places in found.items():
        print(f"{row[0]}  {total(places):6}  {row[1]}")
        if args.by_crate:
            by = collections.Counter()
            for crate, _, _, k in places:
                by[crate] += k
            print("           " + " ".join(f"{c}={n}" for c, n in by.items()))
        if args.list and row[1] not in ("proof files", "answers", "lemmas", "lines of proofs"):
            for crate, place, said, k in places:
                print(f"             {place}  {said}".rstrip())


if __name__ == "__main__":
    main()
