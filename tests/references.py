#!/usr/bin/env python3
"""What the documents and comments refer to is there.

  - a link of a document leads to a file
  - a file that a document or a comment names, by its path or by the end of it, is there; of `file:name` the file has the name
  - another name between backquotes stands in the code, and that of a comment not in comments alone
  - in docs/CLAIMS.md and tests/WRONG-PROGRAMS.md a file is named by enough of its path, and a name alone in a cell is of
    the file before it there
  - what stands for names of the original Rust, in a table whose first column is headed `powerlink-rs`, is there; that
    column is not looked up

A name is looked up whole: one that is cut short is not there. CHANGES.md tells of each landing by
the names of its time, so names alone are not looked up there. docs/history is passed over, and nothing
else may name a file of it."""
import os
import re
import sys

os.chdir(os.path.dirname(os.path.dirname(os.path.abspath(__file__))))
FILES = []
for folder, inside, names in os.walk('.'):
    inside[:] = [d for d in inside if d not in ('.git', 'target', 'out') and (folder, d) != ('./docs', 'history')]
    FILES += [os.path.relpath(os.path.join(folder, n)) for n in names]
FILES.sort()
TOP = ('crates', 'compare', 'bench', 'tests', 'docs', 'scripts', 'wrapper')
MARKS = {'.rt': '//', '.antt': '--', '.rs': '//', '.sh': '#', '.py': '#'}
# a file's name with its folders; of the original Rust only what is in compare/ is here
FILE = r'(?<![\w/.·*$-])((?:[\w.-]+/)*[\w-]+\.(?:rt\.txt|antt|rt|edit|sh|py|md|txt|out)|(?:%s)/[\w./-]*\.rs)\b' % '|'.join(TOP)
NAME = r"[\w·′-]+(::[\w·′-]+)*"
# what the Rust has and we leave out
ELSEWHERE = {'from_od', 'TimeOfDay', 'TimeDifference', 'dll_mn_event'}
TEXT = {}
wrong = []


def text(path):
    if path not in TEXT:
        with open(path, encoding='utf-8', errors='replace') as f:
            TEXT[path] = f.read()
    return TEXT[path]


def comment(file, line):
    """The comment of a line; of a script only a line of its own."""
    mark = MARKS.get(os.path.splitext(file)[1], '#' if os.path.basename(file) == 'Makefile' else None)
    at = line.find(mark) if mark else -1
    return '' if at < 0 or mark == '#' and line[:at].strip() else line[at:]


def is_code(file):
    return file.startswith('crates/') and file.endswith(('.rt', '.antt'))


CODE = {f: '\n'.join(line[:len(line) - len(comment(f, line))] for line in text(f).split('\n')) for f in FILES if is_code(f)}
BESIDE = [f for f in FILES if f.startswith(('compare/', 'bench/', 'scripts/', 'tests/', 'wrapper/src/')) or f in ('Makefile', 'crates.txt')]


def part(c):
    return c.isalnum() or c in '_-′″₀₁₂₃'


def has(t, name):
    """The name stands there, and what stands beside it does not make it longer."""
    at = -1
    while True:
        at = t.find(name, at + 1)
        if at < 0:
            return False
        before, after = t[at - 1:at], t[at + len(name):at + len(name) + 1]
        if not (part(name[0]) and before and part(before)) and not (part(name[-1]) and after and part(after)):
            return True


def named(word):
    """Files by a path, or the end of one."""
    return [f for f in FILES if f == word or f.endswith('/' + word)]


def known(word, everywhere):
    name = word.split('::')[-1]
    return (re.fullmatch(r'(0x)?[\dA-F]*', word) or word in ELSEWHERE or os.path.exists('crates/' + word)
            or any(word == os.path.splitext(os.path.basename(f))[0] for f in FILES)
            or any(has(t, name) for t in CODE.values()) or everywhere and any(has(text(f), name) for f in BESIDE))


def look(place, words, names, everywhere):
    """What a line of a document or a comment refers to."""
    count = 0
    for word in re.findall(FILE, words):
        count += 1
        if not named(word) and word not in ELSEWHERE:
            wrong.append(f'{place}: {word} is not there')
    for word in re.findall(r'`([^`]+)`', words):
        path, colon, name = word.partition(':')
        files = named(path)
        if '/' in path and path.split('/')[0] in TOP and '*' not in path and not re.fullmatch(FILE, path):
            count += 1
            if not os.path.exists(path.split(' ')[0]):
                wrong.append(f'{place}: {path} is not there')
        if colon and (files or re.fullmatch(FILE, path)):
            count += 1
            if files and not any(has(text(f), name) for f in files):
                wrong.append(f"{place}: {path} does not have '{name}'")
        elif names and re.fullmatch(NAME, word):
            count += 1
            if not known(word, everywhere):
                wrong.append(f"{place}: nothing is named '{word}'")
    return count


def look_at_cell(place, cell):
    """What a cell of these two refers to, beside what each line does."""
    before = []
    for word in re.findall(r'`([^`]+)`', cell):
        path, _, name = word.partition(':')
        files = named(path)
        if len(files) > 1:
            wrong.append(f'{place}: {path} is any of {", ".join(files)}')
        if files:
            before = files if name else []
        elif before and not re.fullmatch(FILE, path) and not any(has(text(f), word) for f in before):
            wrong.append(f"{place}: {before[0]} does not have '{word}'")


found = 0
of_the_rust = False
for file in FILES:
    for number, line in enumerate(text(file).split('\n') if file.endswith(('.md', *MARKS)) or file == 'Makefile' else [], 1):
        if file.endswith('.md'):
            for target in re.findall(r'\]\(([^)#\s]+)[^)]*\)', line):
                found += 1
                if not re.match(r'[a-z]+:', target) and not os.path.exists(os.path.join(os.path.dirname(file), target)):
                    wrong.append(f'{file}:{number}: the link to {target} leads nowhere')
            of_the_rust = line.startswith('|') and (of_the_rust or line.startswith('| `powerlink-rs` |'))
            if of_the_rust:
                line = line.split('|', 2)[2]
            found += look(f'{file}:{number}', re.sub(r'\]\([^)]*\)', ']', line), file != 'CHANGES.md', True)
            if file in ('docs/CLAIMS.md', 'tests/WRONG-PROGRAMS.md'):
                for cell in line.split('|'):
                    look_at_cell(f'{file}:{number}', cell)
        else:
            found += look(f'{file}:{number}', comment(file, line), is_code(file), False)
if wrong:
    print('\n'.join(wrong))
    sys.exit(f'{len(wrong)} references lead nowhere')
print(f'ok: {found} references of documents and comments are there')
