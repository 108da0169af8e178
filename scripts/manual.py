#!/usr/bin/env python3
"""Makes the man pages of the C library from the comments of include/powerlink_cn.h.

usage: manual.py [--out FOLDER]      writes the pages into FOLDER/man3 and FOLDER/man7
                                     (build/man where no folder is given)
       manual.py --check [ARCHIVE]   checks that each function has a whole page, and compiles the
                                     examples; links and runs them too where an archive is given

The comment of a function has, in this order, an empty line between:

  - a sentence that says what it does
  - a description, where there is more to say
  - `Parameters:`, a line for each, in the order of the prototype; one in us or grams says so
  - `Refusals, in order:`, a line for each, by its constant; or `Refusals: none.`
  - `Rules:`, where its rules come from
  - `Example:`, 2 to 6 lines of C

The check also holds numbers and refusals to the tables of docs/RULES.md and docs/CALLS.md, and has
the pages rendered by groff and mandoc, where these are installed.

Exit status: 0 where all is well, 1 where a check fails, 2 where the arguments are wrong."""
import os
import pathlib
import re
import shutil
import subprocess
import sys
import tempfile

ROOT = pathlib.Path(__file__).resolve().parent.parent
HEADER = ROOT / 'include/powerlink_cn.h'
# What a caller keeps, and not what one call is given or answers: shown in powerlink_cn(7) alone.
KEPT = {'plcn_head', 'plcn_queue', 'plcn_history', 'plcn_run', 'plcn_watched', 'plcn_weigh', 'plcn_memory'}
RETURNS = r'(?:uint32_t|uint64_t|struct plcn_text)'
FUNCTION = re.compile(r'/\*\*\n((?: \*[^\n]*\n)*?) \*/\n(?:static inline )?(%s (plcn_\w+)\(([^;{]*)\))(?:;|\n\{)' % RETURNS)
TYPE = re.compile(r'(?:/\*\*.*?\*/\n)(?:struct|enum) (plcn_\w+) \{\n.*?\n\};', re.S)


class Function:
    """A function of the header with the parts of its comment."""

    def __init__(self, comment, prototype, name, parameters):
        self.name, self.prototype = name, prototype + ';'
        self.takes = [] if parameters == 'void' else [
            re.search(r'(\w+)(?:\[\w+\])?$', p.strip())[1] for p in parameters.split(',')]
        self.uses = re.findall(r'struct (plcn_\w+)', prototype)
        self.brief, self.body, self.parameters, self.refusals, self.rules, self.example = '', [], [], [], '', []
        self.tells_refusals = False
        self.answers_refusal = prototype.startswith('uint32_t') and parameters != 'void'
        self.order = []
        for block in re.split(r'\n \*\n', comment.rstrip('\n')):
            self.read([line[2:][1:] for line in block.split('\n')])

    def read(self, lines):
        """One part of the comment."""
        first = lines[0]
        if first == 'Parameters:':
            self.parameters = pairs(lines[1:])
            self.order.append(1)
        elif first == 'Refusals, in order:':
            self.refusals, self.tells_refusals = pairs(lines[1:]), True
            self.order.append(2)
        elif first == 'Refusals: none.':
            self.tells_refusals = True
            self.order.append(2)
        elif first.startswith('Rules: '):
            self.rules = ' '.join(line.strip() for line in lines)[len('Rules: '):]
            self.order.append(3)
        elif first == 'Example:':
            self.example = [line[2:] for line in lines[1:]]
            self.order.append(4)
        elif not self.brief:
            self.brief = ' '.join(lines)
            self.order.append(0)
        else:
            self.body.append(' '.join(lines))
            self.order.append(0)


def pairs(lines):
    """Names with their texts, which go on in lines that are set further in."""
    found = []
    for line in lines:
        name = re.match(r'  (\w+)  +(.*)$', line)
        if name:
            found.append([name[1], name[2]])
        elif found:
            found[-1][1] += ' ' + line.strip()
    return [tuple(p) for p in found]


class Header:
    """The header: its overview, its functions and its types."""

    def __init__(self, path):
        self.text = path.read_text(encoding='utf-8')
        self.overview = re.match(r'/\*\n(.*?) \*/', self.text, re.S)[1]
        self.functions = [Function(*m) for m in FUNCTION.findall(self.text)]
        self.types = {m[1]: m[0] for m in TYPE.finditer(self.text)}
        self.exported = re.findall(rf'^{RETURNS} (plcn_\w+)\(', self.text, re.M)
        self.declared = re.findall(rf'^(?:static inline )?{RETURNS} (plcn_\w+)\(', self.text, re.M)
        major, minor, patch = (re.search(rf'PLCN_VERSION_{p} (\d+)', self.text)[1] for p in ('MAJOR', 'MINOR', 'PATCH'))
        self.version = f'{major}.{minor}.{patch}'

    def enum(self, name):
        """The names and numbers of an enum."""
        return {n: int(v, 0) for n, v in re.findall(r'(PLCN_\w+) = (\w+)', self.types[name])}

    def named_by(self, names):
        """The types of these names and those that they have fields of, but what a caller keeps."""
        found = []
        for name in names:
            if name in KEPT or name not in self.types:
                continue
            inner = self.named_by(re.findall(r'^    struct (plcn_\w+)', self.types[name], re.M))
            found += [n for n in inner + [name] if n not in found]
        return found


def escaped(text):
    """A text as roff reads it."""
    return re.sub(r"^([.'])", r'\\&\1', text.replace('\\', r'\e').replace('-', r'\-').replace("'", r'\(aq'), flags=re.M)


def code(lines):
    return ['.nf', '.ft CW', *(escaped(line) for line in lines), '.ft', '.fi']


def tagged(items):
    """Names with their texts, as a list."""
    out = []
    for name, text in items:
        out += ['.TP', f'.B {escaped(name)}', escaped(text)]
    return out


def siblings(function, names):
    """The pages of the same call in its other forms."""
    plain = function.name.replace('plcn_weigh_', 'plcn_').removesuffix('_over')
    forms = (plain, plain + '_over', plain.replace('plcn_', 'plcn_weigh_', 1))
    return [n for n in forms if n in names and n != function.name]


def page(function, header):
    """The man page of a function."""
    names = [f.name for f in header.functions]
    brief = function.brief.rstrip('.')
    types = header.named_by(function.uses)
    out = [f'.TH {function.name.upper()} 3 "" "powerlink_cn {header.version}" "POWERLINK controlled node"',
           '.SH NAME', f'{function.name} \\- {escaped(brief[0].lower() + brief[1:])}', '.SH SYNOPSIS',
           *code(['#include <powerlink_cn.h>', '', *function.prototype.split('\n')]), '.SH DESCRIPTION', escaped(function.brief)]
    for text in function.body:
        out += ['.PP', escaped(text)]
    if function.parameters:
        out += ['.SS Parameters', *tagged(function.parameters)]
    if types:
        out += ['.SS Structures', *code('\n\n'.join(header.types[t] for t in types).split('\n'))]
    if function.refusals:
        out += ['.SH RETURN VALUE', 'PLCN_OK, or the first of these refusals, in this order, that applies. '
                'A refused call writes nothing.', *tagged(function.refusals)]
    elif function.answers_refusal:
        out += ['.SH RETURN VALUE', 'PLCN_OK: no call is refused.']
    else:
        out += ['.SH RETURN VALUE', 'What the description says; no call is refused.']
    out += ['.SH RULES', escaped(function.rules), '.SH EXAMPLE', *code(function.example), '.SH SEE ALSO']
    also = [(n, 3) for n in siblings(function, names)] + [('powerlink_cn', 7)]
    out += [f'.BR {escaped(n)} ({s}){"," if i < len(also) else ""}' for i, (n, s) in enumerate(also, 1)]
    return '\n'.join(out) + '\n'


def overview(header):
    """The page powerlink_cn(7): the header's first comment, the functions and the types."""
    lines = [line[3:] if line.startswith(' * ') else '' for line in header.overview.rstrip('\n').split('\n')]
    name, brief = re.match(r'(\w+)\.h - (.*)\.$', lines[0]).groups()
    out = [f'.TH {name.upper()} 7 "" "powerlink_cn {header.version}" "POWERLINK controlled node"', '.SH NAME', f'{name} \\- {escaped(brief)}',
           '.SH SYNOPSIS', *code(['#include <powerlink_cn.h>', '', 'cc program.c $(pkg-config --cflags --libs powerlink_cn)']),
           '.SH DESCRIPTION']
    for line in lines[1:]:
        if not line.strip():
            out.append('.PP')
        elif not line.startswith(' '):
            # a title stands alone between an empty line and lines that are set in
            at = lines.index(line)
            is_title = not lines[at - 1].strip() and at + 1 < len(lines) and lines[at + 1].startswith('  ')
            out += [f'.SH {escaped(line.upper())}'] if is_title else [escaped(line)]
        elif line.startswith('  - '):
            out += ['.IP \\(bu 2', escaped(line[4:])]
        elif line.startswith('    '):
            out.append(escaped(line.strip()))
        else:
            out += (['.PP'] if out[-2:-1] == ['.IP \\(bu 2'] or in_list(out) else []) + [escaped(line.strip())]
    out += ['.SH FUNCTIONS']
    for function in header.functions:
        out += ['.TP', f'.BR {escaped(function.name)} (3)', escaped(function.brief)]
    out += ['.SH TYPES', *code('\n\n'.join(header.types.values()).split('\n'))]
    return re.sub(r'(?:\.PP\n)+(?=\.SH|\.IP|\.PP)', '', '\n'.join(out)) + '\n'


def in_list(out):
    """Whether what was written last is an item of a list."""
    for line in reversed(out):
        if line.startswith('.'):
            return line.startswith('.IP')
    return False


def write_pages(header, folder):
    """Writes all pages, in place of those that stand there."""
    for section in ('man3', 'man7'):
        shutil.rmtree(folder / section, ignore_errors=True)
        (folder / section).mkdir(parents=True)
    for function in header.functions:
        (folder / 'man3' / f'{function.name}.3').write_text(page(function, header), encoding='utf-8')
    (folder / 'man7/powerlink_cn.7').write_text(overview(header), encoding='utf-8')


def wrong_in(function, refusals):
    """What is missing on a function's page."""
    if not re.fullmatch(r'[A-Z][^.]*\.', function.brief):
        yield 'its first line is no sentence of its own'
    if function.order != sorted(function.order):
        yield 'the parts of its comment are out of order'
    if [p[0] for p in function.parameters] != function.takes:
        yield f'its parameters are {", ".join(function.takes)}, and those of its comment {", ".join(p[0] for p in function.parameters)}'
    for name, text in function.parameters:
        unit = {'us': 'in us', 'grams': 'in grams', 'ns': 'in ns'}.get(name.rsplit('_', 1)[-1])
        if unit and unit not in text:
            yield f'the unit of {name} is missing'
    if not function.tells_refusals:
        yield 'its refusals are missing'
    for name, _ in function.refusals:
        if name not in refusals:
            yield f'{name} is no refusal'
    if not function.rules.endswith('.'):
        yield 'where its rules come from is missing'
    if not 2 <= len(function.example) <= 6 or not any(f'{function.name}(' in line for line in function.example):
        yield 'it has no example of 2 to 6 lines that calls it'


def table_row(page_text, first):
    """The cells of a table's row by its first cell."""
    row = re.search(r'^ *\| %s \|(.*)\|$' % re.escape(first), page_text, re.M)
    return [c.strip() for c in row[1].split('|')] if row else []


# The rows of RULES 3; `frame` has its refusals in 13.2.
ROWS = {'start': 'start', 'nmt_event': 'NMT event', 'dll_event': 'DLL event', 'handle_error': 'error',
        'cycle_complete': 'cycle complete', 'tick': 'tick', 'withdraw': 'withdraw', 'heard': 'heard', 'hand_out': 'hand out',
        'load': 'load', 'arm': 'arm', 'add': 'add', 'remove': 'remove', 'next_due': 'next due', 'range': 'range', 'margin': 'margin'}


def wrong_with_rules(header):
    """Where refusals and numbers are not those of docs/RULES.md and docs/CALLS.md."""
    rules = (ROOT / 'docs/RULES.md').read_text(encoding='utf-8')
    calls = (ROOT / 'docs/CALLS.md').read_text(encoding='utf-8')
    refusals = header.enum('plcn_refusal')
    known = {f.name: f for f in header.functions}
    frame = re.search(r'^2\. Refusals in order: (18 below.*?)$', rules.split('## 13.')[1].replace('\n   ', ' '), re.M)[1]
    wanted = {call: table_row(rules, row)[1] for call, row in ROWS.items()}
    wanted['frame'] = ', '.join(re.findall(r'(?:^|; (?:for an ASnd )?)(\d+)', frame))
    for call, text in wanted.items():
        numbers = [int(n) for n in re.findall(r'\b\d+\b', re.sub(r'\(.*?\)', '', text))]
        for name in (f'plcn_{call}', f'plcn_{call}_over', f'plcn_weigh_{call}'):
            if name in known and [refusals[n] for n, _ in known[name].refusals] != numbers:
                yield f'{name}: its refusals are not those of docs/RULES.md 3, {text}'
    tables = [('plcn_refusal', 'PLCN_REFUSED_', r'^\| (\d+) \| (\w+) \|', rules.split('## 2.')[1].split('## 3.')[0]),
              ('plcn_state', 'PLCN_STATE_', r'(0x[0-9A-F]{2}) \| (\w+)', calls.split('NMT states:')[1].split('NMT events:')[0]),
              ('plcn_event', 'PLCN_EVENT_', r'(\d+) \| (\w+)', calls.split('NMT events:')[1].split('State commands:')[0]),
              ('plcn_command', 'PLCN_COMMAND_', r'(0x[0-9A-F]{2}) (\w+)', calls.split('State commands:')[1].split('DLL events:')[0]),
              ('plcn_dll_event', 'PLCN_DLL_EVENT_', r'(\d) (\w+)', calls.split('DLL events:')[1].split('DLL states:')[0]),
              ('plcn_dll_state', 'PLCN_DLL_STATE_', r'(\d)\s(\w+)', calls.split('DLL states:')[1].split('Kinds of error')[0]),
              ('plcn_error_kind', 'PLCN_KIND_', r'^\| (\d+) \| (\w+) \|', calls.split('Kinds of error')[1])]
    for enum, prefix, row, text in tables:
        told = {name.upper(): int(number, 0) for number, name in re.findall(row, text, re.M)}
        ours = {n.removeprefix(prefix).replace('_', ''): v for n, v in header.enum(enum).items() if n != 'PLCN_OK'}
        if told != ours:
            differ = sorted(k for k in {*told, *ours} if told.get(k) != ours.get(k))
            yield f'enum {enum}: not as the documents have it: {", ".join(differ)}'


SCENE = '''#include "powerlink_cn.h"
#include <stdio.h>

static struct plcn_head head;
static struct plcn_run run;
static struct plcn_queue queue;
static struct plcn_history history;
static struct plcn_weigh weigh;
static struct plcn_memory memory;
static struct plcn_watched places[32];
static uint64_t number;
static uint64_t now = 1000;
static const uint8_t bytes[60] = {0x01, 0x11, 0x1E, 0, 0, 1, 0, 0, 0, 0, 0, 1, 0x88, 0xAB, 1, 255, 240};
static uint64_t length = sizeof bytes;

'''


def examples(header):
    """A program that runs each example on heads that are started."""
    out = [SCENE]
    for function in header.functions:
        out.append(f'static void example_{function.name}(void)\n{{')
        out += [f'    {line}' for line in function.example] + ['}\n']
    out.append('int main(void)\n{')
    for function in header.functions:
        out += ['    {', '        struct plcn_setup setup = {.node = 7, .queue_capacity = 32};',
                '        if (plcn_start(&head, &run, &setup) != 0 || plcn_weigh_start(&weigh, &memory, &setup) != 0)',
                '            return 1;', f'        example_{function.name}();', '    }']
    out.append('    (void)places, (void)number, (void)queue, (void)history;\n    return 0;\n}\n')
    return '\n'.join(out)


def said_by(*command):
    """What a command says where it fails or warns."""
    done = subprocess.run(command, capture_output=True, text=True)
    return '' if done.returncode == 0 and not done.stderr else (done.stderr + done.stdout or f'status {done.returncode}')


def compile_examples(header, folder, archive):
    """Compiles the examples as C99 and C11, and runs them where an archive is given."""
    source = folder / 'examples.c'
    source.write_text(examples(header), encoding='utf-8')
    strict = ('-pedantic', '-Wall', '-Wextra', '-Wconversion', '-Werror', f'-I{ROOT}/include')
    for compiler in filter(shutil.which, ('gcc', 'clang')):
        for standard in ('c99', 'c11'):
            said = said_by(compiler, f'-std={standard}', *strict, '-c', str(source), '-o', str(folder / 'examples.o'))
            if said:
                yield f'the examples do not compile by {compiler} as {standard}:\n{said}'
    if archive:
        said = said_by('cc', '-std=c11', '-fsanitize=address,undefined', '-fno-sanitize-recover', f'-I{ROOT}/include', str(source), archive,
                       '-o', str(folder / 'examples')) or said_by(str(folder / 'examples'))
        if said:
            yield f'the examples do not run:\n{said}'


def render(folder):
    """Has each page rendered, and says what the programs warn of."""
    for file in sorted(folder.glob('man?/*')):
        for command in (('groff', '-man', '-ww', '-Tutf8', '-z'), ('mandoc', '-T', 'lint', '-W', 'warning')):
            said = said_by(*command, str(file)) if shutil.which(command[0]) else ''
            if said:
                yield f'{file.name}, by {command[0]}: {said}'


def check(header, archive):
    """Says all that is wrong; whether nothing is."""
    refusals = header.enum('plcn_refusal')
    wrong = [f'{n}: has no comment' for n in header.declared if n not in [f.name for f in header.functions]]
    for function in header.functions:
        wrong += [f'{function.name}: {w}' for w in wrong_in(function, refusals)]
    named = {n for f in header.functions for n, _ in f.refusals}
    wrong += [f'{n}: no function has this refusal' for n in refusals if n not in named and n != 'PLCN_OK']
    wrong += wrong_with_rules(header)
    with tempfile.TemporaryDirectory() as folder:
        write_pages(header, pathlib.Path(folder))
        wrong += [*render(pathlib.Path(folder)), *compile_examples(header, pathlib.Path(folder), archive)]
    for text in wrong:
        print(f'scripts/manual.py: {text}', file=sys.stderr)
    return not wrong


def main(words):
    header = Header(HEADER)
    if words[:1] in (['--help'], ['-h']):
        print(__doc__)
    elif words[:1] == ['--check'] and len(words) <= 2:
        return 0 if check(header, words[1] if len(words) == 2 else None) else 1
    elif not words or (words[0] == '--out' and len(words) == 2):
        folder = pathlib.Path(words[1]) if words else ROOT / 'build/man'
        write_pages(header, folder)
        print(f'{len(header.functions)} pages of functions and powerlink_cn(7) in {os.path.relpath(folder)}')
    else:
        print(f'scripts/manual.py: {" ".join(words)}: not understood; see manual.py --help', file=sys.stderr)
        return 2
    return 0


if __name__ == '__main__':
    sys.exit(main(sys.argv[1:]))
