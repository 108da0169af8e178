#!/usr/bin/env python3
"""Runs target/bin/replay on what no stored output of the Rust shows (docs/CALLS.md).

  - scripts/names.txt prints what the same script in numbers and with starts by place prints
  - with --names the stored script prints the names of what it prints without: read back as numbers, it is the same
  - with --trace it prints the same, and a line for each change of the NMT state, which `show` tells behind each line
  - a script that can't be read, and the exit status
  - what is answered while more of a script is waited for, behind a read that fails, and at a terminal's end

The numbers of the names are those of the tables of docs/CALLS.md."""
import os
import pty
import re
import select
import subprocess
import sys

os.chdir(os.path.dirname(os.path.dirname(os.path.abspath(__file__))))
REPLAY, PAGE, NAMES, STORED = 'target/bin/replay', 'docs/CALLS.md', 'scripts/names.txt', 'crates/replay/stdin'
KEYS = 'node flags timeout queue register cycle tolerance c1 c2 c3 c5'.split()
THRESHOLDS = 'collision loss_of_soc loss_of_soa loss_of_preq soc_jitter crc_errors heartbeat_timeout'.split()
DEFAULTS = dict(flags='0', timeout='0', queue='32', register='0', cycle='-', tolerance='-', c1='0', c2='0', c3='0', c5='0',
                **{t: '15' for t in THRESHOLDS})
failed = []


def play(script, *options):
    """What replay prints of a script, and its exit status."""
    done = subprocess.run([REPLAY, *options], input=script, capture_output=True, text=True)
    return done.stdout, done.returncode


def hold(what, found, wanted):
    """Says where two texts differ, line by line."""
    if found != wanted:
        pairs = zip(found.split('\n') + [''], wanted.split('\n') + [''])
        at, (a, b) = next((n, p) for n, p in enumerate(pairs, 1) if p[0] != p[1])
        failed.append(f'{what}: line {at} is\n    {a}\n  for\n    {b}')


page = open(PAGE, encoding='utf-8').read()


def section(title):
    """The text behind a line of the page up to the next such line."""
    return re.search(r'^%s.*?\n\n(.*?)(?=\n\n\S[^|]*:\s)' % re.escape(title), page + '\n\nEnd: ', re.M | re.S)[1]


STATES = {name: int(n, 16) for n, name in re.findall(r'(0x[0-9A-F]{2}) \| (\w+)', section('NMT states:'))}
EVENTS = {name: int(n) for n, name in re.findall(r'(\d+) \| (\w+)', section('NMT events:'))}
COMMANDS = {name: int(n, 16) for n, name in re.findall(r'(0x[0-9A-F]{2}) (\w+)', re.search(r'State commands: (.*?)\.\n', page, re.S)[1])}
DLL_EVENTS = {name: int(n) for n, name in re.findall(r'(\d) (\w+)', re.search(r'DLL events: (.*?)\.', page, re.S)[1])}
DLL_STATES = {name: int(n) for n, name in re.findall(r'(\d) (\w+)', re.search(r'DLL states:\s(.*?)\.', page, re.S)[1])}
KINDS, CODES = {}, {}
for n, name, code, standard in re.findall(r'^\| (\d+) \| (\w+) \| (0x\w+) \| (\w*) ?\|', page, re.M):
    KINDS[name] = int(n)
    if standard:
        CODES[standard] = code
if [len(t) for t in (STATES, EVENTS, COMMANDS, DLL_EVENTS, DLL_STATES, KINDS, CODES)] != [12, 19, 8, 6, 4, 22, 17]:
    sys.exit('tests/replay.py: the tables of docs/CALLS.md are not as expected')


def start_by_place(words):
    """The words of a start by keys at their places; as they are where they are none."""
    pairs = [w.split('=') for w in words]
    given = {p[0]: p[1] for p in pairs if len(p) == 2}
    known = all(len(p) == 2 and p[1] and p[0] in KEYS + THRESHOLDS for p in pairs)
    if not known or len(given) != len(pairs) or 'node' not in given:
        return words
    values = {**DEFAULTS, **given}
    return [values[k] for k in KEYS + THRESHOLDS]


def in_numbers(line):
    """A line of a script without names."""
    words = line.split(' ')
    if words[0] == 'start':
        return ' '.join(['start'] + start_by_place(words[1:]))
    table = dict(nmt=EVENTS, dll=DLL_EVENTS, error=KINDS, state=STATES, command=COMMANDS).get(words[0], {})
    if len(words) > 1 and words[1] in table:
        words[1] = str(table[words[1]])
    return ' '.join(words)


def errors_in_numbers(text):
    """The errors of an answer by their numbers."""
    def number(match):
        name, carried = match[1], match[2]
        if name == 'UnexpectedEventInState':
            state, event = carried.split()
            if state in STATES:
                carried = f' 0x{STATES[state]:02X} {EVENTS[event]}'
            elif state in DLL_STATES:
                carried = f' 0x{DLL_STATES[state]:02X} {DLL_EVENTS[event]}'
        return f'({KINDS[name]}{carried})'
    return re.sub(r'\((%s)((?: \w+)*)\)' % '|'.join(KINDS), number, text)


def answer_in_numbers(line):
    """A line that was printed with --names as it is printed without."""
    line = re.sub(r'^\(refused (\d+): .*\)$', r'(refused \1)', line)
    line = re.sub(r'\(state (\w+)\)', lambda m: f'(state 0x{STATES[m[1]]:02X})', line)
    line = re.sub(r'^\(dll (\w+)\)$', lambda m: f'(dll {DLL_STATES[m[1]]})', line)
    line = re.sub(r'\(entered ([\w ]+)\)', lambda m: '(entered %s)' % ' '.join(f'0x{STATES[s]:02X}' for s in m[1].split()), line)
    line = re.sub(r'\(code (E_\w+)\)', lambda m: f'(code {CODES[m[1]]})', line)
    line = re.sub(r'^\(taken (%s)\)$' % '|'.join([*STATES, *COMMANDS]),
                  lambda m: f'(taken 0x{(STATES | COMMANDS)[m[1]]:02X})', line)
    line = re.sub(r'^\(taken (%s)\)$' % '|'.join(KINDS), lambda m: f'(taken {KINDS[m[1]]})', line)
    return errors_in_numbers(line)


def line_by_line(script, *options):
    """What each line of a script prints, and behind it `show`: an unreadable line stands between them."""
    printed = play(''.join(f'{line}\nshow\n.\n' for line in script.split('\n')), *options)[0]
    parts, part = [], []
    for line in printed.splitlines():
        if line == f'(unreadable {3 * len(parts) + 3})':
            parts.append(part)
            part = []
        else:
            part.append(line)
    return parts


def cause(line, state):
    """What leads to a state by a line."""
    word = line.split(' ')
    if word[0] == 'start':
        return 'start'
    if word[0] == 'nmt':
        return {n: e for e, n in EVENTS.items()}[int(in_numbers(line).split(' ')[1], 0)]
    if word[0] == 'recipe':
        return 'CnConfigurationComplete'
    return 'Timeout' if state == 'BasicEthernet' else 'Error'


def trace(script):
    """The traces of each line of a script, and those that it should have."""
    found, wanted, before = [], [], 'GsOff'
    for line, part in zip(script.split('\n'), line_by_line(script, '--trace', '--names')):
        found.append([p for p in part if p.startswith('node ')])
        heads = [h for h in (re.match(r'\(nmt \(state (\w+)\).*\(node (\d+)\)', p) for p in part) if h]
        after, node = (heads[-1][1], heads[-1][2]) if heads else (before, '')
        wanted.append([f'node {node}: {before} to {after} on {cause(line, after)}'] if after != before else [])
        before = after
    return found, wanted


def text(parts):
    return '\n'.join(str(p) for p in parts)


STARTED = b'start 7 0 5000 2 0 1000 - 0 0 0 0\n'
# what a call may take to be answered, in seconds: no time is measured
PATIENCE = 20


def first_answer():
    """What is printed of a whole line while the rest of the next one is waited for."""
    with subprocess.Popen([REPLAY], stdin=subprocess.PIPE, stdout=subprocess.PIPE) as run:
        run.stdin.write(STARTED + b'with')
        run.stdin.flush()
        ready = select.select([run.stdout], [], [], PATIENCE)[0]
        answer = os.read(run.stdout.fileno(), 100) if ready else b''
        run.kill()
    return answer


def behind_a_failed_read():
    """What is printed where a read fails inside a line: a pipe that has no more and may not be waited for."""
    taken, given = os.pipe()
    os.set_blocking(taken, False)
    os.write(given, STARTED + b'withdraw')
    done = subprocess.run([REPLAY], stdin=taken, capture_output=True, timeout=PATIENCE)
    os.close(taken)
    os.close(given)
    return done.stdout, done.returncode


def at_a_terminal():
    """What is printed of a last line without a newline, behind which the input ends once."""
    ours, theirs = pty.openpty()
    with subprocess.Popen([REPLAY], stdin=theirs, stdout=subprocess.PIPE) as run:
        os.write(ours, STARTED + b'withdraw\x04\x04')
        try:
            printed = run.communicate(timeout=PATIENCE)[0]
        except subprocess.TimeoutExpired:
            run.kill()
            printed = b'nothing: it waits'
    os.close(ours)
    os.close(theirs)
    return printed, run.returncode


names = open(NAMES, encoding='utf-8').read()
stored = open(STORED, encoding='utf-8', newline='').read()

hold(f'{NAMES} and the same in numbers', play(names)[0], play('\n'.join(map(in_numbers, names.split('\n'))))[0])
plain = play(stored)
hold('the stored script', plain[0], open('crates/replay/stdout', encoding='utf-8').read())
hold('--names, read back', '\n'.join(map(answer_in_numbers, play(stored, '--names')[0].split('\n'))), plain[0])
hold('--trace, without it', re.sub(r'^node .*\n', '', play(stored, '--trace')[0], flags=re.M), plain[0])
for script in (names, *(open(f'compare/scripts/{n}.txt', encoding='utf-8').read() for n in ('rules', 'resets', 'queue'))):
    found, wanted = trace(script)
    hold('--trace, line by line', text(found), text(wanted))

with open('tests/replay/names.out', encoding='utf-8') as file:
    hold('--names --trace', play(names, '--names', '--trace')[0], file.read())
for path, said in (('tests', 'Is a directory'), ('tests/none', 'No such file or directory')):
    done = subprocess.run([REPLAY, path], capture_output=True, text=True)
    if done.returncode != 1 or done.stdout or not re.fullmatch(rf'replay: {path}: {said} .*; give a file of calls, or - for standard input\n', done.stderr):
        failed.append(f'{path} as a script: status {done.returncode}, {done.stderr!r}')
for script, status in (('start node=7\n', 0), ('start node=7\nnmt Soc\n', 1)):
    if play(script)[1] != status:
        failed.append(f'status {play(script)[1]} of {script!r}')

for what, found, wanted in (
    ('a line that is not whole yet', first_answer(), b'(taken)\n'),
    ('a line that a failed read cut', behind_a_failed_read(), (b'(taken)\n(taken)\n', 1)),
    ('a last line at a terminal', at_a_terminal(), (b'(taken)\n(taken)\n', 0)),
):
    if found != wanted:
        failed.append(f'{what}: {found!r} for {wanted!r}')

for wrong in failed:
    print(f'tests/replay.py: {wrong}', file=sys.stderr)
if not failed and '--quiet' not in sys.argv[1:]:
    print(f'ok: names, keys and traces: {names.count(chr(10)) + 1} lines of {NAMES}, {stored.count(chr(10)) + 1} of {STORED}')
sys.exit(bool(failed))
