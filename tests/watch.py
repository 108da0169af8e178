#!/usr/bin/env python3
"""docs/WATCH.md says what `replay` prints: its example is scripts/watch.txt with the answers, and each row of its table holds.

  watch.py           prints the example, and whether the page has it
  watch.py --quiet   prints only what is wrong

`replay` is to be built (make replay; rt ci builds it too)."""
import os
import re
import subprocess
import sys

os.chdir(os.path.dirname(os.path.dirname(os.path.abspath(__file__))))
REPLAY, PAGE, SCRIPT = 'target/bin/replay', 'docs/WATCH.md', 'scripts/watch.txt'
CYCLE, SOC = 1000, 10000
# a head that waits for a SoC, with a given tolerance
BEFORE = 'start 7 0 5000 4 0 %d {} 0 0 0 0\nnmt 5\nnmt 13\nnmt 13\ndll 0 0\ndll 3 0\narm %d\n' % (CYCLE, SOC)
wrong = []


def example():
    """The script with its answers; of `show`, the count of lost SoCs and the watch."""
    shown = subprocess.run(['scripts/run.sh', SCRIPT], capture_output=True, text=True, check=True).stdout
    return ''.join(line + '\n' for line in shown.splitlines() if re.match(r'(?!    )|    \((taken|refused|loss_of_soc|soc)[ )]', line))


def watch(tolerance, calls):
    """How many SoCs were lost, and the deadline, after these calls."""
    script = BEFORE.format(tolerance) + calls + 'show\n'
    shown = subprocess.run([REPLAY], input=script, capture_output=True, text=True, check=True).stdout
    if '(refused' in shown or '(unreadable' in shown:
        sys.exit('tests/watch.py: a call was not taken:\n' + shown)
    return (int(re.search(r'^\(loss_of_soc .*\(cumulative (\d+)\)', shown, re.M)[1]),
            int(re.search(r'^\(soc .*\(deadline (\d+)\)', shown, re.M)[1]))


def row(tolerance):
    """The numbers of a row, each from what `replay` says, but for the most that the page states."""
    lost, deadline = watch(tolerance, '')
    for tick, sees in ((deadline - 1, 0), (deadline, 0), (deadline + 1, 1)):
        if (watch(tolerance, f'tick {tick}\n')[0] - lost) != sees:
            wrong.append(f'tolerance {tolerance}: a tick at {tick} sees {1 - sees} lost')
    after = watch(tolerance, f'tick {deadline + 1}\n')[1]
    most = CYCLE + (100000 if tolerance == '-' else int(tolerance)) // 1000
    return [deadline, deadline + 1, deadline + 1 - SOC - CYCLE, after, after - deadline - 1, most]


page = open(PAGE, encoding='utf-8').read()
found = example()
if f'```\n{found}```\n' not in page:
    wrong.append(f'the example is not what {REPLAY} prints of {SCRIPT}')
rows = re.findall(r'^\| (\d+)(, or missing)? \|(.*)\|$', page, re.M)
for tolerance, missing, cells in rows:
    stated = [int(c) for c in cells.split('|')]
    for t in [tolerance] + (['-'] if missing else []):
        if row(t) != stated:
            wrong.append(f'tolerance {t}: the table has {stated}, replay {row(t)}')
if not rows:
    wrong.append('there is no table')
if '--quiet' not in sys.argv[1:]:
    print(found, end='')
for w in wrong:
    print(f'{PAGE}: {w}')
if not wrong and '--quiet' not in sys.argv[1:]:
    print(f'ok: {PAGE} has this example, and {len(rows)} rows of its table are what replay says')
sys.exit(1 if wrong else 0)
