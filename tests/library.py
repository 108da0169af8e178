#!/usr/bin/env python3
"""Checks the C library as it was built: build/libpowerlink_cn.a and what the Makefile builds over it.

  - the header compiles as C99, C11 and C++17 without a warning
  - the archive calls nothing but memcpy, memmove and memset, has no data, and exports the header's functions alone
  - build/free, linked without a C library, runs
  - each function has a whole man page, and its example runs (scripts/manual.py)
  - the program of README.md compiles by pkg-config against an install, and prints what README.md says
  - build/play prints for the stored scripts what the oracle and replay print: on runs and on places of any
    length, with the address and undefined-behaviour sanitizers, and under valgrind where it is installed
  - the exit statuses of build/play

usage: library.py [--quiet]      with --quiet it says only what is wrong or left out

Exit status: 0 where all is well, 1 where something is wrong."""
import os
import pathlib
import re
import shutil
import subprocess
import sys
import tempfile

ROOT = pathlib.Path(__file__).resolve().parent.parent
os.chdir(ROOT)
sys.path.insert(0, 'scripts')
import manual  # noqa: E402

ARCHIVE = 'build/libpowerlink_cn.a'
STRICT = ('-pedantic', '-Wall', '-Wextra', '-Wconversion', '-Werror', '-Iinclude')
MAY_CALL = {'memcpy', 'memmove', 'memset'}
REPLAY = 'target/bin/replay'
failed = []
quiet = '--quiet' in sys.argv[1:]


def wrong(text):
    failed.append(text)
    print(f'tests/library.py: {text}', file=sys.stderr)


def left_out(text):
    print(f'tests/library.py: left out: {text}', file=sys.stderr)


def run(*command, **options):
    return subprocess.run(command, capture_output=True, text=True, **options)


def header():
    """The header alone, and used twice, in each language and by each compiler."""
    source = '#include "powerlink_cn.h"\n#include "powerlink_cn.h"\nint main(void) { return (int)plcn_version(); }\n'
    languages = [(c, s, 'c') for c in ('gcc', 'clang') for s in ('c99', 'c11')] + [(c, 'c++17', 'c++') for c in ('g++', 'clang++')]
    for compiler, standard, language in languages:
        if not shutil.which(compiler):
            left_out(f'{compiler} is not installed: the header is not compiled by it as {standard}')
            continue
        done = run(compiler, f'-std={standard}', *STRICT, '-x', language, '-c', '-', '-o', '/dev/null', input=source)
        if done.returncode:
            wrong(f'the header does not compile by {compiler} as {standard}:\n{done.stderr}')


def archive():
    """What the archive calls, has and exports."""
    kinds = {}
    for line in run('nm', ARCHIVE).stdout.splitlines():
        found = re.fullmatch(r'(?:[0-9a-f]+)? *([A-Za-z]) (\S+)', line.strip())
        if found:
            kinds.setdefault(found[1], set()).add(found[2])
    calls = kinds.get('U', set()) - kinds.get('T', set())
    if calls - MAY_CALL:
        wrong(f'the archive calls {", ".join(sorted(calls - MAY_CALL))}')
    data = [f'{name} ({kind})' for kind in 'BbCDdGgSs' for name in sorted(kinds.get(kind, ()))]
    if data:
        wrong(f'the archive has data: {", ".join(data)}')
    sizes = [line.split()[1:3] for line in run('size', ARCHIVE).stdout.splitlines()[1:]]
    if any(size != ['0', '0'] for size in sizes):
        wrong(f'the archive has data of {sizes} bytes (data, bss)')
    declared = set(manual.Header(manual.HEADER).exported)
    exported = {n for kind in 'TWVRAi' for n in kinds.get(kind, ())}
    if exported != declared:
        wrong(f'the header declares and the archive lacks: {sorted(declared - exported)}; the other way round: {sorted(exported - declared)}')
    return len(exported), sorted(calls)


def without_c_library():
    done = run('build/free')
    if done.returncode != 42:
        wrong(f'build/free ends with status {done.returncode} for 42')


def pages():
    done = run('scripts/manual.py', '--check', ARCHIVE)
    if done.returncode:
        wrong(f'the man pages:\n{done.stderr}')
    if not any(shutil.which(program) for program in ('groff', 'mandoc')):
        left_out('neither groff nor mandoc is installed: the man pages are not rendered')


def block_behind(text, at):
    """The next lines that are set in by four, without these four."""
    found = re.compile(r'(?:^    .*\n|^\n(?=    ))+', re.M).search(text, at)
    return re.sub(r'^    ', '', found[0], flags=re.M).strip('\n') + '\n', found.end()


def readme():
    """The program of README.md, against an install in a folder of its own."""
    text = (ROOT / 'README.md').read_text(encoding='utf-8')
    program, end = block_behind(text, text.index('    #include <powerlink_cn.h>'))
    command = re.compile(r'`(cc .*?)`').search(text, end)
    printed, _ = block_behind(text, command.end())
    if not shutil.which('pkg-config'):
        left_out('pkg-config is not installed: the program of README.md is not built')
        return
    with tempfile.TemporaryDirectory() as folder:
        installed = run('make', '-s', 'install', f'PREFIX={folder}/usr')
        if installed.returncode:
            wrong(f'make install:\n{installed.stderr}')
        pathlib.Path(folder, 'first.c').write_text(program, encoding='utf-8')
        done = run('sh', '-c', command[1], cwd=folder, env={**os.environ, 'PKG_CONFIG_PATH': f'{folder}/usr/lib/pkgconfig'})
        if done.returncode or done.stderr or done.stdout != printed:
            wrong(f'the program of README.md: status {done.returncode}\n{done.stderr}{done.stdout}')
        for file in ('include/powerlink_cn.h', 'share/man/man3/plcn_tick.3', 'share/man/man7/powerlink_cn.7'):
            if not pathlib.Path(folder, 'usr', file).is_file():
                wrong(f'make install puts no {file} there')
        staged = run('make', '-s', 'install', 'PREFIX=/usr', f'DESTDIR={folder}/stage')
        file = pathlib.Path(folder, 'stage/usr/lib/pkgconfig/powerlink_cn.pc')
        if staged.returncode or 'prefix=/usr\n' not in file.read_text(encoding='utf-8'):
            wrong('make install PREFIX=/usr DESTDIR=..: the pkg-config file does not name the prefix alone')


def scripts():
    """The scripts with what they print: the oracle's, and what replay is seen to print."""
    found = [(f'compare/scripts/{p.name}', p.read_bytes(), p.with_suffix('.out').read_bytes())
             for p in sorted(ROOT.glob('compare/scripts/*.txt'))]
    found.append(('scripts/names.txt', (ROOT / 'scripts/names.txt').read_bytes(), (ROOT / 'tests/replay/names-plain.out').read_bytes()))
    if not os.access(REPLAY, os.X_OK):
        left_out(f'{REPLAY} is not there: the other scripts of scripts/ are not played beside it')
        return found
    for name in ('run', 'incident', 'watch'):
        text = (ROOT / f'scripts/{name}.txt').read_bytes()
        found.append((f'scripts/{name}.txt', text, subprocess.run([REPLAY], input=text, capture_output=True).stdout))
    return found


def first_difference(found, wanted):
    a, b = found.split(b'\n'), wanted.split(b'\n')
    at = next((i for i, pair in enumerate(zip(a, b)) if pair[0] != pair[1]), min(len(a), len(b)))
    ours, theirs = (lines[at] if at < len(lines) else b'' for lines in (a, b))
    return f'line {at + 1} is\n    {ours.decode(errors="replace")[:300]}\n  for\n    {theirs.decode(errors="replace")[:300]}'


def play(command, name, text, printed):
    """Plays a script: it prints this, and its status says whether a line could not be read."""
    done = subprocess.run(command, input=text, capture_output=True)
    status = 1 if b'(unreadable ' in printed else 0
    if done.stdout != printed:
        wrong(f'{" ".join(command)} on {name}: {first_difference(done.stdout, printed)}')
    if done.returncode != status or done.stderr:
        wrong(f'{" ".join(command)} on {name}: status {done.returncode} for {status}\n{done.stderr.decode(errors="replace")[:2000]}')


def plays():
    """Every script in each way. Returns how many lines were compared in one of them."""
    commands = [['build/play'], ['build/play', '--over'], ['build/play-checked'], ['build/play-checked', '--over']]
    if shutil.which('valgrind'):
        commands.append(['valgrind', '-q', '--error-exitcode=9', 'build/play'])
    else:
        left_out('valgrind is not installed: nothing is played under it')
    stored = scripts()
    for command in commands:
        for name, text, printed in stored:
            play(command, name, text, printed)
    return len(stored), sum(printed.count(b'\n') for _, _, printed in stored)


def statuses():
    """What build/play is given wrongly, and a weigh head that does other than the head."""
    cases = [(['--help'], '', 0, 'Plays a call script', ''), (['--version'], '', 0, r'play \d+\.\d+\.\d+\n', ''),
             ([], 'start node=7\nnmt Soc\n', 1, r'\(taken\)\n\(unreadable 2\)\n', ''),
             (['tests/none'], '', 1, '', 'play: tests/none: No such file or directory; give a file'),
             (['tests'], '', 1, '', 'play: .*Is a directory; give a file'),
             (['--under'], '', 2, '', 'play: --under: not understood'), (['a', 'b'], '', 2, '', 'play: b: not understood')]
    for words, script, status, out, err in cases:
        done = run('build/play', *words, input=script)
        if done.returncode != status or not re.match(out, done.stdout) or not re.match(err, done.stderr) or bool(err) != bool(done.stderr):
            wrong(f'build/play {" ".join(words)}: status {done.returncode}, {done.stdout[:200]!r}, {done.stderr[:200]!r}')
    done = run('build/play-differs', input='start node=7 cycle=1000\narm 5\nnmt Reset\n')
    if done.returncode != 3 or done.stdout != '(taken)\n(taken)\n' or 'line 2: head and weigh head differ in their heads' not in done.stderr:
        wrong(f'build/play-differs: status {done.returncode} for 3, {done.stdout!r}, {done.stderr!r}')


def main():
    header()
    exported, calls = archive()
    without_c_library()
    pages()
    readme()
    count, lines = plays()
    statuses()
    if not failed and not quiet:
        print(f'ok: {exported} functions, which call {", ".join(calls) or "nothing"} outside the archive; '
              f'{count} scripts, {lines} lines, as the oracle and replay print them')
    return 1 if failed else 0


if __name__ == '__main__':
    sys.exit(main())
