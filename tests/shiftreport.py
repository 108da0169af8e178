#!/usr/bin/env python3
"""Runs target/bin/shiftreport (RULES 11.2) on stored and on generated inputs.

tests/shiftreport.py            the stored cases, then 400 generated inputs beside a second implementation, then what fails
tests/shiftreport.py SEED N     other generated inputs
tests/shiftreport.py --speed    a gigabyte of entries through a pipe, beside wc -c: times and the largest memory
A stored case is tests/shift/NAME.txt, what has to be printed for the input that NAME makes below."""
import fcntl, os, random, struct, subprocess, sys, termios, time
from collections import Counter

TOP = os.path.dirname(os.path.dirname(os.path.abspath(__file__)))
PROGRAM = os.path.join(TOP, "target/bin/shiftreport")
# The codes that name a single kind, as the original Rust printed them for each of its kinds (crates/readings/stdout).
CODES = [int(line.split()[1], 16) for line in open(os.path.join(TOP, "crates/readings/stdout")) if line.startswith("(kind 0x")]


def entry(code, rest=0):
    return struct.pack("<HHIIQ", rest % 65536, code, rest % 2**32, rest * 7 % 2**32, rest * 11 % 2**64)


def page(data):
    """The second implementation."""
    codes = [struct.unpack_from("<H", data, 20 * i + 2)[0] for i in range(len(data) // 20)]
    count = Counter(codes)
    lines = [f"(report (entries {len(codes)}))"]
    lines += [f"(code 0x{c:04X} (count {count[c]}))" for c in sorted(count) if c in CODES]
    others = sum(n for c, n in count.items() if c not in CODES)
    lines += [f"(other (count {others}))"] * (others > 0)
    lines += [f"(total (count {len(codes)}) (left {len(data) % 20}))"]
    return "\n".join(lines).encode() + b"\n"


def mixture(seed, entries, left, share):
    draw = random.Random(seed)
    codes = [draw.choice(CODES) if draw.random() < share else draw.choice((0x8000, 0, 65535, draw.randrange(65536))) for _ in range(entries)]
    return b"".join(entry(c, draw.randrange(2**64)) for c in codes) + draw.randbytes(left)


CASES = {
    "example": b"".join(map(entry, (0x8245, 0x8244, 0x8245))),
    "none": b"",
    "nineteen": entry(0x8245)[:19],
    "every": b"".join(map(entry, range(65536))),
    "others": b"".join(map(entry, (c for c in range(65536) if c not in CODES))),
    "mixture": mixture(11, 60000, 13, 0.7),
}


def taken(child):
    """Waits until the pipe is empty: what was written has been read, by itself."""
    while child.poll() is None and struct.unpack("i", fcntl.ioctl(child.stdin, termios.FIONREAD, bytes(4)))[0]:
        time.sleep(0)


def run(data, parts=None, each_read=False):
    """What is printed for data, which arrives whole or in parts of the sizes given; if each is to be read by itself, the next one waits."""
    if parts is None:
        done = subprocess.run([PROGRAM], input=data, capture_output=True)
        return done.stdout, done.stderr
    child = subprocess.Popen([PROGRAM], stdin=subprocess.PIPE, stdout=subprocess.PIPE, stderr=subprocess.PIPE, bufsize=0)
    at = 0
    for size in parts:
        child.stdin.write(data[at : at + size])
        at += size
        taken(child) if each_read else None
    child.stdin.write(data[at:]) if at < len(data) else None
    out, err = child.communicate()
    return out, err


def expect(what, got, wanted):
    if got != wanted:
        sys.exit(f"{what}: printed {got!r}, expected {wanted!r}")


def stored():
    for name, data in CASES.items():
        wanted = open(os.path.join(TOP, "tests/shift", name + ".txt"), "rb").read()
        expect(name, run(data), (wanted, b""))
        expect(name + ", second implementation", page(data), wanted)
    for name in ("example", "nineteen"):
        expect(name + ", byte by byte", run(CASES[name], [1] * len(CASES[name]), True), (page(CASES[name]), b""))
    some = CASES["mixture"][:20013]
    expect("mixture, byte by byte", run(some, [1] * len(some), True), (page(some), b""))


def generated(seed, number):
    draw = random.Random(seed)
    for i in range(number):
        data = mixture(draw.random(), draw.choice((0, 1, 2, 17, 300, draw.randrange(8000))), draw.randrange(20), draw.random())
        parts = None if i % 2 else [draw.choice((1, 7, 19, 20, 21, 40, 65536)) for _ in range(draw.randrange(200))]
        expect(f"generated input {i} of seed {seed}", run(data, parts), (page(data), b""))


def failing():
    """A read error and a closed output: a message, and no total."""
    example = CASES["example"]
    for what, command, message in (
        ("a folder as input", f"{PROGRAM} < /", b"shiftreport: reading standard input: Is a directory\n"),
        ("a closed input", f"{PROGRAM} <&-", b"shiftreport: reading standard input: Bad file descriptor\n"),
        ("a full output", f"{PROGRAM} > /dev/full", b"shiftreport: writing standard output: No space left on device\n"),
        ("a closed output", f"{PROGRAM} >&-", b"shiftreport: writing standard output: Bad file descriptor\n"),
        ("a reader that is gone", f"(trap '' PIPE; sleep 0.2; {PROGRAM}) | true", b"shiftreport: writing standard output: Broken pipe\n"),
        ("a reader that is gone, the signal not held back", f"(sleep 0.2; {PROGRAM}) | true", b"shiftreport: writing standard output: Broken pipe\n"),
    ):
        done = subprocess.run(["sh", "-c", command], input=example, capture_output=True)
        expect(what, (done.stdout, done.stderr), (b"", message))


def speed():
    block = mixture(5, 50000, 0, 0.7)
    for command in (["wc", "-c"], [PROGRAM]) * 3:
        child = subprocess.Popen(command, stdin=subprocess.PIPE, stdout=subprocess.PIPE)
        start = time.time()
        for _ in range(1000):
            child.stdin.write(block)
        child.stdin.flush()
        most = next(line for line in open(f"/proc/{child.pid}/status") if line.startswith("VmHWM")).split()[1]
        child.stdin.close()
        out = child.stdout.read()
        _, _, used = os.wait4(child.pid, 0)
        print(f"{os.path.basename(command[0])}: {time.time() - start:.2f} s, {used.ru_utime:.2f} s of them in the program and {used.ru_stime:.2f} s in the system for it, {most} KiB of memory; printed {out.splitlines()[-1].decode()}")


if sys.argv[1:] == ["--speed"]:
    speed()
else:
    seed, number = map(int, sys.argv[1:3]) if len(sys.argv) == 3 else (1, 400)
    stored()
    generated(seed, number)
    failing()
    print(f"shiftreport: {len(CASES)} stored inputs, 3 byte by byte, {number} generated ones and 6 failures, all as expected")
