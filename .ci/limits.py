#!/usr/bin/env python3
"""Fails where the program takes more or less than a limit that it says: each is tried at its value and one past it.

The program is the first argument. What `.ci/told` tries already, games and the bytes of `solve`, is not tried again. With `--long`
behind it, the roots of a journal and its records of work, a million of them, are tried too, which takes half a gigabyte.
"""
import itertools
import os
import pathlib
import subprocess
import sys
import tempfile

GAMES, ROOTS, WORK = 4_096, 65_536, 1_000_000
TABLE_BYTES, CERTIFICATE_BYTES = 4_194_304, 268_435_456
OPTIONS = {"--workers": (1, 64), "--depth": (0, 12), "--pieces": (2, 3), "--plies": (0, 200), "--budget": (0, WORK), "--lease": (1, 1_000_000_000)}
BLANKS = b" " * 65_536
complaints = []


def run(program, words, source=(), folder=None):
    """The exit status, and the lines on standard output; the source is a list of pieces."""
    with subprocess.Popen([program, *words], stdin=subprocess.PIPE, stdout=subprocess.PIPE, stderr=subprocess.DEVNULL, cwd=folder) as it:
        try:
            for piece in source:
                it.stdin.write(piece)
            it.stdin.close()
        except BrokenPipeError:
            pass
        lines = it.stdout.read().decode("ascii").splitlines()
        return it.wait(), lines


def expect(what, found, due):
    if found != due:
        complaints.append(f"look: {what}: {found} and not {due}")


def blanks(count):
    return itertools.chain(itertools.repeat(BLANKS, count // len(BLANKS)), [b" " * (count % len(BLANKS))])


def try_bytes(program):
    for command, most, within in (
        ("table-check", TABLE_BYTES, "refused input table bad-head"),
        ("verify", CERTIFICATE_BYTES, "refused input certificate truncated"),
        ("learn", CERTIFICATE_BYTES, "refused input certificate truncated"),
    ):
        for count, due in ((most, within), (most + 1, "refused input too-long")):
            status, lines = run(program, ["-", command], blanks(count))
            expect(f"{command} of {count} bytes", (status, lines), (3, [due]))


def try_options(program):
    for name, (least, most) in OPTIONS.items():
        for value in (least, most):
            expect(f"{name} {value}", run(program, ["-", "solve", name, str(value)])[0], 0)
        for value in (least - 1, most + 1):
            expect(f"{name} {value}", run(program, ["-", "solve", name, str(value)])[0], 2)
    for words, due in (("0 1", 0), ("4294967295 1", 0), ("4294967296 1", 2), ("1 0", 2), ("1 2000", 0), ("1 2001", 2)):
        expect(f"generate {words}", run(program, ["-", "generate", *words.split()])[0], due)
    for number, due in ((0, 2), (1, 3), (ROOTS, 3), (ROOTS + 1, 2)):
        expect(f"certify {number}", run(program, ["-", "certify", str(number)])[0], due)


def kings():
    """Games of two kings against two, each another position."""
    for black in itertools.combinations(range(1, 33), 2):
        for white in itertools.combinations([it for it in range(1, 33) if it not in black], 2):
            yield b'[FEN "B:WK%d,K%d:BK%d,K%d"] *\n' % (*white, *black)


def try_roots(program, folder):
    games = kings()
    words = ["roots", "solve", "--budget", "0"]
    for begun in range(GAMES, ROOTS + 1, GAMES):
        _, lines = run(program, words, itertools.islice(games, GAMES), folder)
        expect(f"{begun} roots", [" ".join(line.split()[:2]) for line in lines[-1:]], [f"roots {begun}"])
    expect("one root more", run(program, words, itertools.islice(games, 1), folder), (3, ["refused input too-many-roots"]))


def try_work(program, folder):
    """All records of work that a journal may have, over three sessions. Each is a position that is expanded, of 22 bytes, behind a
    head of 9 bytes and a root of 35."""
    for budget, due in ((WORK - 10, (WORK - 10) * 22 + 44), (4, 4 * 22), (WORK, 6 * 22), (WORK, 0)):
        path = pathlib.Path(folder, "work")
        before = path.stat().st_size if path.exists() else 0
        run(program, ["work", "solve", "--depth", "0", "--budget", str(budget)], [b"*"], folder)
        expect(f"bytes that a budget of {budget} adds", path.stat().st_size - before, due)


def main():
    program = os.path.abspath(sys.argv[1])
    memory = "/dev/shm" if os.path.isdir("/dev/shm") else None
    try_options(program)
    try_bytes(program)
    if "--long" in sys.argv[2:]:
        with tempfile.TemporaryDirectory(dir=memory) as folder:
            try_roots(program, folder)
            try_work(program, folder)
    print(*complaints, sep="\n", end="\n" if complaints else "", file=sys.stderr)
    return 1 if complaints else 0


if __name__ == "__main__":
    sys.exit(main())
