#!/usr/bin/env bash
# The first pass of `solve` over 4,096 roots at depth 4, with one worker and with four: how long after the start of the program the
# 4,096 roots are on the file, in the folder for temporary files, then the first record of work, and the end of the run; each the
# median of five runs. The first root is settled by one search, and the others are random endgames of three pieces a side, so that the
# first record of work is written as soon as its search has ended.
set -euo pipefail
program=$(bench/program opening_bench)
folder=$(mktemp -d)
trap 'rm -r "$folder"' EXIT
python3 - "$program" "$folder" <<'PYTHON'
import os, pathlib, random, statistics, subprocess, sys, time

program, folder = sys.argv[1], pathlib.Path(sys.argv[2])
RUNS, ROOTS, HEAD, BEGIN = 5, 4096, 8, 4 + 22


def position(chance):
    """Three pieces a side, of which each second one is a king, White or Black to move."""
    squares = chance.sample(range(5, 29), 6)
    white, black = (",".join(f"{'K' * (n % 2)}{square}" for n, square in enumerate(side)) for side in (squares[:3], squares[3:]))
    return f"{chance.choice('WB')}:W{white}:B{black}"


def games():
    """4,096 positions, each once."""
    chance, found = random.Random(1), {"W:W16,23:B12": None}
    while len(found) < ROOTS:
        found[position(chance)] = None
    return "".join(f'[FEN "{fen}"] *\n' for fen in found)


def size(path):
    return path.stat().st_size if path.exists() else 0


def times(workers):
    """The seconds until all roots are on the file, until more is, and until the run ends."""
    journal, seen = folder / "journal", []
    journal.unlink(missing_ok=True)
    limits = [HEAD + ROOTS * BEGIN, HEAD + ROOTS * BEGIN + 64]
    with open(folder / "games") as source:
        start = time.monotonic()
        run = subprocess.Popen([program, journal, "solve", "--workers", str(workers), "--budget", str(ROOTS)], stdin=source,
                               stdout=subprocess.DEVNULL, stderr=subprocess.DEVNULL)
        while run.poll() is None:
            while len(seen) < 2 and size(journal) > limits[len(seen)]:
                seen.append(time.monotonic() - start)
            time.sleep(0.0002)
    if run.returncode not in (0, 1) or len(seen) < 2:
        sys.exit(f"solve ended with status {run.returncode}, and {len(seen)} of two sizes were seen")
    return *seen, time.monotonic() - start


(folder / "games").write_text(games())
for workers in (1, 4):
    begun, first, end = (statistics.median(column) for column in zip(*(times(workers) for _ in range(RUNS))))
    print(f"{ROOTS} roots, {workers} workers: on the file after {begun:.3f} s, the first record of work after {first:.3f} s, "
          f"the end after {end:.2f} s", flush=True)
PYTHON
