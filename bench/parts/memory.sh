#!/usr/bin/env bash
# How much memory `solve` has at the highest with one worker and the table of three pieces, at each depth: on each of the first five
# random endgames of three pieces against two, of three a side and of four against three alone, of which the greatest counts. Before
# them the same without a search, which is what filling the table takes.
set -euo pipefail
bench=$(bench/program opening_bench)
program=$(bench/program search_bench)
positions=$(mktemp)
trap 'rm "$positions"' EXIT
(cd crates/search_bench/data && "$program" drawn) >"$positions"
python3 - "$bench" "$positions" <<'PYTHON'
import os, pathlib, subprocess, sys, tempfile

program, positions = sys.argv[1], pathlib.Path(sys.argv[2]).read_text().split()
SET, EACH = 75, 5
NAMES = {1: "three against two", 2: "three against three", 3: "four against three"}


def memory(fen, depth, budget):
    """The memory of a run at the highest, in MB."""
    with tempfile.TemporaryFile() as games:
        games.write(f'[FEN "{fen}"] *\n'.encode())
        games.seek(0)
        run = subprocess.Popen([program, "-", "solve", "--pieces", "3", "--depth", str(depth), "--budget", str(budget)],
                               stdin=games, stdout=subprocess.DEVNULL, stderr=subprocess.DEVNULL)
        _, status, used = os.wait4(run.pid, 0)
    if os.waitstatus_to_exitcode(status) not in (0, 1):
        sys.exit(f"solve ended with status {os.waitstatus_to_exitcode(status)}")
    return used.ru_maxrss * 1024 / 1e6


print(f"without a search: {memory(positions[0], 0, 0):.0f} MB", flush=True)
for depth in (0, 4, 6, 8, 10, 12):
    most = (f"{name} {max(memory(fen, depth, 1) for fen in positions[SET * n:SET * n + EACH]):.0f} MB" for n, name in NAMES.items())
    print(f"--depth {depth}: {', '.join(most)}", flush=True)
PYTHON
