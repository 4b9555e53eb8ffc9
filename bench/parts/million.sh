#!/usr/bin/env bash
# A journal of 1,000,000 records of work on the named openings, each the search of one position alone, on a file in the folder
# for temporary files: how long the run takes by the clock, and how much memory it has at the highest; then the same of `report`.
set -euo pipefail
program=$(bench/program opening_bench)
folder=$(mktemp -d)
trap 'rm -r "$folder"' EXIT
python3 - "$program" "$folder/bench.journal" <<'PYTHON'
import os, subprocess, sys, time

program, journal = sys.argv[1:]


def measure(name, words):
    """Runs the program and prints its seconds and its highest memory."""
    with open("examples/openings.pdn") as games:
        begun = time.monotonic()
        run = subprocess.Popen([program, journal, *words], stdin=games, stdout=subprocess.DEVNULL)
        _, status, used = os.wait4(run.pid, 0)
        seconds = time.monotonic() - begun
    if os.waitstatus_to_exitcode(status) not in (0, 1):
        sys.exit(f"{name} ended with status {os.waitstatus_to_exitcode(status)}")
    print(f"{name}: {seconds:.1f} s, {used.ru_maxrss * 1024 / 1e6:.0f} MB at the highest", flush=True)


measure("solve of 1,000,000 records", ["solve", "--depth", "0", "--budget", "1000000"])
print(f"the journal: {os.path.getsize(journal)} bytes")
measure("report", ["report"])
PYTHON
