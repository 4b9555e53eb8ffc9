#!/usr/bin/env bash
# `journal_shorten shorten` beside `report`, on three journals on files in the folder for temporary files: a million records of work
# on the 26 named openings; as many on one root; and one record each on 61,440 roots of six pieces. Of each the least and the middle
# processor time of five runs by turns, the highest memory, and the bytes of both journals.
set -euo pipefail
bench=$(bench/program opening_bench)
shorten=$(bench/program journal_shorten)
folder=$(mktemp -d)
trap 'rm -r "$folder"' EXIT
python3 - "$bench" "$shorten" "$folder" "${RECORDS:-1000000}" "${FILES:-15}" <<'PYTHON'
import os, pathlib, random, statistics, subprocess, sys

BENCH, SHORTEN, folder = map(pathlib.Path, sys.argv[1:4])
records, files = sys.argv[4:]
RUNS, ROOTS = 5, 4096


def run(*words, source=b"", due=(0, 1)):
    """Runs a program: its seconds of processor time, its highest memory in MB, and the last line that it writes."""
    (folder / "source").write_bytes(source)
    with open(folder / "source", "rb") as given, open(folder / "written", "wb") as written:
        running = subprocess.Popen(words, stdin=given, stdout=written, stderr=subprocess.DEVNULL)
        _, status, used = os.wait4(running.pid, 0)
    if os.waitstatus_to_exitcode(status) not in due:
        sys.exit(f"{words[1:]} ended with status {os.waitstatus_to_exitcode(status)}")
    last = (folder / "written").read_text().splitlines()[-1]
    return used.ru_utime + used.ru_stime, used.ru_maxrss * 1024 / 1e6, last


def compare(name, old):
    """Times both programs on a journal."""
    new = folder / "new"
    figures = {"report": [], "shorten": []}
    for _ in range(RUNS):
        figures["report"].append(run(BENCH, old, "report"))
        new.unlink(missing_ok=True)
        figures["shorten"].append(run(SHORTEN, "shorten", old, new, due=(0,)))
    for what, each in figures.items():
        seconds = [one[0] for one in each]
        print(f"{name}, {what}: {min(seconds):.2f} s of processor time, {statistics.median(seconds):.2f} s in the middle, "
              f"{max(one[1] for one in each):.0f} MB")
    time, memory = (statistics.median(one[0] for one in figures["shorten"]) / statistics.median(one[0] for one in figures["report"]),
                    max(one[1] for one in figures["shorten"]) / max(one[1] for one in figures["report"]))
    print(f"{name}: {figures['shorten'][0][2]}, {old.stat().st_size} bytes to {new.stat().st_size}; "
          f"by the middle {time:.2f} times the time of report, {memory:.2f} times its memory", flush=True)
    old.unlink()


openings = pathlib.Path("examples/openings.pdn").read_bytes()
run(BENCH, folder / "openings", "solve", "--depth", "0", "--budget", records, source=openings)
compare("26 openings", folder / "openings")
run(BENCH, folder / "one", "solve", "--depth", "0", "--budget", records, source=b"*\n")
compare("one root", folder / "one")
chance, drawn = random.Random(1), {}
while len(drawn) < ROOTS * int(files):
    squares = chance.sample(range(5, 29), 6)
    white, black = (",".join(map(str, side)) for side in (squares[:3], squares[3:]))
    drawn[f'[FEN "{chance.choice("WB")}:W{white}:B{black}"] *\n'] = None
games = list(drawn)
for first in range(0, len(games), ROOTS):
    given = "".join(games[first:first + ROOTS]).encode()
    run(BENCH, folder / "many", "solve", "--depth", "0", "--budget", str(ROOTS), source=given)
compare("roots of one record", folder / "many")
PYTHON
