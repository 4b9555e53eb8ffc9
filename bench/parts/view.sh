#!/usr/bin/env bash
# `journal_view` beside `report`, on two journals of a million records on files in the folder for temporary files: on the 26 named
# openings, and on one root. Each command takes a turn in each of five rounds. Of each the least and the middle processor time and
# the highest memory, and both as many times those of `report`; and by how much its middle time is more than that of `report`.
set -euo pipefail
bench=$(bench/program opening_bench)
view=$(bench/program journal_view)
folder=$(mktemp -d)
trap 'rm -r "$folder"' EXIT
python3 - "$bench" "$view" "$folder" "${RECORDS:-1000000}" <<'PYTHON'
import os, pathlib, statistics, subprocess, sys

BENCH, VIEW, folder = map(pathlib.Path, sys.argv[1:4])
records = sys.argv[4]
ROUNDS = 5
SHOWN = ("roots", "roots --json", "tree 1", "page", "page 1", "records", "records --json")


def run(*words, source=b"", due=(0, 1)):
    """Runs a program: its seconds of processor time, and its highest memory in MB."""
    (folder / "source").write_bytes(source)
    with open(folder / "source", "rb") as given:
        running = subprocess.Popen(words, stdin=given, stdout=subprocess.DEVNULL, stderr=subprocess.DEVNULL)
        _, status, used = os.wait4(running.pid, 0)
    if os.waitstatus_to_exitcode(status) not in due:
        sys.exit(f"{words[1:]} ended with status {os.waitstatus_to_exitcode(status)}")
    return used.ru_utime + used.ru_stime, used.ru_maxrss * 1024 / 1e6


def compare(name, journal):
    """Times what is shown of a journal, and its report."""
    figures = {what: [] for what in ("report", *SHOWN)}
    for _ in range(ROUNDS):
        for what, each in figures.items():
            each.append(run(BENCH if what == "report" else VIEW, journal, *what.split()))
    print(f"{name}: {journal.stat().st_size} bytes")
    report, least = (find(one[0] for one in figures["report"]) for find in (statistics.median, min))
    most = max(one[1] for one in figures["report"])
    for what, each in figures.items():
        times, memory = [one[0] for one in each], max(one[1] for one in each)
        middle = statistics.median(times)
        print(f"{name}, {what}: {min(times):.2f} s of processor time, {middle:.2f} s in the middle, {memory:.0f} MB; "
              f"{min(times) / least:.2f} and {middle / report:.2f} times the time of report, {middle - report:+.2f} s, "
              f"{memory / most:.2f} times its memory", flush=True)
    journal.unlink()


openings = pathlib.Path("examples/openings.pdn").read_bytes()
run(BENCH, folder / "openings", "solve", "--depth", "0", "--budget", records, source=openings)
compare("26 openings", folder / "openings")
run(BENCH, folder / "one", "solve", "--depth", "0", "--budget", records, source=b"*\n")
compare("one root", folder / "one")
PYTHON
