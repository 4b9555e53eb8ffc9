#!/usr/bin/env bash
# What several workers make of one root. First how many records of work they add before it has its value, in all, on 100 roots, each
# alone in a journal of its own, in memory if /dev/shm is there, with 1, 4 and 16 workers one ply ahead. The roots are the first of
# search_bench's lists that one worker settles by 2 to 10,000 records. Workers who find the best leaf taken search others, so more
# workers add more records. What one worker adds is the same at each run; with more it depends on their turns, so these run three
# times. Then the records of work a second on the start position alone, each the search of one position, with the journal on a file
# in the folder for temporary files: the median of five runs with each number of workers, by turns. The start of the program, which
# fills a table, is in that time. A word `records` or `time` asks for one of the two alone.
set -euo pipefail
program=$(bench/program opening_bench)
python3 - "$program" crates/search_bench/data "${1:-}" <<'PYTHON'
import pathlib, statistics, subprocess, sys, tempfile, time

program, data, word = sys.argv[1], pathlib.Path(sys.argv[2]), sys.argv[3]
WORKERS, RUNS, ROOTS, MOST, TIMED, RECORDS = (1, 4, 16), 3, 100, 10_000, 5, 2_000
LISTS = ("first.txt", "random.txt", "values.txt")
POSITIONS = [line.split()[0] for name in LISTS for line in (data / name).read_text().splitlines()]


def payloads(journal):
    """The records of a journal's file, in order."""
    text, gate, found = journal.read_bytes(), 8, []
    while text[gate] == 1:
        end = gate + 9 + int.from_bytes(text[gate + 1:gate + 9], "big")
        gate += 9
        while gate < end:
            size = int.from_bytes(text[gate:gate + 4], "big")
            found.append(text[gate + 4:gate + 4 + size])
            gate += 4 + size
    return found


def solve(journal, fen, workers, words):
    """Solves one root on a new file: how many records of work it took, whether it has its value, and how many seconds it took."""
    journal.unlink(missing_ok=True)
    begun = time.monotonic()
    run = subprocess.run([program, journal, "solve", "--workers", str(workers), *words], check=False,
                         input=f'[FEN "{fen}"] *'.encode() if fen else b"*", stdout=subprocess.PIPE, stderr=subprocess.DEVNULL)
    seconds = time.monotonic() - begun
    if run.returncode not in (0, 1):
        sys.exit(f"solve ended with status {run.returncode}")
    return sum(record[0] not in (1, 4) for record in payloads(journal)), run.returncode == 0, seconds


def by_records(journal):
    """Prints how many records of work the roots take."""
    depth, alone = ["--depth", "1", "--budget"], {}
    for fen in POSITIONS:
        records, is_settled, _ = solve(journal, fen, 1, [*depth, str(MOST)])
        if is_settled and records > 1:
            alone[fen] = records
        if len(alone) == ROOTS:
            break
    one = sum(alone.values())
    print(f"{len(alone)} roots, 1 worker: {one} records of work", flush=True)
    for workers in WORKERS[1:]:
        for _ in range(RUNS):
            ends = [solve(journal, fen, workers, [*depth, str(20 * MOST)]) for fen in alone]
            records = sum(end[0] for end in ends)
            print(f"the same, {workers} workers: {records} records of work, {records / one:.2f} times those of one; "
                  f"{sum(end[1] for end in ends)} settled", flush=True)


def by_time(journal):
    """Prints the records a second on the start position alone."""
    rates = {workers: [] for workers in WORKERS}
    for _ in range(TIMED):
        for workers in WORKERS:
            records, _, seconds = solve(journal, "", workers, ["--depth", "0", "--budget", str(RECORDS)])
            rates[workers].append(records / seconds)
    for workers, each in rates.items():
        times = statistics.median(each) / statistics.median(rates[1])
        print(f"the start alone, {workers} workers: {statistics.median(each):.0f} records/s, {times:.2f} times one")


if word != "time":
    with tempfile.TemporaryDirectory(dir="/dev/shm" if pathlib.Path("/dev/shm").is_dir() else None) as folder:
        by_records(pathlib.Path(folder, "journal"))
if word != "records":
    with tempfile.TemporaryDirectory() as folder:
        by_time(pathlib.Path(folder, "journal"))
PYTHON
