#!/usr/bin/env bash
# Records of either version. What a position of a record takes to fill in in a turn, and to read, with 20,000 positions named
# before and with a million, and how many bytes of memory a position of a list takes at the highest, just before and just behind
# lists of such lengths get new room. Then two journals, on files in the folder for temporary files: a million records of work at
# depth 2 on the 96 positions of values.txt, and 20,000 at depth 5 on the 64 of fixed.txt; nearly half of the first are results,
# and every thirteenth or so of the second. Each is written again with the records of version 1 and of version 2, and of each
# `report` and the attaching by a `solve` without a budget are run three times: the least processor time, and the highest memory.
set -euo pipefail
bench=$(bench/program opening_bench)
program=$(bench/program throughput_bench)
"$program" names
python3 - "$program" <<'PYTHON'
import os, subprocess, sys


def memory(count):
    """The highest memory of a list of this number of positions, in bytes."""
    run = subprocess.Popen([sys.argv[1], "list", str(count)], stdout=subprocess.DEVNULL)
    return os.wait4(run.pid, 0)[2].ru_maxrss * 1024


for count in (524_288, 524_289, 1_000_000, 1_048_576, 1_048_577, 2_097_153):
    print(f"a list of {count} positions: {memory(count) / count:.1f} bytes a position, with all else that the program holds", flush=True)
PYTHON
folder=$(mktemp -d)
trap 'rm -r "$folder"' EXIT
# journal LIST DEPTH RECORDS: status 1 says that some roots are unsolved
journal() {
    rm -f "$folder/journal"
    sed 's/ .*//; s/.*/[FEN "&"] */' "crates/search_bench/data/$1.txt" >"$folder/games"
    "$bench" "$folder/journal" solve --depth "$2" --budget "$3" <"$folder/games" >/dev/null 2>&1 || [ $? = 1 ]
    for version in 1 2; do
        python3 .ci/records.py version "$version" "$folder/journal" "$folder/$version.journal"
    done
    python3 - "$bench" "$1.txt, depth $2, $3 records" "$folder/1.journal" "$folder/2.journal" <<'PYTHON'
import os, subprocess, sys

program, name, *journals = sys.argv[1:]
for words in (["report"], ["solve", "--budget", "0"]):
    for version, journal in enumerate(journals, 1):
        seconds, memory = [], []
        for _ in range(3):
            run = subprocess.Popen([program, journal, *words], stdin=subprocess.DEVNULL, stdout=subprocess.DEVNULL,
                                   stderr=subprocess.DEVNULL)
            _, status, used = os.wait4(run.pid, 0)
            if os.waitstatus_to_exitcode(status) not in (0, 1):
                sys.exit(f"{words[0]} ended with status {os.waitstatus_to_exitcode(status)}")
            seconds.append(used.ru_utime)
            memory.append(used.ru_maxrss * 1024 / 1e6)
        print(f"{' '.join(words)}, {name} in version {version}: {os.path.getsize(journal)} bytes, "
              f"{min(seconds):.2f} s of processor time, {max(memory):.0f} MB at the highest", flush=True)
PYTHON
}
journal values 2 1000000
journal fixed 5 20000
