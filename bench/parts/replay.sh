#!/usr/bin/env bash
# Records of a journal that `report` replays a second: a journal of 10,000 records of work from the named openings, the best of
# five runs, start and end of the process among them.
set -euo pipefail
program=$(bench/program opening_bench)
folder=$(mktemp -d)
trap 'rm -r "$folder"' EXIT
journal=$folder/replay.journal
begun=$(date +%s.%N)
"$program" "$journal" solve --depth 1 --budget 10000 <examples/openings.pdn >/dev/null || [ $? = 1 ]
ended=$(date +%s.%N)
best=
for _ in 1 2 3 4 5; do
    start=$(date +%s.%N)
    "$program" "$journal" report >/dev/null || [ $? = 1 ]
    end=$(date +%s.%N)
    best=$(printf '%s\n' ${best:+"$best"} "$(echo "$end - $start" | bc)" | sort -g | head -1)
done
bytes=$(stat -c %s "$journal")
awk -v solve="$(echo "$ended - $begun" | bc)" -v report="$best" -v bytes="$bytes" 'BEGIN {
    printf "solve: 10,000 records of work in %.2f s, %.0f a second\n", solve, 10000 / solve
    printf "report of that journal (%d bytes): %.3f s, %.0f records replayed a second\n", bytes, report, 10000 / report
}'
