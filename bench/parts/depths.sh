#!/usr/bin/env bash
# How the time of a search grows with `--depth`: the processor time of 26 records of work, one on each of the named openings,
# less that of a run without any, which fills the table. The best of three runs.
set -euo pipefail
program=$(bench/program opening_bench)
TIMEFORMAT=%U
# user_time DEPTH BUDGET: the least of three
user_time() {
    for _ in 1 2 3; do
        { time "$program" - solve --depth "$1" --budget "$2" <examples/openings.pdn >/dev/null || [ $? = 1 ]; } 2>&1
    done | sort -g | head -1
}
for depth in 0 2 4 6 8 10 12; do
    awk -v depth="$depth" -v without="$(user_time "$depth" 0)" -v with="$(user_time "$depth" 26)" 'BEGIN {
        printf "--depth %d: 26 records of work in %.2f s of processor time\n", depth, with - without
    }'
done
