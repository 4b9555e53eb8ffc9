#!/usr/bin/env bash
# Work records a second of one worker and of four, and how many times as many those are: 2,000 openings that are made from seed
# 1, searched 4 plies deep, with the journal in memory, and 400 of them with a journal in the folder for temporary files.
# The runs of one and of four take turns, and the fastest of three counts; the beginning of the roots is not timed. Then where the
# time of one worker goes, and what one thread and four make with no bench and no turns: of the searches and their sheets alone,
# and of steps in registers that take about as long as one worker, which is what this machine makes of four threads in so short a
# time.
#
# Then `solve` on the named openings, whose searches take far longer than a turn: 2,000 records at depth 8 with one worker, with
# four, and by four programs of one worker each that run beside each other, which share nothing. What those four make of the
# processors is the most that four workers can.
set -euo pipefail
program=$(bench/program throughput_bench)
folder=$(mktemp -d)
trap 'rm -r "$folder"' EXIT
"$program" time "$folder/bench.journal"

solver=$(bench/program opening_bench)
# solve WORKERS: status 1 says that some roots are unsolved
solve() {
    "$solver" - solve --workers "$1" --depth 8 --budget 2000 <examples/openings.pdn >/dev/null || [ $? = 1 ]
}
solve_beside() {
    for _ in 1 2 3 4; do
        solve 1 &
    done
    wait
}
# seconds COMMAND..: the least of three runs
seconds() {
    local start
    for _ in 1 2 3; do
        start=$(date +%s.%N)
        "$@"
        awk -v start="$start" -v end="$(date +%s.%N)" 'BEGIN { printf "%.3f\n", end - start }'
    done | sort -g | head -1
}
awk -v one="$(seconds solve 1)" -v four="$(seconds solve 4)" -v beside="$(seconds solve_beside)" 'BEGIN {
    printf "solve of 26 openings: 1 worker %.2f s, 4 workers %.2f s, ratio %.2f; ", one, four, one / four
    printf "four programs beside each other %.2f s each, so at most %.2f, of which 4 workers make %.2f\n", beside, 4 * one / beside,
        beside / four / 4
}'
