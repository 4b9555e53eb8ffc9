#!/usr/bin/env bash
# Turns a second of the turn lock, at 1, 2 and 4 threads, beside std's Mutex doing the same in the same run: the
# fastest of some runs of each counts, and the two take turns, so that what else the machine does meets both. The
# seconds include the start and the end of the process.
set -euo pipefail
turns=${TURNS:-1000000}
runs=${RUNS:-5}
program=$(bench/program turn_lock_bench)

seconds() {
    local start end
    start=$(date +%s.%N)
    "$program" "$1" "$2" "$turns" >/dev/null
    end=$(date +%s.%N)
    awk -v s="$start" -v e="$end" 'BEGIN { printf "%.6f", e - s }'
}

smaller() {
    awk -v a="$1" -v b="$2" 'BEGIN { print (a < b) ? a : b }'
}

echo "$turns turns a thread, the fastest of $runs runs"
for threads in 1 2 4; do
    lock=1000000
    mutex=1000000
    for _ in $(seq "$runs"); do
        lock=$(smaller "$lock" "$(seconds lock "$threads")")
        mutex=$(smaller "$mutex" "$(seconds mutex "$threads")")
    done
    awk -v n="$threads" -v t="$turns" -v l="$lock" -v m="$mutex" 'BEGIN {
        printf "threads %d: turn_lock %.0f turns/s, Mutex %.0f turns/s, ratio %.2f\n", n, n * t / l, n * t / m, m / l
    }'
done
