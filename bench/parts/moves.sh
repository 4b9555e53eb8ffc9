#!/usr/bin/env bash
# Moves a second of the two move generators, in one run: each counts the lists of n legal moves from the start, for n from 1
# to MOVES; the sum of these counts is divided by the processor time of the fastest of some runs, which take turns. The last
# move of a list is found and not made; each move before it is made. Processor time, the start of the process included, is
# little moved by what else the machine does.
set -euo pipefail
moves=${MOVES:-9}
runs=${RUNS:-5}
program=$(bench/program move_count_bench)

TIMEFORMAT=%U
declare -A fastest=([plain]=1000000 [swift]=1000000)
for _ in $(seq "$runs"); do
    for generator in plain swift; do
        spent=$({ time "$program" "$generator" "$moves" >/dev/null; } 2>&1)
        fastest[$generator]=$(awk -v t="$spent" -v f="${fastest[$generator]}" 'BEGIN { print (t < f) ? t : f }')
    done
done

echo "lists of 1 to $moves moves from the start, the fastest of $runs runs each"
for generator in plain swift; do
    "$program" "$generator" "$moves" | awk -v g="$generator" -v t="${fastest[$generator]}" '{ all += $3 } END {
        printf "%s: the longest: %d lists of %d moves; all: %d moves in %.2f s of processor time, %.0f moves/s\n", g, $3, $2, all, t, all / t
    }'
done
awk -v p="${fastest[plain]}" -v s="${fastest[swift]}" 'BEGIN { printf "plain to swift: %.2f times the processor time\n", p / s }'
