#!/usr/bin/env bash
# Nodes a second of the leaf search, by the clock, the best of five runs each, on the positions of fixed.txt with the tables
# of two and of three pieces; a node is a position of which the table is asked. The time a position takes is that of a
# leaf. The percentage says how many nodes a memory of one position takes, where that of 65,536 takes 100. Behind them how many
# positions a second are worked out slice by slice, and how long closed sets are looked for, by processor time.
set -euo pipefail
program=$(bench/program search_bench)
cd crates/search_bench/data
"$program" time
