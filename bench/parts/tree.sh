#!/usr/bin/env bash
# Expansions a second of the proof tree, by the clock, the best of three runs for each size: the start position is grown
# by 1,000, 10,000 and 100,000 expansions, each at the leaf that is picked next. The first rate counts the successors and
# their mobility too, the second the calls of the tree alone; the percentages compare with the smallest tree. Then the mean time
# of 10,000 picks among 256, 4,096 and 65,536 roots, of which all but the first and the last are settled, and the first is taken.
set -euo pipefail
program=$(bench/program tree_bench)
"$program" time
