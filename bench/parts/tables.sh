#!/usr/bin/env bash
# The time to fill the endgame tables of two and three pieces and to check their bytes, in milliseconds of the clock, the
# best of five runs each.
set -euo pipefail
program=$(bench/program table_bench)
"$program" time
