#!/usr/bin/env bash
# Entries a second, by the clock, of reading the text of a certificate of 100,000 entries and of checking it, the best of
# five runs each.
set -euo pipefail
program=$(bench/program certificate_bench)
"$program" time
