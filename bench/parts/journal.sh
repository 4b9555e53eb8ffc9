#!/usr/bin/env bash
# Commits and payloads a second of a journal, 1, 4 and 64 payloads at a time, on a file in the folder for temporary
# files and in memory, beside the rate of a bare write and sync of as many bytes on the same disk in the same run.
set -euo pipefail
program=$(bench/program journal_bench)
folder=$(mktemp -d)
trap 'rm -r "$folder"' EXIT
"$program" time "$folder/bench.journal"
