#!/usr/bin/env bash
# The processor time to read a certificate's text, and a journal's record of its entries, the best of three runs each, at
# about 2, 5 and 20 million bytes of text: ordinary entries, and how many times as long entries take whose positions are chosen
# against the hash of an `IndexMap`, and against the windows of `position_rows`.
set -euo pipefail
program=$(bench/program certificate_bench)
"$program" chosen
