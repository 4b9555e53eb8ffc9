#!/bin/sh
# Speed of reading PDN: makes a file of a little more than 16 MiB of the example games, and reads it and copies the
# same bytes. A text may have 4,096 games, so the file is read as 8 texts of one length, each 99 copies of a block.
set -e
program=$(bench/program pdn_bench)
work=$(mktemp -d)
trap 'rm -rf "$work"' EXIT
# A block: the three files of examples, 21 games, without the byte order mark, which stands only at a text's front.
for name in club_evening annotated_openings two_point_match; do
    sed '1s/^\xef\xbb\xbf//' "crates/pdn_bench/data/$name.pdn"
    echo
done > "$work/block"
i=0
while [ $i -lt 792 ]; do
    cat "$work/block"
    i=$((i + 1))
done > "$work/games.pdn"
"$program" time 8 "$work/games.pdn"
