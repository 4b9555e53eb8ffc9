#!/usr/bin/env bash
# Seven works, each with its processor time, the least of three runs, and, where valgrind is there, with the instructions of
# the processor that one run takes under callgrind: of all threads, the start and the end of the process among them. The time
# says how fast this machine is. The instructions differ from machine to machine by little, so they compare two states that
# were measured on two. The inputs are made anew each time, and are the same everywhere:
# - tree: a journal of 10,000 records of work on the named openings, each the search of one position alone
# - report: what `report` replays of that journal
# - games: 195 copies of the three files of games in crates/pdn_bench/data, 4,095 games, read, played and warned of
# - table: filling the endgame table of three pieces, and writing it
# - lists: the lists of 1 to 8 legal moves from the start, by the swift generator
# - verify: the certificate of 100,000 entries that certificate_bench makes
# - openings: 26 records of work at depth 8 on the named openings
set -euo pipefail
bench=$(bench/program opening_bench)
moves=$(bench/program move_count_bench)
certificates=$(bench/program certificate_bench)
folder=$(mktemp -d)
trap 'rm -r "$folder"' EXIT
for name in club_evening annotated_openings two_point_match; do
    sed '1s/^\xef\xbb\xbf//' "crates/pdn_bench/data/$name.pdn"
    echo
done >"$folder/block"
for _ in $(seq 195); do cat "$folder/block"; done >"$folder/games.pdn"
"$certificates" write >"$folder/certificate"

# run WORK [COMMAND..]: the work's command, behind those words; status 1 says that some roots are unsolved
run() {
    local work=$1
    shift
    case $work in
        tree) rm -f "$folder/journal"; "$@" "$bench" "$folder/journal" solve --depth 0 --budget 10000 <examples/openings.pdn ;;
        report) "$@" "$bench" "$folder/journal" report ;;
        games) "$@" "$bench" - solve --depth 0 --budget 0 <"$folder/games.pdn" ;;
        table) "$@" "$bench" - table 3 ;;
        lists) "$@" "$moves" swift 8 ;;
        verify) "$@" "$bench" - verify <"$folder/certificate" ;;
        openings) "$@" "$bench" - solve --depth 8 --budget 26 <examples/openings.pdn ;;
    esac >/dev/null || [ $? = 1 ]
}
# user_time WORK: the least of three
user_time() {
    for _ in 1 2 3; do
        { time run "$1" 2>/dev/null; } 2>&1
    done | sort -g | head -1
}
TIMEFORMAT=%U
for work in tree report games table lists verify openings; do
    line="$work: $(user_time "$work") s of processor time"
    if command -v valgrind >/dev/null; then
        counted=$(run "$work" valgrind --tool=callgrind --callgrind-out-file="$folder/callgrind" 2>&1 |
            sed -n 's/.*Collected : //p')
        line="$line, $counted instructions"
    fi
    echo "$line"
done
