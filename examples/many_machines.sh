#!/usr/bin/env bash
# Solves the openings of a file of games, each in a journal of its own, by as many processes as are asked for, and gathers
# their values in one journal. It may be stopped at any time, and goes on where it was.
set -uo pipefail
top=$(cd "$(dirname "${BASH_SOURCE[0]}")" && cd .. && pwd)
program=${OPENING_BENCH:-$top/bin/opening_bench}

usage() {
    cat <<'HELP'
examples/many_machines.sh [-j PROCESSES] [-d DEPTH] [-k PIECES] [-b BUDGET] GAMES.pdn FOLDER
examples/many_machines.sh --one N FOLDER
examples/many_machines.sh --gather FOLDER

The first form lists the openings of the games in FOLDER, solves each in a journal of its own with PROCESSES processes at once
(the number of processors where it is not given), and gathers the values in FOLDER/all.journal. DEPTH, PIECES and BUDGET are
those of `solve`, the same for each opening. Called again, it goes on with the openings that are not done. At the end it
writes a line for each opening: its position, its value, its records and its seconds.

The work may be spread over machines that share FOLDER. List the openings by the first form with `-j 0`, which solves none.
Then each of these solves opening N alone, and the last form gathers what there is:
  parallel --sshloginfile HOSTS examples/many_machines.sh --one {} FOLDER ::: $(seq "$(wc -l <FOLDER/openings)")
  sbatch --array=1-40 --wrap 'examples/many_machines.sh --one $SLURM_ARRAY_TASK_ID FOLDER'
  examples/many_machines.sh --gather FOLDER
HELP
}

fail() {
    echo "many_machines: $*" >&2
    exit 1
}

# opening N FOLDER: the position of the opening
opening() { sed -n "$1p" "$2/openings"; }

# one N FOLDER: solves an opening in its journal, unless that is done, and notes its seconds and its status
one() {
    local folder=$2 base=$2/$1 position began status
    [ ! -e "$base.done" ] || return 0
    position=$(opening "$1" "$folder")
    [ -n "$position" ] || fail "there is no opening $1 in $folder"
    began=$(date +%s)
    # The words are numbers, each behind its option.
    # shellcheck disable=SC2046
    printf '[FEN "%s"] *\n' "$position" | "$program" "$base.journal" solve $(cat "$folder/options") --budget "$(cat "$folder/budget")" >"$base.report" 2>"$base.told"
    status=$?
    echo $(($(date +%s) - began)) >>"$base.seconds"
    [ "$status" -le 1 ] || fail "opening $1 ends with $status: $(cat "$base.report")"
    echo "$status" >"$base.part" && mv "$base.part" "$base.done"
}

# learn_one N FOLDER: takes the certificate of a settled opening into the journal of all
learn_one() {
    local base=$2/$1
    [ "$(cat "$base.done" 2>/dev/null)" = 0 ] || return 0
    [ ! -e "$base.learnt" ] || return 0
    "$program" "$base.journal" certify 1 >"$base.certificate" || fail "opening $1 is not certified"
    "$program" "$2/all.journal" learn <"$base.certificate" >"$base.part" || fail "opening $1: $(cat "$base.part")"
    mv "$base.part" "$base.learnt"
}

# records JOURNAL: how many records it has, by its gates and lengths
records() {
    od -An -v -t u1 "$1" | awk '
        { for (i = 1; i <= NF; i++) b[n++] = $i }
        END {
            at = 8
            while (at < n && b[at] == 1) {
                body = 0
                for (i = 1; i <= 8; i++) body = body * 256 + b[at + i]
                at += 9
                stop = at + body
                while (at < stop) {
                    payload = 0
                    for (i = 0; i < 4; i++) payload = payload * 256 + b[at + i]
                    at += 4 + payload
                    count++
                }
            }
            print count + 0
        }'
}

# gather FOLDER: all values in one journal, its report, and the table
gather() {
    local folder=$1 n position value count seconds
    count=$(wc -l <"$folder/openings")
    for ((n = 1; n <= count; n++)); do learn_one "$n" "$folder"; done
    # shellcheck disable=SC2046
    while IFS= read -r position; do printf '[FEN "%s"] *\n' "$position"; done <"$folder/openings" |
        "$program" "$folder/all.journal" solve $(cat "$folder/options") --budget 0 >"$folder/report" 2>"$folder/told"
    [ "$?" -le 1 ] || fail "the journal of all is refused: $(cat "$folder/report")"
    for ((n = 1; n <= count; n++)); do
        position=$(opening "$n" "$folder")
        value=$(awk -v p="$position" '$1 == "root" && $3 == p { print $4 }' "$folder/report")
        seconds=$(awk '{ all += $1 } END { print all + 0 }' "$folder/$n.seconds" 2>/dev/null || echo 0)
        printf '%s\t%s\t%s\t%s\n' "$position" "$value" "$(records "$folder/$n.journal" 2>/dev/null || echo 0)" "$seconds"
    done
    tail -n 1 "$folder/report"
}

# list GAMES FOLDER: the openings, as the program finds them
list() {
    local written
    written=$("$program" - solve --budget 0 <"$1") || [ "$?" = 1 ] || fail "$written"
    awk '$1 == "root" { print $3 }' <<<"$written" >"$2/part" && mv "$2/part" "$2/openings"
}

processes=$(nproc 2>/dev/null || echo 1) depth=8 pieces=2 budget=1000
case "${1:-}" in
    --help | -h) usage; exit 0 ;;
    --one) [ $# = 3 ] || fail "--one N FOLDER"; one "$2" "$3"; exit 0 ;;
    --gather) [ $# = 2 ] || fail "--gather FOLDER"; gather "$2"; exit 0 ;;
esac
while getopts j:d:k:b: option; do
    case $option in
        j) processes=$OPTARG ;;
        d) depth=$OPTARG ;;
        k) pieces=$OPTARG ;;
        b) budget=$OPTARG ;;
        *) usage >&2; exit 2 ;;
    esac
done
shift $((OPTIND - 1))
[ $# = 2 ] || { usage >&2; exit 2; }
games=$1 folder=$2
mkdir -p "$folder" || exit 1
[ -e "$folder/options" ] || { echo "$budget" >"$folder/budget" && echo "--depth $depth --pieces $pieces" >"$folder/options"; }
[ -e "$folder/openings" ] || list "$games" "$folder"
[ "$processes" != 0 ] || exit 0
numbers=$(seq "$(wc -l <"$folder/openings")")
if command -v parallel >/dev/null; then
    parallel -j "$processes" "$0" --one {} "$folder" ::: $numbers
else
    xargs -P "$processes" -I{} "$0" --one {} "$folder" <<<"$numbers"
fi || fail "some openings are not done; call it again"
gather "$folder"
