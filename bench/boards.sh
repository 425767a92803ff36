#!/usr/bin/env bash
# Sends a stream of notes to one application through each board, for three sizes of payload, and prints a line of a table
# for each: notes a second and MB a second of the best of several runs, for the board for one thread, for the board on words
# by one thread, and by two threads.
#
# usage: bench/boards.sh [RUNS [NOTES]]
#
# The program is crates/board_race/out/board_race, which `rt run` in its folder proves and builds.
set -eu
cd "$(dirname "$0")/.."
runs=${1:-7}
notes=${2:-100000}
program=crates/board_race/out/board_race
[ -x "$program" ] || {
    echo "boards: no $program; run 'rt run' in crates/board_race" >&2
    exit 1
}
echo "| bytes | board | notes a second | MB a second |"
echo "|---|---|---|---|"
for bytes in 100 1000 9000; do
    for ((run = 0; run < runs; run++)); do
        "$program" "$notes" "$bytes"
    done | awk -v bytes="$bytes" -v notes="$notes" '
        $2 != notes { lost = 1 }
        !($1 in best) || $3 < best[$1] { best[$1] = $3 }
        END {
            if (lost || NR == 0) {
                print "boards: not all notes came" > "/dev/stderr"
                exit 1
            }
            split("plain words threads", name, " ")
            for (i = 1; i <= 3; i++) {
                second = best[name[i]] / 1000000
                printf "| %d | %s | %d | %d |\n", bytes, name[i], notes / second, notes * bytes / second / 1000000
            }
        }'
done
