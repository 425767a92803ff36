#!/usr/bin/env bash
# Replays the demo capture with standard input, output and errors closed, each alone and all together, and compares the
# status, the report and every file that was written. The status is 0 where all are right.
#
# usage: tools/closed_streams.sh
#
# ZCRX=FILE names another program than crates/zcrx_cli/out/zcrx_cli, which `make build` leaves there. Right are: status 9
# where output is closed, else 8 where input is, else 0; with input open two files, each with its flow and nothing else,
# and without it none; and the report where output is open.
set -u
cd "$(dirname "$0")/.." || exit 1
zcrx=$(realpath -m "${ZCRX:-crates/zcrx_cli/out/zcrx_cli}")
capture=$PWD/demo-data/hello.pcap
[ -x "$zcrx" ] || {
    echo "closed_streams: no program $zcrx: run 'make build' first" >&2
    exit 1
}
work=$(mktemp -d)
trap 'rm -rf "$work"' EXIT

# What is reported of the demo capture, and what a replay that reads nothing reports.
whole=$(cat demo-data/hello.report)
nothing="capture records 0 tcp 0 steered 0 other 0 fragment 0 cut 0 bad 0
app 0 port 9000 written 0 loans 0 copied 0 stopped no
app 1 port 9001 written 0 loans 0 copied 0 stopped no
pool fast 0 refill 0 slow 0 empty 0 strays 0
status 8"
files="flow-0.bin: hello, world
flow-1.bin: across the wrap"

# Each file of the folder with what it has.
files_in() {
    (cd "$1" && for file in *; do [ -f "$file" ] && echo "$file: $(cat "$file")"; done)
}

wrong=0
for closed in "<&-" ">&-" "2>&-" "<&- >&-" "<&- 2>&-" ">&- 2>&-" "<&- >&- 2>&-"; do
    status_wanted=0 report_wanted=$whole files_wanted=$files
    [[ $closed = *"<&-"* ]] && status_wanted=8 report_wanted=$nothing files_wanted=
    [[ " $closed" = *" >&-"* ]] && status_wanted=9 report_wanted=
    rm -rf "$work/run" && mkdir "$work/run" && : >"$work/report"
    (cd "$work/run" && eval "exec \"\$zcrx\" replay 9000 9001 <\"\$capture\" >\"\$work/report\" $closed")
    status=$?
    if [ $status -eq $status_wanted ] && [ "$(cat "$work/report")" = "$report_wanted" ] \
        && [ "$(files_in "$work/run")" = "$files_wanted" ]; then
        echo "closed $closed: status $status, as it must be"
    else
        echo "closed $closed: WRONG: status $status"
        cat "$work/report"
        files_in "$work/run"
        wrong=1
    fi
done
exit $wrong
