#!/usr/bin/env bash
# Replays the capture of `make 7 100000`, about 108 MB, twice with `--turns n` and once with threads, and compares: the same
# report by turns, 25,000,000 bytes in each of the four flows, and the same streams. With threads there are more buffers than
# the rings can hold notes for. Outside the gate; a few seconds.
#
# usage: tools/large_run.sh        ZCRX=FILE names another program than crates/zcrx_cli/out/zcrx_cli
set -eu
top=$(cd "$(dirname "$0")/.." && pwd)
zcrx=$(realpath -m "${ZCRX:-$top/crates/zcrx_cli/out/zcrx_cli}")
work=$(mktemp -d)
trap 'rm -rf "$work"' EXIT
cd "$work"

ports=(9000 9001 9002 9003)
"$zcrx" make 7 100000 >made.pcap

replay() { # FOLDER OPTION..
    mkdir "$1"
    (cd "$1" && "$zcrx" replay "${@:2}" "${ports[@]}" <../made.pcap >report)
}
replay first --turns n
replay again --turns n
replay threads --buffers 4096 --size 16384
diff -r first again
for flow in 0 1 2 3; do
    cmp "first/flow-$flow.bin" "threads/flow-$flow.bin"
    for run in first threads; do
        grep -q "^flow $flow port $((9000 + flow)) base 4294960000 bytes 25000000 fin no end open$" $run/report
        grep -q "^app $flow port $((9000 + flow)) written 25000000 loans 25000 copied 0 stopped no$" $run/report
    done
done
echo "large run: the same streams each time, and by turns the same report"
