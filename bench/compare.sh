#!/usr/bin/env bash
# Compares zcrx, with threads, by turns on one thread (`--turns n`), polled (`--polled`) and forwarding (`--forward 0`), with tcpflow,
# capture by capture: time, time per frame, peak memory, and whether all wrote the same bytes.
#
# usage: bench/compare.sh [RUNS [CASE..]]
#
#   one        one flow in order; and zcrx on a capture twice as long, which shows whether its memory grows with it
#   two, four, eight
#              so many flows to as many ports, interleaved, each in order
#   reordered  the same with every second pair of a flow's frames swapped, and 6 in 100 frames beginning 100 bytes early:
#              the capture that `zcrx make` makes
#   waiting    one flow whose first payload comes last, behind 1,000, 10,000 and 40,000 kept pieces
#
# Where pieces wait the pool has buffers for all of them. No frame may be refused.
#
# RUNS is 5 if left out, and the cases are all six. CPUS=N runs each program on the first N processors alone. ZCRX=FILE names
# another program than crates/zcrx_cli/out/zcrx_cli, which `make build` leaves there. The captures are made in bench/captures/
# and kept; all else there is removed. Needs python3, GNU time, tcpflow and about 1.3 GB of disk. The status is 0 where all ended
# well and wrote the same bytes.
set -u
export LC_ALL=C

runs=${1:-5}
cases=("${@:2}")
[ ${#cases[@]} -gt 0 ] || cases=(one two four eight reordered waiting)
top=$(cd "$(dirname "$0")/.." && pwd)
work=$top/bench/captures
zcrx=$(realpath -m "${ZCRX:-$top/crates/zcrx_cli/out/zcrx_cli}")
writer=$top/tools/make_capture.py
frames=100000
kept_counts=(1000 10000 40000)

# What zcrx is told beside the ports.
options=()

# The ways in which zcrx runs: with threads first.
ways=(zcrx turns polled forward)

# What a program is started by.
pinned=()
[ -z "${CPUS-}" ] || pinned=(taskset -c "0-$((CPUS - 1))")

# Buffers for 65,536 payloads of 1,000 bytes.
roomy=(--buffers 4096 --size 16384)

# Plain flow files and nothing else: only the scanner that writes the flows, no report.xml, no messages. Bytes up to 2^30
# ahead belong to the flow.
tcpflow_options=(-E tcpdemux -S enable_report=NO -d 0 -m $((1 << 30)))

fail() {
    echo "compare: $*" >&2
    exit 1
}

require_programs() {
    [[ $runs =~ ^[1-9][0-9]*$ ]] || fail "usage: bench/compare.sh [RUNS [one | two | four | eight | reordered | waiting]..]"
    [ -x "$zcrx" ] || fail "no program $zcrx: run 'make build' first"
    [ -x /usr/bin/time ] || fail "no /usr/bin/time: install Debian's package time"
    if ! command -v tcpflow >/dev/null; then
        apt-get update -qq && apt-get install -y -qq --no-install-recommends tcpflow || fail "no tcpflow"
    fi
}

# make_capture FILE COMMAND..: keeps what the command writes
make_capture() {
    local file=$1
    shift
    [ -f "$file" ] && return
    "$@" >"$file.part" && mv "$file.part" "$file" || fail "no capture $file"
}

# measure NAME CAPTURE COMMAND..: runs the command in a new folder NAME, and adds 'microseconds KiB' to NAME.runs
measure() {
    local name=$1 capture=$2
    shift 2
    rm -rf "${work:?}/$name"
    mkdir "$work/$name" && cd "$work/$name" || exit 1
    local began=${EPOCHREALTIME/./}
    /usr/bin/time -q -f %M -o "$work/$name.peak" "${pinned[@]}" "$@" <"$capture" >"$work/$name.said"
    local status=$? ended=${EPOCHREALTIME/./}
    [ $status -eq 0 ] || fail "$name ended with status $status"
    echo "$((ended - began)) $(cat "$work/$name.peak")" >>"$work/$name.runs"
}

# run_zcrx NAME CAPTURE FLOWS OPTION..
run_zcrx() {
    measure "$1" "$2" "$zcrx" replay "${options[@]}" "${@:4}" $(seq 9000 $((8999 + $3)))
    [ "$(tail -n 1 "$work/$1.said")" = "status 0" ] || fail "zcrx reported: $(tail -n 1 "$work/$1.said")"
    ! grep -q '^refused ' "$work/$1.said" || fail "zcrx refused frames"
}

run_tcpflow() { # CAPTURE
    measure tcpflow /dev/null tcpflow "${tcpflow_options[@]}" -r "$1" -o .
}

best() { cut -d' ' -f1 "$work/$1.runs" | sort -n | head -1; }
median() { cut -d' ' -f1 "$work/$1.runs" | sort -n | sed -n "$((runs / 2 + 1))p"; }
peak() { cut -d' ' -f2 "$work/$1.runs" | sort -n | tail -1; }

row() { # NAME FRAMES
    awk -v name="$1" -v frames="$2" -v best="$(best "$1")" -v median="$(median "$1")" -v peak="$(peak "$1")" \
        'BEGIN { printf "%-8s %8.3f %8.3f %12.3f %12d\n", name, best / 1e6, median / 1e6, best / frames, peak }'
}

ratio() { awk -v a="$1" -v b="$2" 'BEGIN { printf "%.2f", a / b }'; }

print_table() { # FRAMES
    printf '%-8s %8s %8s %12s %12s\n' '' 'best s' 'median s' 'us a frame' 'peak KiB'
    local name
    for name in "${ways[@]}" tcpflow; do
        row $name "$1"
    done
    for name in "${ways[@]}"; do
        echo "$name / tcpflow: best $(ratio "$(best $name)" "$(best tcpflow)"), median $(ratio "$(median $name)" "$(median tcpflow)")"
    done
    echo "polled / zcrx: best $(ratio "$(best polled)" "$(best zcrx)"), median $(ratio "$(median polled)" "$(median zcrx)")"
    echo "forward / polled: best $(ratio "$(best forward)" "$(best polled)"), median $(ratio "$(median forward)" "$(median polled)")"
}

# The file in which tcpflow writes flow F of a capture.
tcpflow_file() { printf '010.000.000.001.%05d-010.000.000.002.%05d' $((40000 + $1)) $((9000 + $1)); }

compare_bytes() { # FLOWS
    local flow
    for ((flow = 0; flow < $1; flow++)); do
        cmp "$work/zcrx/flow-$flow.bin" "$work/tcpflow/$(tcpflow_file $flow)" || fail "the streams of flow $flow differ"
    done
    local way
    for way in "${ways[@]:1}"; do
        diff -r "$work/zcrx" "$work/$way" || fail "the streams of zcrx differ"
    done
    [ "$(ls "$work/zcrx" | wc -l)" -eq "$1" ] || fail "zcrx wrote other files: $(ls "$work/zcrx")"
    echo "same bytes: $(cat "$work"/zcrx/flow-*.bin | wc -c) in $1 flow(s)"
}

# compare TITLE FLOWS CAPTURE FRAMES COMMAND.., where the command writes the capture
compare() {
    local title=$1 flows=$2 capture=$work/$3 count=$4
    make_capture "$capture" "${@:5}"
    remove_outputs
    cat "$capture" >/dev/null # so that each run finds it in memory
    local run
    for ((run = 0; run < runs; run++)); do
        run_zcrx zcrx "$capture" "$flows"
        run_zcrx turns "$capture" "$flows" --turns n
        run_zcrx polled "$capture" "$flows" --polled
        run_zcrx forward "$capture" "$flows" --forward 0
        run_tcpflow "$capture"
    done
    echo "$title: $count frames, $(stat -c %s "$capture") bytes; $runs runs of each, in turn, on ${CPUS:-$(nproc)} processors"
    print_table "$count"
    compare_bytes "$flows"
}

compare_memory() {
    make_capture "$work/one-longer.pcap" "$writer" 7 $((2 * frames))
    run_zcrx longer "$work/one-longer.pcap" 1
    [ "$(stat -c %s "$work/longer/flow-0.bin")" -eq $((2000 * frames)) ] || fail "the longer stream has another length"
    echo "zcrx on a capture twice as long: peak $(peak longer) KiB, against $(peak zcrx) KiB"
    rm "$work/longer.runs"
    run_zcrx longer "$work/one-longer.pcap" 1 --turns n
    echo "by turns: peak $(peak longer) KiB, against $(peak turns) KiB"
}

remove_outputs() {
    rm -rf "${work:?}"/{zcrx,turns,polled,forward,tcpflow,longer}{,.peak,.said,.runs}
}

run_case() {
    local kept
    options=()
    case $1 in
    one)
        compare "one flow in order" 1 one.pcap $frames "$writer" 7 $frames
        compare_memory
        ;;
    two) compare "two flows in order" 2 two.pcap $frames "$writer" 7 $frames --flows 2 ;;
    four) compare "four flows in order" 4 four.pcap $frames "$writer" 7 $frames --flows 4 ;;
    eight) compare "eight flows in order" 8 eight.pcap $frames "$writer" 7 $frames --flows 8 ;;
    reordered) compare "four flows, swapped and overlapping" 4 reordered.pcap $frames "$zcrx" make 7 $frames ;;
    waiting)
        options=("${roomy[@]}")
        for kept in "${kept_counts[@]}"; do
            compare "one flow behind $kept kept pieces" 1 "waiting-$kept.pcap" $((kept + 1)) \
                "$writer" 7 $((kept + 1)) --first-last
        done
        ;;
    *) fail "no case $1" ;;
    esac
    echo
}

require_programs
mkdir -p "$work"
trap remove_outputs EXIT
for name in "${cases[@]}"; do
    run_case "$name"
done
