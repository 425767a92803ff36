#!/usr/bin/env bash
# Refuses each request for memory of a replay in turn, one in each run, and says how the runs ended.
#
# usage: tools/refuse_memory.sh [NUMBER..]        ZCRX=FILE names another program than crates/zcrx_cli/out/zcrx_cli
#
# The replays are those of the demo capture, and of four payloads of 80 bytes to two applications that keep two loans each and quit
# at 100 bytes, each with threads and by turns; and that of the demo capture, polled and forwarding. NUMBER.. are those of the
# requests, from 1; where none is said it is each one, until five runs in a row make fewer. What refuses is a small library in front
# of the C library's malloc, calloc and realloc, built by `cc`; with it requests of the C library's own are refused too, as for a
# thread.
#
# Each run has to end by itself, with the status that its report ends in, and each stream that it leaves has to be a front of the
# right one. Right are: status 1 with no report, or with one that ends in it; status 9 with one that tells of an application that
# was stopped by a write, since a file that finds no memory fails; and status 0 with the whole report, the pool's line aside, and
# whole streams, where the replay does without that memory. Anything else is `WRONG`. The status is 0 where nothing is.
set -u
cd "$(dirname "$0")/.." || exit 1
zcrx=$(realpath -m "${ZCRX:-crates/zcrx_cli/out/zcrx_cli}")
[ -x "$zcrx" ] || {
    echo "refuse_memory: no program $zcrx: run 'make build' first" >&2
    exit 1
}
work=$(mktemp -d)
trap 'rm -rf "$work"' EXIT

cc -O1 -shared -fPIC -o "$work/refuse.so" -x c - <<'END' || exit 1
#include <errno.h>
#include <fcntl.h>
#include <stdatomic.h>
#include <stdlib.h>
#include <unistd.h>

extern void *__libc_malloc(size_t), *__libc_calloc(size_t, size_t), *__libc_realloc(void *, size_t);

static atomic_long requests;
static long number;

__attribute__((constructor)) static void start(void)
{
    const char *word = getenv("REFUSED_REQUEST");
    number = word ? atol(word) : 0;
}

/* Whether this request is the one; that it was made is told by a file. */
static int is_refused(void)
{
    if (number == 0 || atomic_fetch_add(&requests, 1) + 1 != number)
        return 0;
    close(open(getenv("REFUSED_MARK"), O_CREAT | O_WRONLY, 0600));
    errno = ENOMEM;
    return 1;
}

void *malloc(size_t size) { return is_refused() ? NULL : __libc_malloc(size); }
void *calloc(size_t count, size_t size) { return is_refused() ? NULL : __libc_calloc(count, size); }
void *realloc(void *old, size_t size) { return is_refused() ? NULL : __libc_realloc(old, size); }
END

# Four payloads of 80 bytes, each of one letter, two to each port.
PYTHONPATH=tools python3 - >"$work/four.pcap" <<'END'
import sys
import frames

sys.stdout.buffer.write(frames.FILE_HEADER)
for port, sequence, letter in [(9000, 100, b"a"), (9001, 100, b"c"), (9000, 180, b"b"), (9001, 180, b"d")]:
    sys.stdout.buffer.write(frames.record(0, frames.frame(40000, port, sequence, frames.PSH_ACK, 80 * letter)))
END

# What is right, the pool's line aside.
letters() { head -c "$2" /dev/zero | tr '\0' "$1"; }
mkdir "$work/hello" "$work/four"
grep -v ^pool demo-data/hello.report >"$work/hello/report"
printf 'hello, world' >"$work/hello/flow-0.bin"
printf 'across the wrap' >"$work/hello/flow-1.bin"
cat >"$work/four/report" <<'END'
capture records 4 tcp 4 steered 4 other 0 fragment 0 cut 0 bad 0
app 0 port 9000 written 100 loans 2 copied 0 stopped quit
app 1 port 9001 written 100 loans 2 copied 0 stopped quit
flow 0 port 9000 base 100 bytes 100 fin no end open
flow 1 port 9001 base 100 bytes 100 fin no end open
status 0
END
{ letters a 80; letters b 20; } >"$work/four/flow-0.bin"
{ letters c 80; letters d 20; } >"$work/four/flow-1.bin"

# Each stream of a run is a front of the right one of a case.
are_fronts() { # CASE
    local file
    for file in "$work"/run/*; do
        [ -e "$file" ] || continue
        cmp -s -n "$(stat -c %s "$file")" "$file" "$work/$1/${file##*/}" || return 1
    done
}

# How a run with this status ended, as one word.
ending() { # CASE STATUS
    local last
    last=$(tail -n 1 "$work/report")
    are_fronts "$1" || { echo WRONG; return; }
    if [ "$2" -eq 1 ] && [ ! -s "$work/report" ]; then
        echo unreported
    elif [ "$2" -eq 1 ] && [ "$last" = "status 1" ]; then
        echo reported
    elif [ "$2" -eq 9 ] && [ "$last" = "status 9" ] && grep -q "stopped write" "$work/report"; then
        echo unwritten
    elif [ "$2" -eq 0 ] && cmp -s <(grep -v ^pool "$work/report") "$work/$1/report" \
        && cmp -s "$work/run/flow-0.bin" "$work/$1/flow-0.bin" && cmp -s "$work/run/flow-1.bin" "$work/$1/flow-1.bin"; then
        echo whole
    else
        echo WRONG
    fi
}

wrong=0
# Refuses a request of a replay and counts how it ended.
refuse() { # CASE CAPTURE NUMBER WORD..
    local case=$1 capture=$2 number=$3 status end
    rm -rf "$work/run" "$work/mark" && mkdir "$work/run"
    (cd "$work/run" && exec timeout 60 env REFUSED_REQUEST="$number" REFUSED_MARK="$work/mark" LD_PRELOAD="$work/refuse.so" \
        "$zcrx" replay "${@:4}" <"$capture" >"$work/report" 2>"$work/said")
    status=$?
    end=$(ending "$case" $status)
    if [ ! -e "$work/mark" ]; then
        [ "$end" = whole ] && end=unasked || end=WRONG
    fi
    ends[$end]=$((${ends[$end]:-0} + 1))
    [ "$end" = unasked ] && unasked=$((unasked + 1)) || unasked=0
    [ "$end" = WRONG ] || return
    wrong=$((wrong + 1))
    echo "WRONG: request $number of replay ${*:4}: status $status"
    head -n 20 "$work/report" "$work/said"
}

# Refuses the requests of a replay, one after another.
sweep() { # CASE CAPTURE NUMBERS WORD..
    local number
    declare -A ends=()
    unasked=0
    for number in ${3:-$(seq 1 100000)}; do
        refuse "$1" "$2" "$number" "${@:4}"
        [ -n "$3" ] || [ $unasked -lt 5 ] || break
    done
    echo "replay ${*:4}: status 1 with no report ${ends[unreported]:-0}, with one ${ends[reported]:-0}, status 9 ${ends[unwritten]:-0}," \
        "status 0 ${ends[whole]:-0}, no such request ${ends[unasked]:-0}, wrong ${ends[WRONG]:-0}"
}

for turns in "" --turns=nn01; do
    sweep hello "$PWD/demo-data/hello.pcap" "$*" $turns 9000 9001
    sweep four "$work/four.pcap" "$*" $turns --leak 2 --quit 100 9000 9001
done
for way in --polled --forward=1; do
    sweep hello "$PWD/demo-data/hello.pcap" "$*" $way 9000 9001
done
[ $wrong -eq 0 ]
