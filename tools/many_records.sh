#!/usr/bin/env bash
# Replays a capture of 16,777,217 records without a byte, one more than a replay numbers, and compares the report. The
# status is 0 where it is right.
#
# usage: tools/many_records.sh
#
# ZCRX=FILE names another program than crates/zcrx_cli/out/zcrx_cli, which `make build` leaves there.
set -u
cd "$(dirname "$0")/.." || exit 1
zcrx=$(realpath -m "${ZCRX:-crates/zcrx_cli/out/zcrx_cli}")
wanted="capture records 16777216 tcp 0 steered 0 other 0 fragment 0 cut 16777216 bad 0
app 0 port 9000 written 0 loans 0 copied 0 stopped no
pool fast 0 refill 0 slow 0 empty 0 strays 0
status 11"

# The header of such a record is 16 bytes of 0.
capture() {
    head -c 24 demo-data/hello.pcap
    head -c $((16777217 * 16)) /dev/zero
}

report=$(capture 2>/dev/null | "$zcrx" replay 9000)
status=$?
echo "$report"
[ $status -eq 11 ] && [ "$report" = "$wanted" ]
