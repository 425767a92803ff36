#!/usr/bin/env bash
# Replays the demo capture in the empty folder demo/, and shows the report and each stream. Then the program makes a
# capture, and replays it in demo/made/. The status is the first of the program's that isn't 0.
#
# usage: tools/demo.sh
#
# ZCRX=FILE names another program than crates/zcrx_cli/out/zcrx_cli, which `make build` leaves there.
cd "$(dirname "$0")/.." || exit 1
zcrx=$(realpath -m "${ZCRX:-crates/zcrx_cli/out/zcrx_cli}")
capture=$PWD/demo-data/hello.pcap
rm -rf demo && mkdir -p demo/made && cd demo || exit 1

"$zcrx" replay 9000 9001 <"$capture"
status=$?

for stream in flow-*.bin; do
    [ -f "$stream" ] || continue
    echo "$stream:"
    cat "$stream"
    echo
done
[ $status -eq 0 ] || exit $status

cd made || exit 1
echo "zcrx make 7 2000, replayed:"
"$zcrx" make 7 2000 >made.pcap || exit
"$zcrx" replay --buffers 2000 9000 9001 9002 9003 <made.pcap
status=$?
echo
echo "Next: crates/zcrx_cli/out/zcrx_cli replay PORT.. < CAPTURE, in an empty folder, with a pcap or pcapng capture of your own"
echo "(tcpdump -w CAPTURE). docs/USE.md has the options, the report and the statuses; make install puts it in place as zcrx."
exit $status
