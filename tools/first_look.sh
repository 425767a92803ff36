#!/usr/bin/env bash
# Shows the report of the demo capture by a build of the program that is not proved, in a minute or two, where there is no proved
# one yet. It leaves no file.
#
# usage: tools/first_look.sh
set -u
cd "$(dirname "$0")/../crates/zcrx_cli" || exit 1
[ -x out/zcrx_cli ] && exit 0
command -v rt >/dev/null || {
    echo "first_look: no command rt, the toolchain's, on the path" >&2
    exit 1
}
echo "a first look, by a build that is NOT PROVED yet; the proofs follow:"
rt try -- replay 9000 9001 <../../demo-data/hello.pcap | sed '/^checked:/,$d'
