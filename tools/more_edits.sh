#!/usr/bin/env bash
# Tries the edits that the gate leaves out, in a copy of what is committed: those of more-edits/NAME for each name given, or all.
# Each must be refused. What an earlier run proved of these crates and those below isn't proved again.
set -eu
cd "$(dirname "$0")/.."
names=${*:-$(ls more-edits)}
copy=$(mktemp -d)
trap 'rm -rf "$copy"' EXIT
git clone -q . "$copy/zcrx"
for name in $names; do
    mkdir -p "$copy/zcrx/crates/$name/must-fail"
    cp "more-edits/$name"/*.edit "$copy/zcrx/crates/$name/must-fail"
done
cd "$copy/zcrx"
# shellcheck disable=SC2086
rt ci $names
