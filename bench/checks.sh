#!/usr/bin/env bash
# Measures `check` alone: how long it takes a line of a record, and the most memory that it takes.
#
# usage: bench/checks.sh [RUNS]
#
# RUNS runs (5 if left out) on each record of tools/make_record.py.
#
# The program is written into a temporary folder beside copies of the crates, proved and built there by rt, and removed.
set -u

runs=${1:-5}
top=$(cd "$(dirname "$0")/.." && pwd)
work=$(mktemp -d)
# run_check and all that it stands on, with the proofs that earlier checks kept
crates=(zr_kinds zr_io run_check)
trap 'rm -rf "$work"' EXIT

fail() {
    echo "checks: $*" >&2
    exit 1
}

[[ $runs =~ ^[1-9][0-9]*$ ]] || fail "usage: bench/checks.sh [RUNS]"

mkdir -p "$work/crates/checks/src"
for crate in "${crates[@]}"; do
    cp -a "$top/crates/$crate" "$work/crates/"
    grep "^$crate:" "$top/crates.txt" >>"$work/crates.txt"
done
echo "checks: run_check zr_io zr_kinds" >>"$work/crates.txt"

cat >"$work/crates/checks/src/main.rt" <<'END'
#![tactic(auto)]

use run_check::{Checked, check};
use std::io;
use std::io::BufReader;
use zr_io::StdSource;

fn main(rt: HostRuntime) -> io::Result<()> {
    let input = BufReader::with_capacity(rt.alloc(), 65_536, rt.reader())?;
    match check(rt.alloc(), &mut StdSource::new(input)) {
        Ok(Checked::Yes { lines }) => println!(rt; "{lines}"),
        _ => println!(rt; "no legal run"),
    }
}
END
cd "$work/crates/checks" || exit 1
rt run </dev/null >first 2>said || fail "the program isn't proved: $(grep -E "error|not proved|expected answers" said)"

echo "| record | lines | s | µs a line | peak KiB |"
echo "|---|---|---|---|---|"
for kind in "plain 1000002" pieces; do
    # shellcheck disable=SC2086
    "$top/tools/make_record.py" $kind >record
    for _ in $(seq "$runs"); do
        /usr/bin/time -f "%e %M" ./out/checks <record 2>>spent >lines || fail "the program failed"
    done
    sort -n spent | head -1 | awk -v kind="$kind" -v lines="$(cat lines)" \
        '{ printf "| %s | %d | %.2f | %.2f | %d |\n", kind, lines, $1, 1e6 * $1 / lines, $2 }'
    rm spent
done
