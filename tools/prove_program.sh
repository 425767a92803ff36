#!/usr/bin/env bash
# Proves the program and the crates that it stands on, as the gate does, and leaves it as crates/zcrx_cli/out/zcrx_cli. A line for
# each crate says when it is proved. As many are proved side by side as there are processors and memory for.
#
# usage: tools/prove_program.sh
#
# The toolchain keeps on this machine what is proved: a second run proves nothing again, nor does the gate. Edits that must be refused
# and tests that stand above the program are left to the gate. Where a crate isn't proved, what the check said is shown, and
# the status is 1.
set -u
cd "$(dirname "$0")/.." || exit 1
command -v rt >/dev/null || {
    echo "prove_program: no command rt, the toolchain's, on the path" >&2
    exit 1
}
folder=$(mktemp -d)
trap 'rm -rf "$folder"' EXIT
trap 'exit 130' INT TERM

declare -A stands_on seen
while IFS=: read -r name others; do
    [[ $name = "#"* ]] || stands_on[${name%% *}]=$others
done <crates.txt

# The crates behind those that they stand on. Libraries of the toolchain have no line in crates.txt.
order=()
visit() {
    local other
    [ -z "${seen[$1]+seen}" ] && [ -n "${stands_on[$1]+there}" ] || return
    seen[$1]=yes
    for other in ${stands_on[$1]}; do
        visit "$other"
    done
    order+=("$1")
}
visit zcrx_cli

# A repository of these alone, without what was built of them and without edits.
copy=$folder/zcrx
mkdir -p "$copy/crates"
cp HANDLES "$copy"
for name in "${order[@]}"; do
    echo "$name:${stands_on[$name]}" >>"$copy/crates.txt"
    mkdir "$copy/crates/$name"
    for part in "crates/$name"/*; do
        case ${part##*/} in
            out | must-fail) ;;
            *) cp -r "$part" "$copy/crates/$name" ;;
        esac
    done
done

# Of a crate that is proved one line is shown; the check says more of it.
log=$folder/log
echo "proving ${#order[@]} crates, up to $(nproc) side by side"
(cd "$copy" && rt ci </dev/null 2>&1) | tee "$log" | {
    number=0
    while read -r from name what _; do
        case "$from $what" in
            "rt: proved") how="minute $((SECONDS / 60))" ;;
            "rt: is") how="proved earlier" ;;
            *) continue ;;
        esac
        number=$((number + 1))
        echo "proved $number of ${#order[@]}: $name ($how)"
    done
}
if ! tail -n 1 "$log" | grep -q "^${#order[@]} passed, 0 failed"; then
    echo "not proved:" >&2
    cat "$log" >&2
    exit 1
fi
mkdir -p crates/zcrx_cli/out
cp "$copy/crates/zcrx_cli/out/zcrx_cli" crates/zcrx_cli/out/
