#!/usr/bin/env bash
# A token can't be used once it is gone: each function of tools/misuse/*.refused uses one after the call that took it, and must
# be refused as a use of what was moved. The function of used_once.good doesn't, and must not be refused for that.
set -u
top=$(cd "$(dirname "$0")/.." && pwd)
work=$(mktemp -d)
trap 'rm -rf "$work"' EXIT
mkdir "$work/crates"
for crate in zr_kinds area_layout board_face; do
    mkdir "$work/crates/$crate"
    cp -r "$top/crates/$crate/src" "$top/crates/$crate/specs" "$top/crates/$crate/proofs" "$work/crates/$crate/"
done
grep -E '^(zr_kinds|area_layout|board_face):' "$top/crates.txt" > "$work/crates.txt"
cp "$top/HANDLES" "$work/"
printf '\n#[cfg(test)]\nmod tests;\n' >> "$work/crates/board_face/src/lib.rt"

# What is said of the crate with these functions as its tests, with no proof.
said_with() {
    cat "$top/tools/misuse/imports" "$1" > "$work/crates/board_face/src/tests.rt"
    (cd "$work/crates/board_face" && rt check --only "" --test 2>&1)
}

status=0
for file in "$top"/tools/misuse/*.refused; do
    if said_with "$file" | grep -q 'use of moved value\|borrow of moved value'; then
        echo "misuse: $(basename "$file" .refused): refused, as it must be"
    else
        echo "misuse: $(basename "$file" .refused): NOT refused"
        status=1
    fi
done
said=$(said_with "$top/tools/misuse/used_once.good")
if grep -qw 'error' <<< "$said"; then
    echo "misuse: used_once: refused, and must not be"
    grep -w 'error' <<< "$said"
    status=1
else
    echo "misuse: used_once: not refused, as it must be"
fi
exit $status
