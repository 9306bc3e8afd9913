#!/usr/bin/env bash
# Misuses of a verdict that the compiler must refuse, each with the error that is named below.
# .ci/misuse.txt is a right use, which must be taken; each misuse is one line of it, marked //[NAME].
# The program is compiled and run in a folder of its own, over copies of the crate game and of what it is built on; nothing is proved.
set -eu
cd "$(dirname "$0")/.."
work=$(mktemp -d)
trap 'rm -rf "$work"' EXIT

below=$(sed -n 's/^game: *//p' crates.txt)
mkdir -p "$work/crates/misuse/src"
for name in $below game; do
    # a crate of the toolchain has no folder here
    [ -d "crates/$name" ] || continue
    mkdir -p "$work/crates/$name"
    cp -r "crates/$name/src" "$work/crates/$name/"
    if [ -d "crates/$name/specs" ]; then cp -r "crates/$name/specs" "$work/crates/$name/"; fi
    grep "^$name:" crates.txt >> "$work/crates.txt"
done
echo "misuse: game $below" >> "$work/crates.txt"
git init -q "$work"

# compiles and runs the program with the line of that name put in
attempt() {
    sed "s,//\[$1\] ,," .ci/misuse.txt > "$work/crates/misuse/src/main.rt"
    (cd "$work/crates/misuse" && rt try) > "$work/log" 2>&1
}

fail() {
    echo "misuse: $1" >&2
    cat "$work/log" >&2
    exit 1
}

must_refuse() {
    grep -q "//\[$1\] " .ci/misuse.txt || { echo "misuse: .ci/misuse.txt has no line $1" >&2; exit 1; }
    if attempt "$1"; then fail "$1 was not refused"; fi
    # the errors at the misused line, and no other
    line=$(grep -n "//\[$1\] " .ci/misuse.txt | cut -d: -f1)
    errors=$(grep -o 'error\[[a-z0-9-]*\]' "$work/log" | sort -u)
    [ "$errors" = "error[$2]" ] || fail "$1 was not refused with error[$2] alone"
    grep -q "main.rt:$line:[0-9]*: error" "$work/log" || fail "$1 was not refused at its own line"
    echo "misuse: $1 is refused: error[$2]"
}

attempt none || fail "the right use was refused"
echo "misuse: the right use is taken"
must_refuse before-step borrow-e0381
must_refuse no-verdict mismatched-types
must_refuse forged private-field
must_refuse made private-item
must_refuse after-retire borrow-e0382
must_refuse retired-twice borrow-e0382
