#!/usr/bin/env bash
# How long the gate's parts take, crate by crate, in seconds of processor time: the check of the crate, the proof and run of
# its tests, and its must-fail edits. Usage: tools/gate-times.sh [CRATE..], all of crates.txt being measured where none is
# named. The last line has the sums in minutes. A part that failed has a `!`.
#
# It works on a copy of the checkout, in the order of crates.txt, so that the libraries below a crate are there. Some kits
# begin a check with what other copies on the machine kept; there times from nothing come as a user who can't read what was kept,
# or on a machine without it.
set -u
cd "$(dirname "$0")/.."
root=$PWD
copy=$(mktemp -d)
trap 'rm -rf "$copy"' EXIT
tar --exclude=out -cf - crates crates.txt HANDLES | tar -xf - -C "$copy"
cd "$copy" || exit 1

# Runs a command, and puts the seconds of processor time that it took into `spent`, with its mark in `mark`.
TIMEFORMAT='%U %S'
measure() {
    mark=''
    { time "$@" >"$copy/log" 2>&1; } 2>"$copy/time" || mark='!'
    spent=$(awk '{ printf "%d", $1 + $2 + 0.5 }' "$copy/time")
}

crates=${*:-$(sed -n 's/^\([a-z_0-9]*\).*:.*/\1/p' "$root/crates.txt")}
checks=0 proofs_of_tests=0 refusals=0
printf '%-16s %8s %8s %8s %6s\n' crate check tests edits n
for crate in $crates; do
    cd "$copy/crates/$crate" || exit 1
    measure rt check
    checks=$((checks + spent)) check=$spent$mark
    tests=-
    if grep -rqs '#\[test\]' src; then
        measure rt test
        proofs_of_tests=$((proofs_of_tests + spent)) tests=$spent$mark
    fi
    edits=-
    count=$(find must-fail -name '*.edit' 2>/dev/null | wc -l)
    if [ "$count" -gt 0 ]; then
        cd "$copy" && measure rt must-fail --anew "$crate"
        refusals=$((refusals + spent)) edits=$spent$mark
    fi
    printf '%-16s %8s %8s %8s %6s\n' "$crate" "$check" "$tests" "$edits" "$count"
done
printf '%-16s %8s %8s %8s\n' minutes $((checks / 60)) $((proofs_of_tests / 60)) $((refusals / 60))
