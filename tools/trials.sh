#!/usr/bin/env bash
# The wrong bodies of trials/, which are too many for the gate: copies trials/CRATE/*.edit into a copy of the checkout, there in the
# place of the crate's own edits, and runs `rt must-fail` on it, which wants each of them refused.
# Usage: tools/trials.sh [CRATE..], all crates with trials where none is named. It begins with what `make` kept.
set -eu
cd "$(dirname "$0")/.."
crates=${*:-$(find trials -mindepth 2 -maxdepth 2 -name '*.edit' -printf '%h\n' | sed 's/.*\///' | sort -u)}
[ -n "$crates" ] || { echo 'no trials'; exit 0; }
copy=$(mktemp -d)
trap 'rm -rf "$copy"' EXIT
tar --exclude=out --exclude=must-fail -cf - crates crates.txt HANDLES | tar -xf - -C "$copy"

# Gives the copy a folder that was kept, by links where these can be made: such files are replaced and never changed.
keep() {
    [ -d "$1" ] || return 0
    mkdir -p "$copy/$(dirname "$1")"
    cp -al "$1" "$copy/$1" 2>/dev/null || { rm -rf "${copy:?}/$1" && cp -a "$1" "$copy/$1"; }
}
for kept in crates/*/out/rlib; do
    keep "$kept"
done
for crate in $crates; do
    mkdir "$copy/crates/$crate/must-fail"
    cp "trials/$crate"/*.edit "$copy/crates/$crate/must-fail/"
    if [ -d "crates/$crate/out/incremental" ]; then
        mkdir -p "$copy/crates/$crate/out"
        cp -a "crates/$crate/out/incremental" "$copy/crates/$crate/out/incremental"
    fi
done
cd "$copy"
# shellcheck disable=SC2086
rt must-fail $crates
