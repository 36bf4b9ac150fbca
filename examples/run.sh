#!/bin/sh
# Runs each worked use on PROGRAM, and the two clients where `python3` and a C compiler are there; ends with 1 where one
# fails. Usage: examples/run.sh [PROGRAM]
set -u
examples=$(dirname "$0")
program=${1:-./pma}
# Stores in memory where there is room for them: on a slow disk thousands of synced updates take minutes.
[ -n "${TMPDIR:-}" ] || { [ -w /dev/shm ] && export TMPDIR=/dev/shm; }
folder=$(mktemp -d)
trap 'rm -rf "$folder"' EXIT
failed=0

tried() {
    name=$1
    shift
    if "$@"; then echo "$name: done"; else
        echo "$name: failed"
        failed=1
    fi
}

tried table "$examples/table.sh" "$program"
tried index "$examples/index.sh" "$program"
tried graph "$examples/graph.sh" "$program"
tried feed "$examples/feed.sh" "$program"

if command -v python3 >/dev/null; then
    tried client.py python3 -B "$examples/client.py" "$program" "$folder/python.pma"
else
    echo "client.py: left out, since python3 isn't there"
fi
if command -v "${CC:-cc}" >/dev/null; then
    client=$examples/../clients/c
    "${CC:-cc}" -O2 -I "$client" -o "$folder/client" "$examples/client.c" "$client/pma.c" || failed=1
    tried client.c "$folder/client" "$program" "$folder/c.pma"
else
    echo "client.c: left out, since ${CC:-cc} isn't there"
fi
exit $failed
