#!/bin/sh
# Tries the clients on PROGRAM, the Python one where `python3` is there and the C one where a C compiler is; ends with 1 where one
# fails. Usage: clients/run.sh [PROGRAM]
set -u
clients=$(dirname "$0")
program=$(realpath "${1:-./pma}")
compiler=${CC:-cc}
failed=0

if command -v python3 >/dev/null; then
    PMA=$program python3 -B -W error::ResourceWarning -m unittest discover -s "$clients/python/tests" || failed=1
else
    echo "the Python client: left out, since python3 isn't there"
fi

sanitized() {
    echo 'int main(void) { return 0; }' | "$compiler" -x c -fsanitize=address,undefined -o /dev/null - 2>/dev/null
}

if command -v "$compiler" >/dev/null; then
    sanitized || echo "the C client: tried without sanitizers, which $compiler hasn't"
    make -s -C "$clients/c" test CC="$compiler" PROGRAM="$program" $(sanitized || echo CHECKED=-g) || failed=1
else
    echo "the C client: left out, since $compiler isn't there"
fi
[ $failed -eq 0 ] && echo "clients: done" || echo "clients: failed"
exit $failed
