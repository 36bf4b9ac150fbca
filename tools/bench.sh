#!/usr/bin/env bash
# Processor time of get, absent get, put of a present and of an absent key, beside a loop of the same system calls; that of a
# scan of a million records beside `cat` of the file; and, where `valgrind` and `strace` are installed, instructions and system
# calls, which are the same on every machine, beside those of the program before it had records of 40 and 80 bytes.
# Usage: tools/bench.sh [PROGRAM [COMMANDS]], outside the gate.
set -eu
tools=$(dirname "$(realpath "$0")")
program=$(realpath "${1:-./pma}")
commands=${2:-200000}
folder=$(mktemp -d -p "$([ -w /dev/shm ] && echo /dev/shm || echo /tmp)")
trap 'rm -rf "$folder"' EXIT
${CC:-cc} -O2 -o "$folder/bench" "$tools/bench.c"
"$folder/bench" "$program" "$folder" "$commands"

# The processor time of a command, user and system, the least of three runs; its output goes to the file named first.
TIMEFORMAT='%U %S'
least() {
    local to=$1 n
    shift
    for n in 1 2 3; do
        { time "$@" >"$to"; } 2>&1
    done | awk '{ t = $1 + $2; if (NR == 1 || t < m) m = t } END { printf "%.3f", m }'
}

scan() {
    echo 'range * *' | "$program" run "$folder/many.pma"
}

records=1000000
"$program" create "$folder/many.pma" 15 4
seq -f 'put key-%07.0f value-of-some-bytes' 1 $records | "$program" run "$folder/many.pma" >/dev/null
echo
printf '%-30s %9s %12s\n' "$records records" 'to a file' 'to /dev/null'
printf '%-30s %7s s %10s s\n' 'range * *' "$(least "$folder/scan" scan)" "$(least /dev/null scan)"
printf '%-30s %7s s %10s s\n' 'cat of the file' "$(least "$folder/scan" cat "$folder/many.pma")" "$(least /dev/null cat "$folder/many.pma")"
rm -f "$folder/scan"

store=$folder/store.pma many=$folder/many.pma pair=$folder/pair.pma script=$folder/script
"$program" create-paired "$pair" 6
seq -f 'put key-%02.0f value-of-some-bytes' 1 99 | "$program" run "$pair" >/dev/null

# The instructions that the program executes on a store and the script.
instructions() {
    valgrind --tool=callgrind --callgrind-out-file=/dev/null "$program" run "$1" <"$script" 2>&1 >/dev/null |
        sed -n 's/.*Collected : \([0-9]*\).*/\1/p'
}

# The system calls of these names that it makes.
calls() {
    strace -f -qq -e trace="$2" -e signal=none -o "$folder/calls" "$program" run "$1" <"$script" >/dev/null
    wc -l <"$folder/calls"
}

# What a way of counting finds for the lines of a file, each of them, without what it finds where there is none.
each() {
    local lines=$1 with
    shift
    cp "$lines" "$script"
    with=$("$@")
    : >"$script"
    echo $(((with - $("$@") + $(wc -l <"$lines") / 2) / $(wc -l <"$lines")))
}

# A file with a line that many times.
many_of() {
    yes "$1" | head -n 1000 >"$folder/lines"
    echo "$folder/lines"
}

count() {
    printf '%-50s %10s %10s\n' "$@"
}

echo 'range * *' >"$folder/all"
seq -f 'range key-%07.0f * 100' 1 997 $((records - 100)) >"$folder/hundreds"
if command -v valgrind >/dev/null; then
    echo
    count 'instructions' now before
    count 'get of a present key' "$(each "$(many_of 'get key-07')" instructions "$store")" 13295
    count 'get of an absent key' "$(each "$(many_of 'get kez-07')" instructions "$store")" 13084
    count 'put of a present key' "$(each "$(many_of 'put key-07 value-of-some-bytes')" instructions "$store")" 15246
    count 'range of 10' "$(each "$(many_of 'range key-07 * 10')" instructions "$store")" -
    count "a record of a scan of $records, no opening" "$(($(each "$folder/all" instructions "$many") / records))" 489
    : >"$script"
    count "opening a store of $records" "$(instructions "$many")" -
fi
if command -v strace >/dev/null; then
    echo
    count 'system calls' now before
    count 'get of a present key' "$(each "$(many_of 'get key-07')" calls "$store" all)" 2
    count 'put of a present key' "$(each "$(many_of 'put key-07 value-of-some-bytes')" calls "$store" all)" 11
    count 'the same, two journals' "$(each "$(many_of 'put key-07 value-of-some-bytes')" calls "$pair" all)" -
    count 'its syncs' "$(each "$(many_of 'put key-07 value-of-some-bytes')" calls "$store" fdatasync)" 4
    count 'its syncs, two journals' "$(each "$(many_of 'put key-07 value-of-some-bytes')" calls "$pair" fdatasync)" -
    count 'range of 100, 30 records a segment' "$(each "$folder/hundreds" calls "$many" all)" 10
    count "reads of a scan of $records" "$(each "$folder/all" calls "$many" pread64)" 32768
    count 'its writes' "$(each "$folder/all" calls "$many" write)" 32768
    : >"$script"
    count "reads of opening a store of $records" "$(calls "$many" pread64)" 32768
fi
