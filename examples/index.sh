#!/bin/sh
# An index from the states of orders to their numbers, kept by `batch`: records and their index in one store.
# Usage: examples/index.sh [PROGRAM]; ends with 1 where table and index disagree, or differ from what `awk` makes of the moves.
#
# An order has two records, and its move from a state to another is one batch of three items:
#   record/NUMBER      its state
#   by/STATE/NUMBER    nothing: the key alone tells
# The run that moves them is killed twenty times, at random moments behind its first reply, and sent again what has none.
set -eu
# shellcheck source=examples/common.sh
. "$(dirname "$0")/common.sh"

# The table after this many moves, as lines `NUMBER/STATE`.
after() {
    awk -v moves="$1" 'NR == FNR { state[$1] = $2; next } FNR > moves { exit } { state[$1] = $3 }
        END { for (n in state) print n "/" state[n] }' "$folder/orders" "$folder/moves" | sort
}

# Opens the store, and looks whether its table and its index agree both ways.
opened() {
    printf 'range record/ record0\nrange by/ by0\n' | "$program" run "$store" >"$folder/said"
    awk '$2 ~ "^record/" { split($2, key, "/"); print key[2] "/" $3 }' "$folder/said" | sort >"$folder/table"
    awk '$2 ~ "^by/" { split($2, key, "/"); print key[3] "/" key[2] $3 }' "$folder/said" | sort >"$folder/index"
    join -v 1 -v 2 "$folder/table" "$folder/index" >"$folder/over"
    [ ! -s "$folder/over" ] || { echo "index: left over: $(awk 'NR == 1' "$folder/over")"; exit 1; }
}

# 500 orders `NUMBER STATE`, and 200000 moves of them, `NUMBER FROM TO`.
awk -v orders="$folder/orders" 'BEGIN {
    srand(17)
    states = split("new paid packed sent back", name, " ")
    for (n = 1; n <= 500; n++) { state[n] = 1; printf "%06d %s\n", n, name[1] >orders }
    for (moves = 0; moves < 200000; moves++) {
        n = int(rand() * 500) + 1
        to = (state[n] + int(rand() * (states - 1))) % states + 1
        printf "%06d %s %s\n", n, name[state[n]], name[to]
        state[n] = to
    }
}' >"$folder/moves"

"$program" create-paired "$store" 6
awk '{ print "record record/" $1, $2; print "record by/" $2 "/" $1 }' "$folder/orders" | sort |
    awk '{ print } END { print "end", NR }' | "$program" load "$store"
opened
after 0 >"$folder/expected"
differ "$folder/table" "$folder/expected" 'what was loaded'

reply='batch stored=1 replaced=1 removed=1 absent=0'
again=$reply
moved=0
made=0
counts=
for pause in $(awk 'BEGIN { srand(5); for (n = 1; n <= 20; n++) printf "%.3f ", rand() / 20 }'); do
    : >"$folder/replies"
    awk -v moved="$moved" 'NR > moved {
        print "batch put record/" $1, $3, "; remove by/" $2 "/" $1, "; put by/" $3 "/" $1
    }' "$folder/moves" | "$program" run "$store" >"$folder/replies" &
    run=$!
    until [ -s "$folder/replies" ] || ! kill -0 "$run" 2>/dev/null; do sleep 0.01; done
    sleep "$pause"
    kill -9 "$run" 2>/dev/null || :
    status=0
    wait "$run" 2>/dev/null || status=$?
    [ $status -eq 137 ] || { echo "index: the run ended with $status before it was killed"; exit 1; }

    # The first reply tells whether the batch that the last kill met was made: then it found its work done.
    awk -v again="$again" -v reply="$reply" '$0 != (NR == 1 ? again : reply)' "$folder/replies" >"$folder/others"
    [ ! -s "$folder/others" ] || { echo "index: said: $(awk 'NR == 1' "$folder/others")"; exit 1; }
    answered=$(awk 'END { print NR }' "$folder/replies")
    moved=$((moved + answered))
    counts="$counts $answered"

    # What was answered is in the store, and of what wasn't at most the next batch, wholly.
    opened
    again=$reply
    after $moved >"$folder/expected"
    if [ "$(cat "$folder/table")" != "$(cat "$folder/expected")" ]; then
        after $((moved + 1)) >"$folder/expected"
        differ "$folder/table" "$folder/expected" "the table behind a kill after $moved replies"
        again='batch stored=0 replaced=2 removed=0 absent=1'
        made=$((made + 1))
    fi
done

# The orders in a state.
echo 'range by/packed/ by/packed0' | "$program" run "$store" |
    awk '$1 == "record" { split($2, key, "/"); print key[3] $3 }' >"$folder/packed"
awk -F / '$2 == "packed" { print $1 }' "$folder/expected" >"$folder/numbers"
differ "$folder/packed" "$folder/numbers" 'the orders in a state'
echo "index: killed after$counts replies, $made times with the next batch made"
