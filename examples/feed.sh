#!/bin/sh
# A table of prices, refreshed each night from a feed by `merge`.
# Usage: examples/feed.sh [PROGRAM]; ends with 1 where the table differs from what `awk` makes of the feed.
#
# A line of the feed is `NUMBER PRICE`, or `NUMBER` where its price goes; the last line of a number counts. Each night the merge
# is killed once at a random moment, and the table is that of before or after; then it is merged again.
set -eu
# shellcheck source=examples/common.sh
. "$(dirname "$0")/common.sh"

# The table as the store has it, and whether it is one of these files.
is_one_of() {
    "$program" dump "$store" | sed -n 's/^record //p' >"$folder/found"
    for table in "$@"; do
        cmp -s "$folder/found" "$table" && return
    done
    echo "$name: not as expected in night $night"
    exit 1
}

"$program" create-paired "$store" 7
: >"$folder/before"
night=0
replies=
for seed in 3 14 15 92 65 35 89 79; do
    night=$((night + 1))
    # 1500 changes of 2000 numbers, of which one in ten takes a price away.
    awk -v seed="$seed" 'BEGIN {
        srand(seed)
        for (i = 0; i < 1500; i++) {
            n = sprintf("%06d", int(rand() * 2000))
            print (rand() < 0.1 ? n : n " " int(rand() * 10000))
        }
    }' >"$folder/feed"
    awk '{ last[$1] = $0 } END { for (n in last) print last[n] }' "$folder/feed" | sort -k1,1 |
        awk '{ print (NF > 1 ? "record " $1 " " $2 : "remove " $1) } END { print "end", NR }' >"$folder/text"
    awk 'FILENAME == ARGV[1] || NF > 1 { price[$1] = $2; next } { delete price[$1] }
        END { for (n in price) print n, price[n] }' "$folder/before" "$folder/feed" | sort >"$folder/after"
    : >"$folder/said" # a kill may come before the merge has made it empty
    "$program" merge "$store" <"$folder/text" >"$folder/said" &
    sleep "0.00$((seed % 7))"
    kill -9 $! 2>/dev/null || :
    wait $! 2>/dev/null || :
    is_one_of "$folder/before" "$folder/after"
    [ ! -s "$folder/said" ] || is_one_of "$folder/after"
    "$program" merge "$store" <"$folder/text" >"$folder/said"
    is_one_of "$folder/after"
    replies=$replies$(cut -d ' ' -f 2 "$folder/said")' '
    cp "$folder/after" "$folder/before"
done
echo "feed: $night nights, $(wc -l <"$folder/after") prices; new ones: $replies"
