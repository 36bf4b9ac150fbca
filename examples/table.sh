#!/bin/sh
# A sorted table scanned by ranges: readings by place and time, put in any order.
# Usage: examples/table.sh [PROGRAM]; ends with 1 where the store and `sort` and `awk` disagree.
#
# A reading is a record with the key at/PLACE/TIME.
set -eu
# shellcheck source=examples/common.sh
. "$(dirname "$0")/common.sh"

# The record of each reading `PLACE TIME VALUE`, as a line of a script behind this word.
records() {
    awk -v word="$1" '{ printf "%s at/%s/%010.0f%s\n", word, $1, $2, word == "put" ? " " $3 : "" }'
}

# The whole store is the records of these readings, and no others.
whole() {
    echo 'range * *' | "$program" run "$store" | awk '$1 == "record" { print $2, $3 }' >"$folder/all"
    records put <"$1" | awk '{ print $2, $3 }' | sort >"$folder/expected"
    differ "$folder/all" "$folder/expected" 'the whole store'
}

# 3000 readings of five places, a reading a minute or so, in no order of time.
awk 'BEGIN {
    split("bergen oslo skien tromso voss", places, " ")
    for (n = 1; n <= 3000; n++) {
        place = (n * 7919) % 5 + 1
        printf "%s %.0f %.1f\n", places[place], 1700000000 + (n * 2741) % 3001 * 60 + place, (n * 31) % 400 / 10
    }
}' >"$folder/readings"

"$program" create-paired "$store" 8
records put <"$folder/readings" | "$program" run "$store" >"$folder/replies"
[ "$(sort -u "$folder/replies")" = stored ] || { echo 'table: not all were stored'; exit 1; }
whole "$folder/readings"

# A window of time at one place: from a time on and below another.
echo 'range at/oslo/1700060000 at/oslo/1700090000' | "$program" run "$store" |
    awk '$1 == "record" { split($2, key, "/"); print key[2], key[3], $3 }' >"$folder/window"
awk '$1 == "oslo" && $2 >= 1700060000 && $2 < 1700090000' "$folder/readings" | sort -k2,2n >"$folder/expected"
differ "$folder/window" "$folder/expected" 'a window'

# The newest ten of a place, newest first. `0` is the byte behind `/`: below it are all keys that begin with `at/oslo/`.
{
    echo 'open newest at/oslo/ at/oslo0'
    for step in 1 2 3 4 5 6 7 8 9 10; do
        echo 'prev newest'
    done
} | "$program" run "$store" | awk '$1 == "record" { split($2, key, "/"); print key[2], key[3], $3 }' >"$folder/newest"
awk '$1 == "oslo"' "$folder/readings" | sort -k2,2nr | awk 'NR <= 10' >"$folder/expected"
differ "$folder/newest" "$folder/expected" 'the newest'

# Readings from before a time go: the lines of ranges, turned into lines that remove them.
for place in bergen oslo skien tromso voss; do
    echo "range at/$place/ at/$place/1700100000"
done | "$program" run "$store" | awk '$1 == "record" { split($2, key, "/"); print key[2], key[3], $3 }' >"$folder/old"
awk '$2 < 1700100000' "$folder/readings" | sort -k1,1 -k2,2n >"$folder/expected"
differ "$folder/old" "$folder/expected" 'what is old'
records remove <"$folder/old" | "$program" run "$store" >"$folder/replies"
[ "$(sort -u "$folder/replies")" = removed ] || { echo 'table: not all were removed'; exit 1; }

awk '$2 >= 1700100000' "$folder/readings" >"$folder/left"
whole "$folder/left"
echo "table: $(awk 'END { print NR }' "$folder/window") in the window, $(awk 'END { print NR }' "$folder/left") readings left"
