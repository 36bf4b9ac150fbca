#!/bin/sh
# A dynamic graph: the dependencies of the installed packages, or made ones, as edges that come and go.
# Usage: examples/graph.sh [PROGRAM]; ends with 1 where the store differs from what `awk`, `sort` and `join` make of the edges.
#
# Packages are numbered, since a name may be longer than a key:
#   name/NUMBER       its name, in an upgraded store, whose values have up to 80 bytes
#   out/FROM/TO       an edge by where it begins, with its kind
#   in/TO/FROM        the same edge by where it ends
set -eu
# shellcheck source=examples/common.sh
. "$(dirname "$0")/common.sh"

# Both records of each edge `FROM TO KIND`, as lines of a script, each behind this word.
edges() {
    awk -v word="$1" '{
        kind = word == "put" ? " " $3 : ""
        printf "%s out/%s/%s%s\n%s in/%s/%s%s\n", word, $1, $2, kind, word, $2, $1, kind
    }'
}

# Runs the script of standard input, each reply of which must be this one.
all_said() {
    "$program" run "$store" >"$folder/replies"
    [ "$(sort -u "$folder/replies")" = "$1" ] || { echo "graph: a reply isn't $1"; exit 1; }
}

# Dependencies as lines `FROM TO KIND`, by names; made ones where no package is installed.
{ cat /var/lib/dpkg/status 2>/dev/null || :; } | awk '
    $1 == "Package:" { from = $2 }
    $1 == "Depends:" || $1 == "Pre-Depends:" || $1 == "Recommends:" {
        kind = tolower(substr($1, 1, length($1) - 1))
        sub(/^[^ ]* /, ""); gsub(/\([^)]*\)|:any|\[[^]]*\]/, ""); gsub(/[|,]/, " ")
        for (n = split($0, to, " "); n; n--) if (!seen[from, to[n]]++) { print from, to[n], kind; some = 1 }
    }
    END {
        for (n = 2; n <= 600 && !some; n++) {
            print "made" n, "made" int(n / 2), "depends"
            if (n % 7 == 0) print "made" int(n / 3), "made" n, "recommends"
        }
    }
' | awk 'NR <= 3000' >"$folder/named"
awk '{ print $1; print $2 }' "$folder/named" | sort -u | awk '{ printf "%s %05d\n", $1, NR }' >"$folder/numbers"
awk 'NR == FNR { number[$1] = $2; next } { print number[$1], number[$2], $3 }' \
    "$folder/numbers" "$folder/named" >"$folder/edges"

"$program" create-paired "$store" 9
"$program" upgrade "$store"
awk '{ print "put name/" $2, $1 }' "$folder/numbers" | all_said stored
edges put <"$folder/edges" | all_said stored

# Edges come and go: each fifth is removed, and every end of a chain of two becomes an edge of its own, up to 300 of them.
awk 'NR % 5 == 0' "$folder/edges" | sort -k2,2 >"$folder/gone"
awk 'NR % 5' "$folder/edges" >"$folder/stayed"
awk '{ print $2, $1 }' "$folder/stayed" | sort >"$folder/by_end"
sort "$folder/stayed" | join -o 1.2,2.2 "$folder/by_end" - | awk '
    NR == FNR { is[$1, $2] = 1; next }
    $1 != $2 && !is[$1, $2]++ && ++n <= 300 { print $1, $2, "through" }
' "$folder/stayed" - >"$folder/new"
cat "$folder/stayed" "$folder/new" >"$folder/now"

# A cursor walks over all edges meanwhile: a step behind each change, and then to the end, since there are at most 3300.
{
    echo 'open walk out/ out0'
    { edges remove <"$folder/gone"; edges put <"$folder/new"; } | awk '{ print; print "next walk" }'
    awk 'BEGIN { for (n = 0; n <= 3300; n++) print "next walk" }'
} | "$program" run "$store" >"$folder/replies"
awk '$1 != "record"' "$folder/replies" | sort -u >"$folder/others"
printf '%s\n' end 'no cursor' opened removed stored >"$folder/expected"
differ "$folder/others" "$folder/expected" 'the replies to changes and steps'

# It gives each edge that stayed once, in order, and else none but those that came or went.
awk '$1 == "record" { split($2, key, "/"); print key[2], key[3], $3 }' "$folder/replies" >"$folder/walked"
sort -u "$folder/walked" >"$folder/expected"
differ "$folder/walked" "$folder/expected" 'the order of a walk'
cat "$folder/gone" "$folder/new" |
    awk 'NR == FNR { other[$0] = 1; next } !other[$0]' - "$folder/walked" >"$folder/kept"
sort "$folder/stayed" >"$folder/expected"
differ "$folder/kept" "$folder/expected" 'the edges that stayed, in a walk'

# Neighbours of a package both ways: of the one with the most edges. `0` is the byte behind `/`.
most=$(awk '{ n[$1]++; n[$2]++ } END { for (p in n) print n[p], p }' "$folder/now" |
    sort -k1,1nr -k2,2 | awk 'NR == 1 { print $2 }')
printf 'range out/%s/ out/%s0\nrange in/%s/ in/%s0\n' "$most" "$most" "$most" "$most" | "$program" run "$store" |
    awk '$1 == "record" { split($2, key, "/"); print key[1], key[3], $3 }' >"$folder/neighbours"
awk -v p="$most" '$1 == p { print "out", $2, $3 } $2 == p { print "in", $1, $3 }' "$folder/now" |
    sort -k1,1r -k2,2 >"$folder/expected"
differ "$folder/neighbours" "$folder/expected" 'the neighbours'

# All that is reached from a package: ranges of all that is new, round by round, in one run each.
first=$(awk 'NR == 1 { print $1 }' "$folder/now")
echo "$first" >"$folder/reached"
cp "$folder/reached" "$folder/fresh"
while [ -s "$folder/fresh" ]; do
    awk '{ print "range out/" $1 "/ out/" $1 "0" }' "$folder/fresh" | "$program" run "$store" |
        awk '$1 == "record" { split($2, key, "/"); print key[3] }' | sort -u >"$folder/seen"
    join -v 1 "$folder/seen" "$folder/reached" >"$folder/fresh"
    sort -o "$folder/reached" "$folder/reached" "$folder/fresh"
done
awk -v first="$first" '{ from[NR] = $1; to[NR] = $2 } END { is[first] = 1
    for (more = 1; more;) { more = 0; for (n = 1; n <= NR; n++) if (is[from[n]] && !is[to[n]]) more = is[to[n]] = 1 }
    for (p in is) if (is[p]) print p }' "$folder/now" | sort >"$folder/expected"
differ "$folder/reached" "$folder/expected" 'what is reached'

# The whole store, beside the list of edges and names: edges both ways, each once.
echo 'range * *' | "$program" run "$store" | awk '$1 == "record" { print $2, $3 }' >"$folder/all"
{ edges put <"$folder/now" | awk '{ print $2, $3 }'; awk '{ print "name/" $2, $1 }' "$folder/numbers"; } |
    sort >"$folder/expected"
differ "$folder/all" "$folder/expected" 'the store'
for file in now walked neighbours reached; do awk -v what="$file" 'END { print "graph: " NR " " what }' "$folder/$file"; done
