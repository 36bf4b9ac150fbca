#!/usr/bin/env bash
# Refused memory: runs each form of words with its first allocation refused, with its second, and so on, until a run makes them
# all. Each run before that must end with status 7 and say nothing. The toolchain's checked build runs them, one build for each
# number, so this is outside the gate and takes ten minutes. Usage: tools/faults.sh PROGRAM, which makes the stores that are opened.
set -eu
program=$(realpath "$1")
folder=$(mktemp -d)
trap 'rm -rf "$folder"' EXIT
cd "$(dirname "$0")/../crates/pma_cli"
mkdir "$folder/cases"
script='put a 1\nget a\nbatch put b ; remove a\nopen x * *\nnext x\nrange * *\ncost\ncheck\n'

"$program" create "$folder/plain.pma" 2
"$program" create "$folder/empty.pma" 2
"$program" create-indexed "$folder/indexed.pma" 2
"$program" create-paired "$folder/paired.pma" 2
"$program" create-paired "$folder/empty_pair.pma" 2
for store in plain indexed paired; do
    printf 'put c 3\nput d\n' | "$program" run "$folder/$store.pma" >"$folder/said"
done

# A form of words: its name, its standard input, the words.
form() {
    local name=$1
    # shellcheck disable=SC2059
    printf "$2" >"$folder/cases/$name"
    shift 2
    printf '%s\n' "$@" >"$folder/cases/$name.args"
}

# What came of a form: the lines that it said, and then its status, or else how it ended.
came() {
    awk -v name="$1" '/^== / { on = $0 == "== " name; next } on && !/^allocations: /' "$folder/said"
    sed -n "s/^case=$1 run=ended status=\([0-9]*\) .*/\1/p; t; s/^case=$1 //p" "$folder/log"
}

form gen '' gen 10 1
form create '' create new.pma 2
form create-indexed '' create-indexed new.pma 2
form create-paired '' create-paired new.pma 2
form run "$script" run plain.pma
form run-of-an-indexed-store "$script" run indexed.pma
form quick "$script" quick indexed.pma
form run-of-a-pair "$script" run paired.pma
form quick-of-a-pair "$script" quick paired.pma
form load 'record a 1\nrecord b\nend 2\n' load empty.pma
form load-into-a-pair 'record a 1\nrecord b\nend 2\n' load empty_pair.pma
form merge 'record b 2\nremove c\nend 2\n' merge plain.pma
form merge-into-a-pair 'record b 2\nremove c\nend 2\n' merge paired.pma
form dump '' dump indexed.pma
form upgrade '' upgrade indexed.pma
form upgrade-of-a-pair '' upgrade paired.pma

stores=()
for store in plain empty indexed paired empty_pair; do
    stores+=(--data "$store.pma=$folder/$store.pma")
done
for n in $(seq 1 64); do
    rt try --fail-alloc "$n" "${stores[@]}" --cases "$folder/cases" -- >"$folder/said" 2>"$folder/log" || true
    for words in "$folder"/cases/*.args; do
        name=$(basename "$words" .args)
        case $(came "$name") in
            7) ;;
            0 | *[[:space:]]0)
                echo "$name: $((n - 1)) allocations, each refused with status 7"
                rm "$words" "$folder/cases/$name"
                ;;
            *)
                echo "$name: allocation $n refused: $(came "$name" | tail -n 5)"
                tail -n 5 "$folder/log"
                exit 1
                ;;
        esac
    done
    [ -n "$(ls "$folder/cases")" ] || exit 0
done
echo 'more than 64 allocations'
exit 1
