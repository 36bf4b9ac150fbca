# shellcheck shell=sh disable=SC2034
# How each of the worked uses begins: its name, the program, a folder that goes at the end, and a store in it.
export LC_ALL=C
name=$(basename "$0" .sh)
program=${1:-./pma}
folder=$(mktemp -d)
trap 'rm -rf "$folder"' EXIT
store=$folder/$name.pma

# Ends the use where these two files differ in what this word names.
differ() {
    [ "$(cat "$1")" = "$(cat "$2")" ] || { echo "$name: not as expected: $3"; exit 1; }
}
