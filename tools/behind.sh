#!/bin/sh
# Changes one record of each example's store behind its back, just before it looks: the first record of the first range, or of the
# cursor, of its nth look, or of the store where that is empty, gets another value or is removed. Ends with 1 where an example doesn't
# end with 1 then.
# Usage: tools/behind.sh [PROGRAM]
set -u
tools=$(dirname "$(realpath "$0")")
BEHIND_PROGRAM=$(realpath "${1:-./pma}")
BEHIND_FOLDER=$(mktemp -d)
export BEHIND_PROGRAM BEHIND_FOLDER BEHIND_TURN BEHIND_WAY
trap 'rm -rf "$BEHIND_FOLDER"' EXIT

cat >"$BEHIND_FOLDER/pma" <<'END'
#!/bin/sh
[ "$1" = run ] || exec "$BEHIND_PROGRAM" "$@"
cat >"$BEHIND_FOLDER/script"
read -r word low high more <"$BEHIND_FOLDER/script"
if [ "$word" = open ]; then
    low=$high
    high=$more
fi
if [ "$word" = range ] || [ "$word" = open ]; then
    echo >>"$BEHIND_FOLDER/ranges"
    if [ "$(wc -l <"$BEHIND_FOLDER/ranges")" -eq "$BEHIND_TURN" ]; then
        key=$(printf 'range %s %s 1\nrange * * 1\n' "$low" "$high" | "$BEHIND_PROGRAM" run "$2" |
            awk '$1 == "record" { print $2; exit }')
        case $BEHIND_WAY in
            changed) echo "put $key behind" ;;
            removed) echo "remove $key" ;;
        esac | "$BEHIND_PROGRAM" run "$2" >/dev/null
    fi
fi
exec "$BEHIND_PROGRAM" run "$2" <"$BEHIND_FOLDER/script"
END
chmod +x "$BEHIND_FOLDER/pma"

# Tries the example with a change before look BEHIND_TURN; 1 where it looks less often.
tried() {
    : >"$BEHIND_FOLDER/ranges"
    "$1" "$BEHIND_FOLDER/pma" >"$BEHIND_FOLDER/said"
    status=$?
    [ "$(wc -l <"$BEHIND_FOLDER/ranges")" -ge "$BEHIND_TURN" ] || return 1
    echo "$(basename "$1"): $BEHIND_WAY before look $BEHIND_TURN: $status: $(tail -n 1 "$BEHIND_FOLDER/said")"
    [ $status -eq 1 ] || failed=1
}

failed=0
for example in "$tools"/../examples/table.sh "$tools"/../examples/index.sh "$tools"/../examples/graph.sh; do
    for BEHIND_WAY in changed removed; do
        BEHIND_TURN=1
        while tried "$example"; do
            BEHIND_TURN=$((BEHIND_TURN + 1))
        done
    done
done
exit $failed
