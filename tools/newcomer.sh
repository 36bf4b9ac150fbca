#!/usr/bin/env bash
# What a stranger would do, as a user who isn't root, with an empty home, in a fresh clone of what is committed: makes the program,
# takes the parts below, cleans, and looks whether anything is left. Ends with 1 where a step failed.
# use:      tries the demo and the documents' examples, installs it in a folder of its own, reads the page, runs it and uninstalls.
# outside:  what is outside the gate, but for the trials.
# trials:   `make trials`.
# gate:     `make check`, behind the cleaning and so from nothing.
# On four processors of 2.5 GHz the program takes half an hour, use some two minutes, outside a quarter of an hour, the gate an
# hour and a quarter; trials take an hour and a half by a count of their parts.
# Usage: tools/newcomer.sh [PART..], all four where none is named.
set -u
cd "$(dirname "$0")/.."
parts=${*:-use outside trials gate}
for part in $parts; do
    case $part in use | outside | trials | gate) ;; *) sed -n 's/^# Usage/Usage/p' tools/newcomer.sh >&2 && exit 2 ;; esac
done
folder=$(mktemp -d)
trap 'rm -rf "$folder"' EXIT
git clone -q . "$folder/pma" || exit 1
mkdir "$folder/home" "$folder/prefix"
as=(env -i "HOME=$folder/home" "PATH=$(dirname "$(command -v rt)"):/usr/local/bin:/usr/bin:/bin" LANG=C.UTF-8)
if [ "$(id -u)" = 0 ]; then
    chmod 755 "$folder"
    chown -R 65534:65534 "$folder"
    as=(setpriv --reuid=65534 --regid=65534 --clear-groups "${as[@]}")
fi
failed=0

# One step in the clone: what it is, and the command.
step() {
    local what=$1 start=$SECONDS
    shift
    if (cd "$folder/pma" && exec "${as[@]}" "$@") >"$folder/log" 2>&1 </dev/null; then
        printf 'ok    %s: %s s\n' "$what" $((SECONDS - start))
    else
        printf 'WRONG %s: status %s; what it said to be wrong, and its end:\n' "$what" $?
        grep WRONG "$folder/log"
        tail -n 20 "$folder/log"
        failed=1
    fi
}

# One step in shell words, in which $1 is the folder that it is installed in.
step_of() {
    step "$1" sh -c "$2" sh "$folder/prefix"
}

# Whether a part is wanted.
wanted() {
    case " $parts " in *" $1 "*) ;; *) return 1 ;; esac
}

step 'make' make
if wanted use; then
    step 'make demo' make demo
    step 'make doc-examples' make doc-examples
    step 'make clients' make clients
    step 'make install' make install "PREFIX=$folder/prefix"
    if command -v man >/dev/null; then
        step_of 'the page, without a warning' \
            'MANROFFSEQ= MANWIDTH=80 man --warnings -E UTF-8 -l -Tutf8 -Z "$1/share/man/man1/pma.1" 2>&1 >/dev/null | { ! grep .; }'
    fi
    step_of 'manual and format' 'cmp docs/MANUAL.md "$1/share/doc/pma/MANUAL.md" && cmp docs/FORMAT.md "$1/share/doc/pma/FORMAT.md"'
    step_of 'the installed program' 'cd "$HOME" && "$1/bin/pma" create s.pma 0 &&
        [ "$(printf "put a 1\nget a\n" | "$1/bin/pma" run s.pma | tr "\n" " ")" = "stored found 1 " ]'
    step 'make uninstall' make uninstall "PREFIX=$folder/prefix"
    step_of 'no file is left' 'find "$1" ! -type d | { ! grep .; }'
fi
if wanted outside; then
    step 'tools/descriptors.sh' tools/descriptors.sh
    step 'make faults' make faults
    step 'make examples' make examples
    step 'make doc-names' make doc-names
    step 'tools/said-twice.py' tools/said-twice.py
fi
if wanted trials; then
    step 'make trials' make trials
fi
step 'make clean' make clean
step_of 'the clone is clean' 'git status --ignored --porcelain | { ! grep .; }'
if wanted gate; then
    step 'make check' make check
fi
exit $failed
