#!/usr/bin/env bash
# The program on real descriptors, outside the gate: closed streams, full devices, early ends, files that can't be opened, two
# processes on one file, folders that can't be synced, files that are the program's own output, signals, and where `strace` is
# installed, the calls of a put and of a create in their order, and calls that fail.
# Usage: tools/descriptors.sh [PROGRAM], the program being ./pma where none is named.
set -u
program=$(realpath "${1:-./pma}")
folder=$(mktemp -d)
trap 'rm -rf "$folder"' EXIT
cd "$folder" || exit 1
wrong=0

# Wants something to be so: what was tried, what is wanted, what came.
want_that() {
    if [ "$2" = "$3" ]; then
        printf 'ok    %s: %s\n' "$1" "$3"
    else
        printf 'WRONG %s: %s in place of %s\n' "$1" "$3" "$2"
        wrong=$((wrong + 1))
    fi
}

# Wants a status: what was tried, the status that is wanted, the one that came.
want() {
    want_that "$1" "status $2" "status $3"
}

# Wants two files to have the same bytes.
same() {
    if cmp -s "$2" "$3"; then
        printf 'ok    %s\n' "$1"
    else
        printf 'WRONG %s\n' "$1"
        wrong=$((wrong + 1))
    fi
}

# Wants a command refused as a failed disk call is: what was tried, the file, the command. It ends with 4, says nothing, and the
# file stays.
refused() {
    local what=$1 file=$2
    shift 2
    cp "$file" kept
    timeout 10 "$@" <script >said
    want "$what" 4 $?
    same "$what: nothing is said" said /dev/null
    same "$what: the file stays" "$file" kept
}

# Waits for a condition, at most ten seconds.
until_so() {
    local n
    for n in $(seq 200); do
        "$@" && return
        sleep 0.05
    done
    printf 'WRONG never so: %s\n' "$*"
    wrong=$((wrong + 1))
}

has_lines() {
    [ "$(wc -l <"$1")" -ge "$2" ]
}

# Starts a run of a store that waits for its script, with the replies in `replies`. It minds each signal, also where this
# script's own caller ignores one.
start_run() {
    rm -f lines replies
    mkfifo lines
    env --default-signal "$program" run "$1" <lines >replies &
    runner=$!
    exec 4>lines
    asked=0
}

# Sends it a line, and waits for the reply.
ask() {
    (printf '%s\n' "$1" >&4)
    asked=$((asked + 1))
    until_so has_lines replies $asked
}

# Ends its script, and wants its end: what was tried, the replies.
end_run() {
    exec 4>&-
    wait $runner
    want "$1" 0 $?
    printf "$2" >wanted
    same "$1: the replies" replies wanted
}

"$program" create s 0
printf 'put a 1\n' | "$program" run s >/dev/null
cp s before
printf 'put b 2\nget a\n' >script

"$program" run s <&- >said
want 'closed input' 5 $?
same 'closed input: the file stays' s before
same 'closed input: nothing is said' said /dev/null

"$program" run s <script >&-
want 'closed output' 6 $?
printf 'get a\nget b\n' | "$program" run s >said
printf 'found 1\nfound 2\n' >wanted
same 'closed output: the change that the reply answers is in the file' said wanted

cp before s
"$program" run s <&- >&-
want 'closed input and output' 5 $?
same 'closed input and output: the file stays' s before

"$program" run s <script >said 2>&-
want 'closed error output' 0 $?
cp before s
"$program" run s <&- >&- 2>&-
want 'all three closed' 5 $?
same 'all three closed: the file stays' s before

"$program" create made 0 <&- >&-
want 'create with closed input and output' 0 $?
"$program" create wanted_made 0
same 'create with closed input and output: the empty store' made wanted_made

"$program" run s <script >/dev/full
want 'a full device as output' 6 $?

cp before s
mkfifo pipe
"$program" run s <script >pipe &
runner=$!
exec 3<pipe
exec 3<&-
wait $runner
want 'a pipe closed early' 6 $?

"$program" run s <"$folder" >said
want 'a folder as input' 5 $?

mkdir folder
"$program" run folder <script >said
want 'a folder as the file' 4 $?
"$program" create folder 0
want 'create on a folder' 4 $?
"$program" run missing <script >said
want 'a missing file' 4 $?
"$program" create missing/s 0
want 'create in a missing folder' 4 $?

if [ "$(id -u)" = 0 ]; then
    as='setpriv --reuid=65534 --regid=65534 --clear-groups'
else
    as=''
fi
chmod 755 "$folder"
cp "$program" pma_copy
chmod 755 pma_copy
cp before locked
chmod 444 locked
$as ./pma_copy run locked <script >said
want 'no permission to write' 4 $?
same 'no permission to write: the file stays' locked before

# Two processes on one file: while a run is on, whatever names the file is refused, by each of its names, and the run goes on.
cp before s
ln s second_name
ln -s s symbolic_name
: >empty
start_run s
ask 'put b 2'
refused 'a second run' s "$program" run s
refused 'a create while a run is on' s "$program" create s 0
refused 'a run by a second name' s "$program" run second_name
refused 'a run by a symbolic link' s "$program" run symbolic_name
refused 'a create by a symbolic link' s "$program" create symbolic_name 0
cp s copy
"$program" run copy <script >said
want 'a copy of a file that is in use' 0 $?
"$program" create t 0
want 'another file than the one in use' 0 $?
ask 'get b'
ask 'put c 3'
end_run 'the first run' 'stored\nfound 2\nstored\n'
printf 'get b\nget c\n' | "$program" run s >said
printf 'found 2\nfound 3\n' >wanted
same 'the first run: its changes are in the file' said wanted

# A lock that another program holds, and one whose holder was killed.
refused 'a file that flock holds' s flock s "$program" run s
refused 'a file that flock holds shared' s flock -s s "$program" run s
refused 'create on a file that flock holds' empty flock empty "$program" create empty 0
start_run s
ask 'put d 4'
kill -s KILL $runner
{ wait $runner; } 2>/dev/null
want 'a killed run' $((128 + 9)) $?
exec 4>&-
printf 'get d\n' | "$program" run s >said
want 'a run after a killed one' 0 $?
printf 'found 4\n' >wanted
same 'a run after a killed one: what was answered is in the file' said wanted

if command -v lslocks >/dev/null; then
    start_run s
    ask 'get a'
    want_that 'who holds the lock' "$runner WRITE" "$(lslocks -n -o PID,TYPE,MODE | sed -n "s/^ *\($runner\) *FLOCK *\([A-Z]*\) *$/\1 \2/p")"
    end_run 'a run that is looked at' 'found 1\n'
fi

# A backup by flock waits for the run to end.
start_run s
ask 'put e 5'
flock s cp s backup 4>&- &
copier=$!
ask 'put e 6'
want_that 'no backup while a run is on' no "$([ -e backup ] && echo yes || echo no)"
end_run 'a run that a backup waits for' 'stored\nreplaced\n'
wait $copier
want 'a backup behind a run' 0 $?
same 'a backup behind a run: the bytes' backup s

# A name that is given to another file while a run is on: the run stays with the old one.
cp before new
ln s old
start_run s
ask 'put f 6'
mv new s
ask 'put f 7'
end_run 'a name given away' 'stored\nreplaced\n'
same 'a name given away: the new file stays' s before
printf 'get f\n' | "$program" run old >said
printf 'found 7\n' >wanted
same 'a name given away: the changes are in the old file' said wanted

# Signals, and a limit of a file's size, end a run as a crash does.
ulimit -c 0
for signal in INT TERM HUP KILL; do
    cp before s
    start_run s
    ask 'put g 7'
    kill -s $signal $runner
    { wait $runner; } 2>/dev/null
    status=$?
    want "a run that $signal ends" $((128 + $(kill -l $signal))) $status
    exec 4>&-
    printf 'get g\n' | "$program" run s >said
    printf 'found 7\n' >wanted
    same "a run that $signal ends: what was answered is in the file" said wanted
done
cp before s
{ (ulimit -f 4 && exec env --default-signal "$program" run s <script >said); } 2>/dev/null
status=$?
want 'a limit of the size of a file' $((128 + $(kill -l XFSZ))) $status
same 'a limit of the size of a file: nothing is said' said /dev/null
"$program" run s <script >said
want 'a run after that' 0 $?

# A file that is the program's own output.
cp before s
: >empty
"$program" run s <script >>s
want 'a run into its own store' 4 $?
same 'a run into its own store: the file stays' s before
"$program" run s <script 1<>s
want 'a run over its own store' 4 $?
same 'a run over its own store: the file stays' s before
cp s other
ln other same
"$program" run other <script >>same
want 'a run into its own store by a second name' 4 $?
same 'a run into its own store by a second name: the file stays' other before
"$program" create empty 0 >>empty
want 'a create into its own store' 4 $?
same 'a create into its own store: the file stays' empty /dev/null
cp before s
"$program" run s <script >s
want 'a store that the shell emptied' 4 $?
same 'a store that the shell emptied' s /dev/null
cp before s
"$program" run s <script >>t
want 'a run into another file of the folder' 0 $?
# The first files of two file systems have one inode number.
if unshare -rm true 2>/dev/null; then
    mkdir one two
    unshare -rm sh -c '
        mount -t tmpfs none one && mount -t tmpfs none two || exit 1
        cp before one/s && : >two/t || exit 1
        [ "$(stat -c %i one/s)" = "$(stat -c %i two/t)" ] || exit 1
        "$1" run one/s <script >two/t' sh "$program"
    want 'a run into a file of the same number elsewhere' 0 $?
fi

# Folders that can't be read, as another user: a file is made only in a folder that can be synced, which is that of the file
# that a link leads to.
mkdir -m 777 near far
ln -s ../far/t near/link
ln -s ../near/u far/link
cp before near/s
chmod 666 near/s
chmod 333 near
$as ./pma_copy create near/t 0 >said
want 'create in a folder that is not readable' 4 $?
same 'create in a folder that is not readable: nothing is said' said /dev/null
want_that 'create in a folder that is not readable: no byte is written' no "$(chmod 777 near; [ -s near/t ] && echo yes || echo no; chmod 333 near)"
$as ./pma_copy run near/s <script >said
want 'a run in a folder that is not readable' 0 $?
$as ./pma_copy create near/link 0
want 'create by a link out of such a folder' 0 $?
same 'create by a link: the empty store' far/t wanted_made
$as ./pma_copy create far/link 0
want 'create by a link into such a folder' 4 $?
chmod 777 near

if command -v strace >/dev/null; then
    # The calls of these words, each with the last part of its file's path.
    calls() {
        strace -f -y -o calls -e trace=flock,fsync,fdatasync,ftruncate,pwrite64,write "$@" >said <script
        sed -n 's/^[0-9 ]*\([a-z0-9]*\)([0-9]*<\([^>]*\/\)*\([^>]*\)>.*/\1 \3/p' calls | tr '\n' ';'
    }

    # The order in which a put reaches the file: the opening's sync, then table and image of the journal, the gate, the segment
    # and the gate again, each synced before what follows, and last the reply.
    cp before s
    printf 'put b 2\n' >script
    want_that 'the calls of a put' \
        'flock s;fdatasync s;pwrite64 s;pwrite64 s;fdatasync s;pwrite64 s;fdatasync s;pwrite64 s;fdatasync s;pwrite64 s;fdatasync s;write said;' \
        "$(calls "$program" run s)"

    # In a store with two journals a put writes table and image of the other journal and syncs, then the gate and syncs, and last
    # the segment, which isn't synced before the reply.
    "$program" create-paired pair 0
    want_that 'the calls of a put with two journals' \
        'flock pair;fdatasync pair;fdatasync pair;pwrite64 pair;pwrite64 pair;fdatasync pair;pwrite64 pair;fdatasync pair;pwrite64 pair;write said;' \
        "$(calls "$program" run pair | sed 's/write said;.*/write said;/')"

    # A create: the lock, the folder, the length, two writes, and the sync. The folder is synced where the file was there too.
    mkdir place
    made='ftruncate t;pwrite64 t;pwrite64 t;fdatasync t;'
    want_that 'the calls of a create' "flock t;fsync place;$made" "$(calls "$program" create place/t 0)"
    strace -f -o calls -e trace=readlink,readlinkat "$program" create place/t 0 >said
    want_that 'a create follows no path but that of a link' 0 "$(grep -c place calls)"
    : >place/t
    want_that 'the calls of a create of an empty file' "flock t;fsync place;$made" "$(calls "$program" create place/t 0)"
    rm place/t
    want_that 'the calls of a create in the folder itself' "flock t;fsync place;$made" \
        "$(cd place && ln -s ../script script && calls "$program" create t 0)"
    rm place/t
    ln -s place/t link
    want_that 'the calls of a create by a link' "flock t;fsync place;$made" "$(calls "$program" create link 0)"
    want_that 'the calls of a create of a store' 'flock t;fsync place;write said;' "$(calls "$program" create place/t 0)"

    # The lock is taken behind the clone of the descriptor, also where its number is that of a closed stream.
    strace -f -o calls -e trace=flock "$program" run s <&- >said
    want 'the lock with closed input' 5 $?
    want_that 'the lock with closed input: its descriptor' 0 "$(grep -c 'flock([012],' calls)"
    want_that 'the lock with closed input: how often' 1 "$(grep -c 'flock(' calls)"

    # Calls that fail: what was tried, the call, the file, the words.
    failing() {
        refused "$1" "$3" strace -f -o calls -e trace="$2" -e inject="$2:error=EIO" "${@:4}"
    }
    failing 'a lock that fails' flock s "$program" run s
    : >empty
    failing 'a lock of a create that fails' flock empty "$program" create empty 0
    failing "a sync of a create's folder that fails" fsync empty "$program" create empty 0

    # A create that is under way keeps others out.
    : >empty
    strace -f -o calls -e trace=fdatasync -e inject=fdatasync:delay_enter=2000000 "$program" create empty 0 &
    creator=$!
    until_so [ -s empty ]
    cp empty kept
    "$program" create empty 0
    want 'a create while a create is on' 4 $?
    "$program" run empty <script >said
    want 'a run while a create is on' 4 $?
    wait $creator
    want 'a create that others came upon' 0 $?
    same 'a create that others came upon: the empty store' empty wanted_made

    # A sync that fails, that of the gate: the run ends, and the next one serves the file, also where the pages that the system
    # kept were dropped.
    cp before s
    strace -f -o calls -e trace=fdatasync -e inject=fdatasync:error=EIO:when=3 "$program" run s <script >said
    want 'a failed sync' 4 $?
    same 'a failed sync: nothing is said' said /dev/null
    want_that 'a failed sync: none follows it' 3 "$(grep -c fdatasync calls)"
    strace -f -o calls -e trace=fadvise64 dd if=s iflag=nocache count=0 2>/dev/null
    want 'the pages of the file dropped' 0 $?
    want_that 'the pages of the file dropped: the call' 'POSIX_FADV_DONTNEED' "$(sed -n 's/.*\(POSIX_FADV_[A-Z]*\).*/\1/p' calls)"
    printf 'get a\nput b 2\nget b\n' | "$program" run s >said
    want 'a run after a failed sync' 0 $?
    sed 's/replaced/stored/' said >read
    printf 'found 1\nstored\nfound 2\n' >wanted
    same 'a run after a failed sync: the replies' read wanted
fi

printf '%s wrong\n' "$wrong"
[ "$wrong" = 0 ]
