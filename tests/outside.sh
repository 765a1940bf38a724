#!/bin/sh
# Tries the built program on a real folder and real streams: what it answers, what it writes and what it leaves.
#
# Run: tests/outside.sh [PROGRAM]
# Without a path of the program it is the one of this checkout, which is built first. It prints one line a case, and
# ends with status 1 if any failed. It wants python3, and skips a case that wants what this machine or this user
# doesn't have.
#
# What is expected comes from the description of the program and of the files' formats, never from what it printed:
# tests/outside.py says how.
set -u
export PYTHONDONTWRITEBYTECODE=1 # nothing is left beside the scripts
top=$(cd "$(dirname "$0")/.." && pwd)
program=${1:-$top/crates/hudi_cli/out/hudi_cli}
log=x/.0000ffff-4f01-52df-a6be-557d177dca72-0_20000101000000000.log.1_0-0-0
most=67108864
usage='usage: hudi DIR run LANES'

if ! command -v python3 >/dev/null; then
    echo "skipped: no python3"
    exit 0
fi
if [ $# -gt 0 ]; then
    program=$(cd "$(dirname "$program")" && pwd)/$(basename "$program")
elif [ ! -x "$program" ] && ! command -v rt >/dev/null; then
    echo "skipped: no built program and no rt"
    exit 0
else
    "$top/hudi" >/dev/null || [ $? -eq 2 ] || exit 1 # builds it
fi

work=$(mktemp -d)
mounted=
finish() {
    [ -z "$mounted" ] || umount "$mounted"
    rm -rf "$work"
}
trap finish EXIT
trap 'exit 1' HUP INT TERM
cd "$work" || exit 1
failed=0

look() {
    python3 "$top/tests/outside.py" "$@"
}

milliseconds() {
    python3 -c 'import time; print(time.time_ns() // 1000000)'
}

# Runs the program on a script and a folder. It leaves the text in `out` and the status in `status`.
run() {
    status=0
    "$program" "$2" run 1 <"$1" >out 2>err || status=$?
}

# Ends a case: NAME, the expected status, the expected text without its last line feed (or `-` for a text that the check
# looks at), and a check, which is a command that says what is wrong or, where all is well, what is worth telling.
expect() {
    name=$1 wanted=$2 text=$3
    shift 3
    [ -z "$text" ] || [ "$text" = - ] || printf '%s\n' "$text" >wanted
    [ -n "$text" ] || : >wanted
    if [ "$status" -ne "$wanted" ]; then
        bad "status $status, not $wanted"
    elif [ "$text" != - ] && ! cmp -s wanted out; then
        bad "text $(head -c 100 out)"
    elif ! told=$("$@" 2>&1); then
        bad "$told"
    else
        echo "ok      $name${told:+: $told}"
    fi
}

bad() {
    echo "FAILED  $name: $1"
    failed=1
}

skip() {
    echo "skipped $1: $2"
}

# Checks.
nothing_at() {
    [ ! -e "$1" ] || ! echo "$1 is there"
}
no_file_below() {
    found=$(find "$1" ! -type d)
    [ -z "$found" ] || ! echo "there is $found"
}
same_files() {
    cmp "$1" "$2"
}
sums() {
    find "$1" -type f -exec cksum {} + | sort
}
has_size() {
    found=$(wc -c <"$1")
    [ "$found" -eq "$2" ] || ! echo "$found bytes, not $2"
}
has_block_at() { # FILE BYTES, from the end
    [ "$(tail -c "$2" "$1" | head -c 6)" = '#HUDI#' ] || ! echo "no block"
}
has_lines() { # COUNT TEXT FILE
    found=$(grep -c "$2" "$3")
    [ "$found" -eq "$1" ] || ! echo "$found lines, not $1"
}

# --- Scripts that run

init='{"job":"init","name":"t","schema":{"type":"record","name":"r","fields":[{"name":"id","type":"string"},'\
'{"name":"p","type":"string"},{"name":"v","type":"long"}]},"key":"id","partition":"p","ordering":"v","buckets":1}'
made='1 init made'
none='2 snapshot rows none []
mark 1 2 pin pinned 0 1
mark 1 2 unpin done 1 0'

{
    printf '%s\n' "$init"
    cat <<'END'
{"job":"upsert","rows":[{"id":"a","p":"x","v":5},{"id":"b","p":"x","v":1}]}
{"job":"upsert","rows":[{"id":"a","p":"x","v":3},{"id":"b","p":"x","v":1}]}
{"job":"delete","keys":[{"partition":"x","key":"a","rank":4}]}
{"job":"snapshot"}
END
} >worked

ran() { # SCRIPT FOLDER NAME
    from=$(milliseconds)
    run "$1" "$2"
    to=$(milliseconds)
    expect "$3" 0 - look ran "$1" out "$2" "$from" "$to"
}

ran worked worked.d "a good script"
expect "a good script: the log ends in a delete block of 92 bytes" 0 - has_block_at "worked.d/$log" 92
cp "worked.d/$log" before
run worked worked.d
expect "the same script again in the same folder" 9 'table exists' same_files "worked.d/$log" before

for seed in 1 2 3 4 5; do
    look script "$seed" 6 60 >"random$seed"
    ran "random$seed" "random$seed.d" "a random script, seed $seed"
done
look script 6 1 1000 >random6
ran random6 random6.d "a random script of one write"
look script 7 200 2 >random7
ran random7 random7.d "a random script of 200 writes"
look times >times
ran times times.d "a snapshot at each millisecond of five seconds"
expect "a snapshot at each millisecond: three of them find an instant" 0 - has_lines 3 'snapshot rows 2' out

ran worked "a folder with  spaces" "a folder with spaces"
ran worked "Ordner-ü-日本-😀" "a folder with a Unicode name"
ran worked made/below/others "a folder below missing folders"
mkdir empty.d
ran worked empty.d "an empty folder"
mkdir -p inner.d/y/z
ran worked inner.d "a folder with empty folders"
mkdir -p left.d/.hoodie/.temp
echo left >left.d/.hoodie/.temp/new
ran worked left.d "a folder with a temporary file, which isn't listed"
mkdir real.d
ln -s real.d linked.d
ran worked linked.d "a link to a folder"
ran worked -d.d "a folder whose name begins with a hyphen"

mkdir other.d
echo other >other.d/note
run worked other.d
expect "a folder with another file" 9 'table exists' nothing_at other.d/x
echo x >bad
run bad other.d
expect "a folder with another file, and a bad line" 3 'bad line 1 json' nothing_at other.d/x

echo '{"job":"snapshot"}' >snapshot
run snapshot none.d
expect "a snapshot alone" 9 'no table' nothing_at none.d

status=0
look cases "$program" >out || status=$?
expect "the scripts of the whole runs, on folders" 0 - cat out
status=0
python3 "$top/tests/random_scripts.py" "$program" 1 300 >out || status=$?
expect "300 random scripts, many of them damaged" 0 - cat out

# --- Limits

bad_big() { # NAME TEXT
    run big bad.d
    expect "$1" 3 "$2" nothing_at bad.d
}

look rows 100000 >big
ran big rows.d "100,000 rows of an upsert"
look rows 100001 >big
bad_big "100,001 rows of an upsert" 'bad line 2 field rows'
look keys 100000 >big
ran big keys.d "100,000 keys of a delete"
look keys 100001 >big
bad_big "100,001 keys of a delete" 'bad line 4 field keys'
look deep 127 >big
ran big deep.d "127 levels of nesting"
look deep 128 >big
bad_big "128 levels of nesting" 'bad line 3 json'
look long "$most" >big
ran big long.d "a line of $most bytes"
look long "$((most + 1))" >big
bad_big "a line of one byte more" 'bad line 0 too_long'
rm -rf big rows.d keys.d long.d

# --- Words

words() { # NAME WORDS..
    name=$1
    shift
    status=0
    "$program" "$@" <worked >out 2>err || status=$?
    expect "$name" 2 "$usage" nothing_at words.d
}

words "no words"
words "a folder alone" words.d
words "no lanes" words.d run
words "no lane" words.d run 0
words "two lanes" words.d run 2
words "a leading zero" words.d run 01
words "a sign" words.d run +1
words "an empty word" words.d run ''
words "a blank" words.d run '1 '
words "another verb" words.d load 1
words "a capital letter" words.d Run 1
words "a word more" words.d run 1 1
words "an option" words.d run --help
words "a word that isn't UTF-8" words.d run "$(printf '\377')"
words "a folder that isn't UTF-8" "$(printf 'words.d\377')" run 1
words "a folder that is an empty word" '' run 1

# --- Standard input

input() { # NAME STATUS TEXT
    expect "$1" "$2" "$3" nothing_at input.d
}

bad_script() { # NAME LINE
    run script input.d
    input "$1" 3 "bad line $2 json"
}

run "$work" input.d
input "standard input is a folder" 5 ''
status=0
"$program" input.d run 1 <&- >out 2>err || status=$?
input "standard input is closed" 5 ''

run /dev/null input.d
input "standard input is empty" 9 'no table'
status=0
from=$(milliseconds)
{ sed 2q worked; sleep 1; sed 1,2d worked; } | "$program" pieces.d run 1 >out 2>err || status=$?
expect "standard input comes in pieces" 0 - look ran worked out pieces.d "$from" "$(milliseconds)"

{ sed 1q worked; printf '{"job":"upsert","rows":[{"id":"\377","p":"x","v":1}]}\n{"job":"snapshot"}\n'; } >script
bad_script "a byte that isn't UTF-8" 2
{ sed 1q worked; echo; printf '{"job":"upsert","rows":[{"id":"a\355\240\200","p":"x","v":1}]}\n'; } >script
bad_script "UTF-8 of half a surrogate pair" 3
printf '\357\273\277%s\n' "$init" >script
bad_script "a byte order mark" 1
printf '%s\n\377\n' "$init" >script
bad_script "a byte that isn't UTF-8 behind the table" 2
printf '%s\n\000\n' "$init" >script
bad_script "a line of NUL" 2
printf '%s\n{"job":"snapshot"}\000\n' "$init" >script
bad_script "NUL behind a line" 2
printf '%s\n{"job":"snapshot"}\r' "$init" >script
ran script return.d "a carriage return at the end of the input is a blank"

# A script of so many bytes: line feeds between the table and a snapshot.
long_script() {
    python3 -c 'import sys
init, size = sys.argv[1], int(sys.argv[2])
sys.stdout.write(init + "\n" * (size - len(init) - 18) + "{\"job\":\"snapshot\"}")' "$init" "$1"
}
long_script "$most" >script
last=$((most - ${#init} - 17))
run script feeds.d
expect "a script of $most bytes" 0 "$made
$(printf '%s\n' "$none" | sed "s/^2 /$last /; s/^mark 1 2 /mark 1 $last /")" nothing_at feeds.d/x
long_script "$((most + 1))" >script
run script input.d
input "a script of one byte more" 3 'bad line 0 too_long'
status=0
yes | "$program" input.d run 1 >out 2>err || status=$?
input "a script without an end" 3 'bad line 0 too_long'
rm script

# --- Standard output

: >out
status=0
"$program" closed.d run 1 <worked >&- 2>err || status=$?
expect "standard output is closed" 6 - look cut worked out closed.d
if [ -c /dev/full ]; then
    status=0
    "$program" full.d run 1 <worked >/dev/full 2>err || status=$?
    expect "standard output is full" 6 - look cut worked out full.d
    status=0
    "$program" >/dev/full 2>err || status=$?
    expect "standard output is full for the usage line" 6 - true
    status=0
    echo x | "$program" full.e run 1 >/dev/full 2>err || status=$?
    expect "standard output is full for a bad line" 6 - nothing_at full.e
else
    skip "standard output is full" "no /dev/full"
fi

# More rows than a pipe holds, so that the reader is gone before all is written. The second time the signal of a broken
# pipe is at its default, whatever this script was started with, and the program mustn't die of it.
look script 8 2 5000 >large
{
    "$program" pipe.d run 1 <large 2>err
    echo $? >pipe.status
} | head -c 1 >out
status=$(cat pipe.status)
expect "the reader of standard output ends" 6 - look cut large out pipe.d
{
    python3 -c 'import os, signal, sys
signal.signal(signal.SIGPIPE, signal.SIG_DFL)
os.execv(sys.argv[1], sys.argv[1:])' "$program" signal.d run 1 <large 2>err
    echo $? >pipe.status
} | head -c 1 >out
status=$(cat pipe.status)
expect "the reader of standard output ends, and the signal is at its default" 6 - look cut large out signal.d

# --- The folder

echo file >file
run worked file
expect "the folder is a file" 4 '' has_size file 5
run worked file/below
expect "the folder is below a file" 4 '' nothing_at file/below

mkdir disk
can_mount() { # OPTIONS
    [ "$(id -u)" -eq 0 ] && mount -t tmpfs -o "$1" tmpfs disk 2>/dev/null && mounted=$work/disk
}
unmount() {
    umount disk && mounted=
}

if can_mount ro; then
    run worked disk
    expect "a folder of a disk that is read-only" 4 '' no_file_below disk
    run worked disk/new
    expect "a new folder on a disk that is read-only" 4 '' nothing_at disk/new
    unmount
elif [ "$(id -u)" -ne 0 ]; then
    mkdir -m 555 shut.d
    run worked shut.d
    expect "a folder that may not be written" 4 '' no_file_below shut.d
else
    skip "a folder that can't be written" "root may write each folder and can't mount here"
fi

if can_mount size=64k; then
    status=0
    "$program" outfull.d run 1 <large >disk/out 2>err || status=$?
    expect "standard output is a file on a disk that gets full" 6 - look cut large disk/out outfull.d
    unmount
else
    skip "standard output is a file on a disk that gets full" "no right to mount"
fi

mkdir -p "taken.d/$log"
run worked taken.d
expect "a folder in the place of the log" 1 - look failed worked out taken.d

look script 9 40 300 >many
if can_mount size=256k; then
    run many disk/table
    expect "a disk that gets full" 1 - look failed many out disk/table
    sums disk/table >before
    run many disk/table
    sums disk/table >after
    expect "a disk that got full, again" 9 'table exists' same_files before after
    unmount
else
    skip "a disk that gets full" "no right to mount"
fi

# The limit of a file's size stands in for a full disk where none can be mounted. The signal that comes with it is
# ignored, so that the write fails. The text goes through a pipe, which has no such limit.
{
    (
        trap '' XFSZ
        ulimit -f 100
        exec "$program" limit.d run 1 <many 2>err
    )
    echo $? >limit.status
} | cat >out
status=$(cat limit.status)
expect "a file that may not grow" 1 - look failed many out limit.d

# --- Want of memory: the limit leaves the program enough to start, and is below the size of the script.

python3 "$top/bench/upserts.py" 10 50000 >big
if (ulimit -v 24000) 2>/dev/null; then
    status=0
    (
        ulimit -v 24000
        "$program" memory.d run 1 <big >out 2>err
    ) || status=$?
    expect "want of memory" 8 '' nothing_at memory.d
else
    skip "want of memory" "this shell can't limit it"
fi
python3 "$top/bench/upserts.py" 5 3000 >big
status=0
look scarce "$program" big 4000 400 >out || status=$?
expect "from too little memory to enough" 0 - cat out

# --- A kill at a random moment. It ends the program within a step or between two.

look script 10 60 40 >killed
status=0
look kills "$program" killed 200 1 >out || status=$?
expect "200 kills at random moments" 0 - cat out
look blocks 8 >killed
status=0
look kills "$program" killed 50 1 >out || status=$?
expect "50 kills in a run of large blocks" 0 - cat out

exit "$failed"
