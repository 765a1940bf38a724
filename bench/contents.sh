#!/bin/sh
# Times `codec_tool contents fold` beside `codec_tool plain fold`: the rows of the contents of data blocks are lent and folded.
# Both have the same rows, the one as records of a flat schema, the other as keys, ranks and bodies alone.
#
# Run: bench/contents.sh
# It wants python3, and skips where that is missing. It ends with status 1 where the two tell other rows. Whether the times
# meet their aims stands in its last lines.
set -eu
top=$(cd "$(dirname "$0")/.." && pwd)
tool=$top/crates/codec_tool
program=$tool/out/codec_tool
bench=$top/bench
most_ratio=1.5 # of the time for records to that for keys, ranks and bodies
most_growth=11 # of the time for ten times the rows

if ! command -v python3 >/dev/null; then
    echo "skipped: no python3"
    exit 0
fi

work=$(mktemp -d)
trap 'rm -rf "$work"' EXIT
trap 'exit 1' HUP INT TERM

# Proves and builds the program.
if ! (cd "$tool" && rt run -- avro decode <stdin) >"$work/said" 2>&1; then
    cat "$work/said"
    exit 1
fi

# Folds the rows of one form once, and adds its time and its memory to those of its other runs.
time_of() {
    python3 "$bench/measure.py" "$load/$1" "$load/$1_told" "$program" "$1" fold >>"$load/$1_runs"
}

# The run in the middle of five.
median() {
    sort -n "$load/$1_runs" | sed -n 3p
}

# Runs both on so many rows, in turn, five times.
run_both() {
    load=$work/$1
    mkdir "$load"
    python3 "$bench/contents_blocks.py" "$1" "$load/contents" "$load/plain"
    for _ in 1 2 3 4 5; do
        time_of contents
        time_of plain
    done
    cmp "$load/contents_told" "$load/plain_told"
    printf '%s rows: both tell %s\n' "$1" "$(cat "$load/plain_told")"
    for form in contents plain; do
        told=$(median "$form")
        printf '  %s: %s s, at most %s KB\n' "$form" "${told% *}" "${told#* }"
    done
}

seconds() {
    told=$(median "$1")
    echo "${told% *}"
}

ratio() {
    awk -v a="$1" -v b="$2" 'BEGIN { printf "%.2f", a / b }'
}

# Whether a figure is at most its aim.
aim() {
    if awk -v a="$2" -v b="$3" 'BEGIN { exit a > b }'; then
        echo "met: $1 is $2, at most $3"
    else
        echo "MISSED: $1 is $2, more than $3"
    fi
}

run_both 100000
few=$(seconds contents)
run_both 1000000
many=$(seconds contents)
aim "contents / plain at 1,000,000 rows" "$(ratio "$many" "$(seconds plain)")" "$most_ratio"
aim "contents at 1,000,000 rows / at 100,000" "$(ratio "$many" "$few")" "$most_growth"
