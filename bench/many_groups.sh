#!/bin/sh
# Times many upserts of one row each over a table of 64 file groups, with a snapshot after each hundred: how the time
# grows with the number of upserts, and what the last upserts cost beside the first ones.
#
# Run: bench/many_groups.sh [UPSERTS [PROGRAM]]
# It runs so many upserts, 1,000 where no number is told, for which the aims are, and then ten times as many. Without
# a path of the program it is the one of this checkout, which is built first. It wants python3 and /dev/shm, and skips
# where one is missing. It ends with status 1 where a snapshot lacks a row or shows another one. Whether the figures
# meet their aims stands in its last lines.
set -eu
top=$(cd "$(dirname "$0")/.." && pwd)
bench=$top/bench
least=${1:-1000}
most=$((10 * least))
program=${2:-$top/crates/hudi_cli/out/hudi_cli}
most_growth=11   # of the time for ten times the upserts
most_late=1.5    # of the time of the last hundred upserts to that of the second hundred

if ! command -v python3 >/dev/null; then
    echo "skipped: no python3"
    exit 0
fi
if [ ! -d /dev/shm ]; then
    echo "skipped: no /dev/shm"
    exit 0
fi

work=$(mktemp -d -p /dev/shm)
trap 'rm -rf "$work"' EXIT
trap 'exit 1' HUP INT TERM
[ $# -gt 1 ] || "$top/hudi" >"$work/usage" || [ $? -eq 2 ] # builds it

median() {
    sort -n "$1" | sed -n 3p | cut -d ' ' -f 1
}

run_all() {
    python3 "$bench/many_groups.py" script "$1" >"$work/script"
    : >"$work/runs"
    for _ in 1 2 3 4 5; do
        rm -rf "$work/table"
        python3 "$bench/measure.py" "$work/script" "$work/text" "$program" "$work/table" run 1 >>"$work/runs"
    done
    seconds=$(median "$work/runs")
    right=$(python3 "$bench/many_groups.py" check "$1" "$work/text")
    echo "$1 upserts with a snapshot after each hundred: $seconds s, $right"
}

aim() {
    if awk -v a="$2" -v b="$3" 'BEGIN { exit a > b }'; then
        echo "met: $1 is $2, at most $3"
    else
        echo "MISSED: $1 is $2, more than $3"
    fi
}

run_all "$least"
few=$seconds
run_all "$most"
aim "$most upserts / $least" "$(awk -v a="$seconds" -v b="$few" 'BEGIN { printf "%.2f", a / b }')" "$most_growth"
aim "the last hundred upserts / the second hundred" "$(python3 "$bench/many_groups.py" late "$work/table")" "$most_late"
