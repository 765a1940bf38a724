#!/bin/sh
# Times `codec_tool avro copy` beside libavro: records of three fields in binary form, each decoded and encoded again.
#
# Run: bench/avro.sh
# It wants python3, a C compiler and Debian's libavro-dev, and skips where one is missing. It ends with status 1 where one of
# the two doesn't write what it read. Whether the times meet their aims stands in its last two lines.
set -eu
top=$(cd "$(dirname "$0")/.." && pwd)
tool=$top/crates/codec_tool
program=$tool/out/codec_tool
bench=$top/bench
most_ratio=1.5 # of the program's time to the peer's
most_growth=11 # of the program's time for ten times the records

for command in python3 cc; do
    if ! command -v "$command" >/dev/null; then
        echo "skipped: no $command"
        exit 0
    fi
done

work=$(mktemp -d)
trap 'rm -rf "$work"' EXIT
trap 'exit 1' HUP INT TERM

if ! cc -O2 -o "$work/peer" "$bench/avro_peer.c" -lavro 2>"$work/said"; then
    echo "skipped: no libavro-dev"
    exit 0
fi

# Proves and builds the program.
if ! (cd "$tool" && rt run -- avro decode <stdin) >"$work/said" 2>&1; then
    cat "$work/said"
    exit 1
fi

# The run in the middle of five, each a time and a memory.
median() {
    sort -n "$1" | sed -n 3p
}

# Runs both on so many records, in turn, five times, and leaves their median runs in `ours` and `peers`.
run_both() {
    load=$work/$1
    mkdir "$load"
    python3 "$bench/avro_records.py" "$1" >"$load/input"
    tail -n +2 "$load/input" >"$load/values"
    for _ in 1 2 3 4 5; do
        python3 "$bench/measure.py" "$load/input" "$load/ours" "$program" avro copy >>"$load/our_runs"
        python3 "$bench/measure.py" "$load/input" "$load/peers" "$work/peer" >>"$load/peer_runs"
    done
    cmp "$load/values" "$load/ours"
    cmp "$load/values" "$load/peers"
    ours=$(median "$load/our_runs")
    peers=$(median "$load/peer_runs")
    printf '%s records: both write what they read\n' "$1"
    tell program "$ours"
    tell libavro "$peers"
    printf '  program / libavro: %s\n' "$(ratio "${ours% *}" "${peers% *}")"
}

tell() {
    printf '  %s: %s s, at most %s KB\n' "$1" "${2% *}" "${2#* }"
}

ratio() {
    awk -v a="$1" -v b="$2" 'BEGIN { printf "%.2f", a / b }'
}

# Whether a figure is at most its aim.
aim() {
    if awk -v a="$2" -v b="$3" 'BEGIN { exit a > b }'; then
        echo "met: $1 is $2, at most $3"
    else
        echo "MISSED: $1 is $2, more than $3"
    fi
}

run_both 100000
few=${ours% *}
run_both 1000000
many=${ours% *}
aim "program / libavro at 1,000,000 records" "$(ratio "$many" "${peers% *}")" "$most_ratio"
aim "program at 1,000,000 records / at 100,000" "$(ratio "$many" "$few")" "$most_growth"
