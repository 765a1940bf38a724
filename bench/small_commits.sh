#!/bin/sh
# Times many small upserts, of one row each, with a snapshot at the end: the program in a folder in memory, beside
# sqlite3 with a transaction an upsert, and beside a program that makes the same files with the fewest calls.
#
# Run: bench/small_commits.sh [UPSERTS [PROGRAM]]
# It runs so many upserts, 1,000 where no number is told, for which the aims are, and then ten times as many. Without
# a path of the program it is the one of this checkout, which is built first. It wants python3, sqlite3, g++ with
# libsimdjson, strace and /dev/shm, and skips where one is missing. It ends with status 1 where the rows differ, or
# the text or the files of the fewest calls. Whether the figures meet their aims stands in its last lines.
set -eu
top=$(cd "$(dirname "$0")/.." && pwd)
bench=$top/bench
least=${1:-1000}
most=$((10 * least))
program=${2:-$top/crates/hudi_cli/out/hudi_cli}
most_ratio=0.8    # of the program's time to sqlite3's
most_bare=2       # of the program's time to that of the fewest calls
most_growth=11    # of the program's time for ten times the upserts
most_calls=7      # system calls a created file
most_late=1.2     # of the time of the last tenth of the upserts to that of the first tenth

for tool in python3 sqlite3 g++ strace; do
    if ! command -v "$tool" >/dev/null; then
        echo "skipped: no $tool"
        exit 0
    fi
done
if [ ! -d /dev/shm ]; then
    echo "skipped: no /dev/shm"
    exit 0
fi

work=$(mktemp -d -p /dev/shm)
trap 'rm -rf "$work"' EXIT
trap 'exit 1' HUP INT TERM
[ $# -gt 1 ] || "$top/hudi" >"$work/usage" || [ $? -eq 2 ] # builds it
if ! g++ -O2 -std=c++17 "$bench/floor.cpp" -lsimdjson -o "$work/floor" 2>"$work/usage"; then
    echo "skipped: no libsimdjson"
    exit 0
fi

# A line is a transaction. What sqlite syncs goes to memory too.
peer_script() {
    echo "create table rows(p text, id text, v integer not null, body text not null, primary key(p, id)) without rowid;"
    python3 - "$1" <<'PYTHON'
import json, sys
for line in open(sys.argv[1]):
    for row in json.loads(line).get("rows", []):
        print("insert into rows values ('%s', '%s', %d, '%s') on conflict(p, id) do update set v = excluded.v, "
              "body = excluded.body where excluded.v >= v;" % (row["p"], row["id"], row["v"], row["body"]))
PYTHON
    echo "select json_object('body', body, 'id', id, 'p', p, 'v', v) from rows order by p, id;"
}

median() {
    sort -n "$1" | sed -n 3p | cut -d ' ' -f 1
}

run_all() {
    load=$work/$1
    mkdir "$load"
    python3 "$bench/upserts.py" "$1" 1 >"$load/script"
    peer_script "$load/script" >"$load/peer"
    for _ in 1 2 3 4 5; do
        rm -rf "$load/table" "$load/bare" "$load/db"
        python3 "$bench/measure.py" "$load/script" "$load/ours" "$program" "$load/table" run 1 >>"$load/our_runs"
        python3 "$bench/measure.py" "$load/script" "$load/floor" "$work/floor" "$load/bare" bare >>"$load/bare_runs"
        python3 "$bench/measure.py" "$load/peer" "$load/peers" sqlite3 -bail "$load/db" >>"$load/peer_runs"
    done
    ours=$(median "$load/our_runs")
    bare=$(median "$load/bare_runs")
    peers=$(median "$load/peer_runs")
    same=$(python3 "$bench/same_rows.py" "$load/ours" "$load/peers" "$load/floor")
    files=$(python3 "$bench/same_files.py" "$load/table" "$load/bare")
    printf '%s upserts: %s, %s\n' "$1" "$same" "$files"
    printf '  program: %s s, sqlite3: %s s, the fewest calls: %s s\n' "$ours" "$peers" "$bare"
}

ratio() {
    awk -v a="$1" -v b="$2" 'BEGIN { printf "%.2f", a / b }'
}

aim() {
    if awk -v a="$2" -v b="$3" 'BEGIN { exit a > b }'; then
        echo "met: $1 is $2, at most $3"
    else
        echo "MISSED: $1 is $2, more than $3"
    fi
}

# How many system calls a run makes for each file that it leaves.
calls_a_file() {
    strace -f -c -o "$work/calls" "$program" "$work/traced" run 1 <"$work/$least/script" >"$work/usage"
    files=$(find "$work/traced" -type f | wc -l)
    calls=$(awk '$NF == "total" { print $4 }' "$work/calls")
    ratio "$calls" "$files"
}

# The time of the last tenth of the upserts to that of the first tenth, by the times at which their files were made.
late_upserts() {
    python3 - "$work/$most/table" "$least" <<'PYTHON'
import os, sys
folder, tenth = os.path.join(sys.argv[1], ".hoodie"), int(sys.argv[2])
made = sorted(entry.stat().st_mtime_ns for entry in os.scandir(folder) if entry.name.endswith(".deltacommit"))
print("%.2f" % ((made[-1] - made[-tenth - 1]) / max(made[tenth - 1] - made[0], 1)))
PYTHON
}

run_all "$least"
few=$ours
run_all "$most"
aim "program / sqlite3 at $most upserts" "$(ratio "$ours" "$peers")" "$most_ratio"
aim "program / the fewest calls at $most upserts" "$(ratio "$ours" "$bare")" "$most_bare"
aim "program at $most upserts / at $least" "$(ratio "$ours" "$few")" "$most_growth"
aim "system calls a created file" "$(calls_a_file)" "$most_calls"
aim "the last $least upserts / the first $least" "$(late_upserts)" "$most_late"
