#!/bin/sh
# Times the program beside sqlite3 and beside a floor in C++: upserts read from JSON lines into a table with an ordering
# field, folded by key, and printed in key order.
#
# Run: bench/upserts.sh [ROWS [PROGRAM]]
# ROWS is the number of rows of each of the 10 and then 100 upserts: 10,000 where none is told, for which the aims
# are. Without a path of the program it is the one of this checkout, which is built first. It wants python3, sqlite3
# and g++ with libsimdjson, and skips where one is missing. It ends with status 1 where the rows that they print
# differ, or the text or the files of the floor. Whether the figures meet their aims stands in its last lines.
set -eu
top=$(cd "$(dirname "$0")/.." && pwd)
bench=$top/bench
rows_a_line=${1:-10000}
program=${2:-$top/crates/hudi_cli/out/hudi_cli}
most_ratio=0.25 # of the program's time to sqlite3's
most_floor=1.7  # of the program's time to the floor's
most_growth=11  # of the program's time for ten times the rows
most_memory=1.6 # of the program's memory to the floor's

for tool in python3 sqlite3 g++; do
    if ! command -v "$tool" >/dev/null; then
        echo "skipped: no $tool"
        exit 0
    fi
done
if [ ! -x "$program" ] && ! command -v rt >/dev/null; then
    echo "skipped: no built program and no rt"
    exit 0
fi

work=$(mktemp -d)
trap 'rm -rf "$work"' EXIT
trap 'exit 1' HUP INT TERM

# Without words the script `hudi` builds the program and says how it is used. What is timed is the program itself,
# without the look at its sources.
[ $# -gt 1 ] || "$top/hudi" >"$work/usage" || [ $? -eq 2 ]
if ! g++ -O2 -std=c++17 "$bench/floor.cpp" -lsimdjson -o "$work/floor" 2>"$work/usage"; then
    echo "skipped: no libsimdjson"
    exit 0
fi

# The peer's script. What makes it fair: sqlite parses the same JSON lines as the program, each in a file of its own,
# so that its shell needn't read them as SQL. A line is a transaction, as a line is one append that is synced. The rows
# lie in the key's own tree, and the cache holds the table, which is faster here than the settings that sqlite begins
# with. A text is compared by its bytes, so the order of partitions and keys is that of blobs.
peer_script() {
    echo "pragma cache_size = -262144;"
    echo "create table rows(p text, id text, v integer not null, body text not null, primary key(p, id)) without rowid;"
    for line in "$1"/line.*; do
        cat <<SQL
begin;
insert into rows
    select value ->> 'p', value ->> 'id', value ->> 'v', value ->> 'body'
    from json_each(cast(readfile('$line') as text), '\$.rows') where true
    on conflict(p, id) do update set v = excluded.v, body = excluded.body where excluded.v >= v;
commit;
SQL
    done
    echo "select json_object('body', body, 'id', id, 'p', p, 'v', v) from rows order by p, id;"
}

# The run in the middle of five, each a time and a memory.
median() {
    sort -n "$1" | sed -n 3p
}

# Runs all on a load of so many lines, in turn, five times. It leaves their median runs in `ours`, `floors` and
# `peers`: on a machine that others share, the best of a few runs is now and then far below the others.
run_all() {
    load=$work/$1
    mkdir "$load"
    python3 "$bench/upserts.py" "$1" "$rows_a_line" >"$load/script"
    sed -n "2,$(($1 + 1))p" "$load/script" | (cd "$load" && split -l 1 -a 3 - line.)
    peer_script "$load" >"$load/peer"
    for _ in 1 2 3 4 5; do
        rm -rf "$load/table" "$load/bare" "$load/db"
        python3 "$bench/measure.py" "$load/script" "$load/ours" "$program" "$load/table" run 1 >>"$load/our_runs"
        python3 "$bench/measure.py" "$load/script" "$load/floor" "$work/floor" "$load/bare" >>"$load/floor_runs"
        python3 "$bench/measure.py" "$load/peer" "$load/peers" sqlite3 -bail "$load/db" >>"$load/peer_runs"
    done
    ours=$(median "$load/our_runs")
    floors=$(median "$load/floor_runs")
    peers=$(median "$load/peer_runs")
    same=$(python3 "$bench/same_rows.py" "$load/ours" "$load/peers" "$load/floor")
    files=$(python3 "$bench/same_files.py" "$load/table" "$load/bare")
    printf '%s rows: %s, %s\n' "$(($1 * rows_a_line))" "$same" "$files"
    tell program "$ours"
    tell floor "$floors"
    tell sqlite3 "$peers"
}

tell() {
    printf '  %s: %s s, at most %s KB\n' "$1" "${2% *}" "${2#* }"
}

ratio() {
    awk -v a="$1" -v b="$2" 'BEGIN { printf "%.2f", a / b }'
}

# Whether a figure is at most its aim.
aim() {
    if awk -v a="$2" -v b="$3" 'BEGIN { exit a > b }'; then
        echo "met: $1 is $2, at most $3"
    else
        echo "MISSED: $1 is $2, more than $3"
    fi
}

run_all 10
few=${ours% *}
run_all 100
many=${ours% *}
least=$((10 * rows_a_line))
most=$((100 * rows_a_line))
aim "program / sqlite3 at $most rows" "$(ratio "$many" "${peers% *}")" "$most_ratio"
aim "program / floor at $most rows" "$(ratio "$many" "${floors% *}")" "$most_floor"
aim "program at $most rows / at $least" "$(ratio "$many" "$few")" "$most_growth"
aim "memory of the program / of the floor at $most rows" "$(ratio "${ours#* }" "${floors#* }")" "$most_memory"
