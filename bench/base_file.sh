#!/bin/sh
# Times base files beside sqlite3: a file of 1,000,000 rows of six columns is written and read, and a table of the same rows is
# filled and scanned.
#
# Run: bench/base_file.sh
# It wants python3 and sqlite3, and skips where one is missing. It ends with status 1 where the rows that the two find differ.
# Whether the figures meet their aims stands in its last two lines.
set -eu
top=$(cd "$(dirname "$0")/.." && pwd)
tool=$top/crates/codec_tool/out/codec_tool
bench=$top/bench
most_ratio=0.5  # of the time of both to sqlite3's
most_growth=11  # of the time for ten times the rows

for program in python3 sqlite3; do
    if ! command -v "$program" >/dev/null; then
        echo "skipped: no $program"
        exit 0
    fi
done

work=$(mktemp -d)
trap 'rm -rf "$work"' EXIT
trap 'exit 1' HUP INT TERM
if ! (cd "$top/crates/codec_tool" && rt run -- avro decode <stdin) >"$work/built" 2>&1; then
    cat "$work/built"
    exit 1
fi

# The same rows by the same rule.
fill_script() {
    cat <<SQL
pragma cache_size = -262144;
create table rows(file text, commit_time integer, place integer, key text, rank integer, body text);
begin;
insert into rows
    select '0000ffff-c50d-5b40-af36-b8949fde563e-0', 1704067200000, value, printf('k%09d', value), value * 7919 % 1000 - 500,
        printf('%016d', value * 2654435761 % 10000000019)
    from generate_series(0, $1 - 1);
commit;
SQL
}

scan='select printf("%d rows, ranks %d", count(*), sum(rank)) from (select * from rows where length(key) + length(body) > 0);'

# The run in the middle of five.
median() {
    sort -n "$1" | sed -n 3p | cut -d ' ' -f 1
}

run_all() {
    load=$work/$1
    mkdir "$load"
    echo "$1" >"$load/count"
    fill_script "$1" >"$load/fill"
    echo "$scan" >"$load/scan"
    for _ in 1 2 3 4 5; do
        rm -f "$load/db"
        python3 "$bench/measure.py" "$load/count" "$load/file" "$tool" base write >>"$load/writes"
        python3 "$bench/measure.py" "$load/file" "$load/ours" "$tool" base read >>"$load/reads"
        python3 "$bench/measure.py" "$load/fill" "$load/peers" sqlite3 -bail "$load/db" >>"$load/fills"
        python3 "$bench/measure.py" "$load/scan" "$load/peers" sqlite3 -bail "$load/db" >>"$load/scans"
    done
    if ! cmp -s "$load/ours" "$load/peers"; then
        echo "the rows differ: $(cat "$load/ours") and $(cat "$load/peers")"
        exit 1
    fi
    write=$(median "$load/writes")
    read=$(median "$load/reads")
    fill=$(median "$load/fills")
    look=$(median "$load/scans")
    printf '%s rows: written in %s s, read in %s s; sqlite3 fills in %s s, scans in %s s\n' "$1" "$write" "$read" "$fill" "$look"
    ours=$(awk -v a="$write" -v b="$read" 'BEGIN { print a + b }')
    peers=$(awk -v a="$fill" -v b="$look" 'BEGIN { print a + b }')
}

ratio() {
    awk -v a="$1" -v b="$2" 'BEGIN { printf "%.2f", a / b }'
}

aim() {
    if awk -v a="$2" -v b="$3" 'BEGIN { exit a > b }'; then
        echo "met: $1 is $2, at most $3"
    else
        echo "MISSED: $1 is $2, more than $3"
    fi
}

run_all 100000
few=$ours
run_all 1000000
aim "writing and reading / sqlite3 at 1,000,000 rows" "$(ratio "$ours" "$peers")" "$most_ratio"
aim "1,000,000 rows / 100,000" "$(ratio "$ours" "$few")" "$most_growth"
