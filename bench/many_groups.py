#!/usr/bin/env python3
"""The script of many_groups.sh: so many upserts of one row of 640 keys, which all 64 file groups share, with a snapshot
after each hundred. It is the same script each time.

Run: many_groups.py script UPSERTS        prints it
     many_groups.py check UPSERTS TEXT    ends with status 1 unless each snapshot that was printed has the rows of the
                                          upserts before it
     many_groups.py late FOLDER           prints how many times longer the last hundred upserts took than the second
                                          hundred, by the times at which their files were made
"""
import json
import os
import random
import sys

KEYS, BUCKETS, SNAPSHOT_AFTER = 640, 64, 100
INIT = {"job": "init", "name": "groups", "schema": {"type": "record", "name": "row", "fields": [
    {"name": "id", "type": "string"}, {"name": "place", "type": "string"}, {"name": "v", "type": "long"}]},
    "key": "id", "partition": "place", "ordering": "v", "buckets": BUCKETS}


def rows(upserts):
    draw = random.Random(1)
    return [{"id": "k%03d" % draw.randrange(KEYS), "place": "here", "v": number} for number in range(1, upserts + 1)]


def print_script(upserts):
    print(json.dumps(INIT))
    for number, row in enumerate(rows(upserts), 1):
        print(json.dumps({"job": "upsert", "rows": [row]}))
        if number % SNAPSHOT_AFTER == 0:
            print('{"job":"snapshot"}')


def shown_rows(line):
    """The rows of a snapshot's line, without the columns of their commit."""
    rows = json.loads(line[line.index("["):])
    return [{name: value for name, value in row.items() if name[0] != "_"} for row in rows]


def check(upserts, path):
    with open(path) as file:
        shown = [line for line in file if " snapshot rows " in line]
    wanted, left = {}, iter(shown)
    for number, row in enumerate(rows(upserts), 1):
        wanted[row["id"]] = row
        if number % SNAPSHOT_AFTER == 0:
            if shown_rows(next(left, "[]")) != [wanted[key] for key in sorted(wanted)]:
                sys.exit(f"other rows after {number} upserts")
    print(f"the rows of {len(shown)} snapshots")


def late(folder):
    """No snapshot lies between the first and the last of a hundred."""
    folder = os.path.join(folder, ".hoodie")
    made = sorted(entry.stat().st_mtime_ns for entry in os.scandir(folder) if entry.name.endswith(".deltacommit"))
    print("%.2f" % ((made[-1] - made[-SNAPSHOT_AFTER]) / max(made[199] - made[100], 1)))


command, words = sys.argv[1], sys.argv[2:]
if command == "script":
    print_script(int(words[0]))
elif command == "check":
    check(int(words[0]), words[1])
else:
    late(words[0])
