#!/usr/bin/env python3
"""Ends with status 1 unless the programs printed the same rows, in the same order.

Run: same_rows.py OURS PEERS [FLOOR]

OURS is what the program printed, of which the last job line has the rows, and FLOOR the same of the floor, whose lines
are those of the program but for the times of instants. PEERS has one row a line.
"""
import json
import re
import sys


def parts(row):
    return row["p"], row["id"], row["v"], row["body"]


def lines_of(path):
    with open(path) as file:
        return file.read().splitlines()


def last_rows(lines):
    last = [line for line in lines if not line.startswith("mark ")][-1]
    return [parts(row) for row in json.loads(last[last.index("["):])]


def without_times(lines):
    """The lines with a number in place of each instant's time, told in digits or, in marks, in milliseconds."""
    digits = [line.split()[3] for line in lines if re.match(r"\d+ \w+ committed ", line)]
    marked = [line.split()[5] for line in lines if re.match(r"mark 1 \d+ begin began ", line)]
    names = {time: f"T{place}" for times in (digits, marked) for place, time in enumerate(times)}
    return [re.sub(r"\d{13,17}", lambda found: names.get(found[0], found[0]), line) for line in lines]


told = lines_of(sys.argv[1])
ours = last_rows(told)
peers = [parts(json.loads(line)) for line in lines_of(sys.argv[2])]
if ours != peers:
    place = next((i for i, (a, b) in enumerate(zip(ours, peers)) if a != b), min(len(ours), len(peers)))
    sys.exit(f"rows differ: {len(ours)} and {len(peers)} of them, first at place {place}: "
             f"{ours[place:place + 1]} and {peers[place:place + 1]}")
for floor in sys.argv[3:]:
    if without_times(told) != without_times(lines_of(floor)):
        sys.exit("the floor printed another text")
print(f"the same {len(ours)} rows")
