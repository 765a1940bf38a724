#!/usr/bin/env python3
"""Ends with status 1 unless two folders have the same files with the same bytes, but for the times of their instants.

Run: same_files.py OURS FLOOR
"""
import os
import re
import sys


def files_in(folder):
    """The files below a folder, by their names. What the program writes before it renames it lies aside."""
    found = {}
    for place, folders, names in os.walk(folder):
        folders[:] = [name for name in folders if name != ".temp"]
        for name in names:
            path = os.path.join(place, name)
            with open(path, "rb") as file:
                found[os.path.relpath(path, folder).encode()] = file.read()
    return found


def without_times(files):
    """The files with a number of as many digits in place of each instant's time, in names and in bytes."""
    instants = [re.fullmatch(rb"\.hoodie/(\d{17})\.deltacommit", name) for name in files]
    times = sorted(found[1] for found in instants if found)
    numbers = {time: b"T%016d" % place for place, time in enumerate(times)}

    def masked(data):
        return re.sub(rb"20\d{15}", lambda found: numbers.get(found[0], found[0]), data)
    return {masked(name): masked(data) for name, data in files.items()}


ours, floor = (without_times(files_in(folder)) for folder in sys.argv[1:3])
if sorted(ours) != sorted(floor):
    sys.exit(f"other files: {sorted(set(ours) ^ set(floor))[:4]}")
for name, data in ours.items():
    if data != floor[name]:
        sys.exit(f"other bytes of {name}")
print(f"the same {len(ours)} files of {sum(map(len, ours.values()))} bytes")
