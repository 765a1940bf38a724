"""What runs of the built program leave in a folder, and what they must leave: by tests/script_model.py, and by
tests/table_reader.py, which reads the files. Both share nothing with the program.

The times of a run are the system clock's, so they are taken from what it left, and the model goes by them.
"""
import os
import re
import subprocess

from script_language import time_of
from script_model import fold, printed_row, run
from table_reader import read_table

REQUESTED = re.compile(rb"\.hoodie/(\d{17})\.deltacommit\.requested")


def content_of(path):
    with open(path, "rb") as file:
        return file.read()


def files_in(folder):
    """The files below a folder, by their names in the table. What is being written lies aside."""
    found, root = {}, os.fsencode(folder)
    for place, folders, names in os.walk(root):
        if place == os.path.join(root, b".hoodie"):
            folders[:] = [name for name in folders if name != b".temp"]
        for name in names:
            path = os.path.join(place, name)
            found[os.path.relpath(path, root)] = content_of(path)
    return found


def run_program(program, folder, script):
    return subprocess.run([program, folder, "run", "1"], input=script, stdout=subprocess.PIPE)


# ---- times

def times_in(files):
    """The times of the instants that were requested, in order."""
    names = [REQUESTED.fullmatch(name) for name in sorted(files)]
    return [time_of(name[1].decode()) for name in names if name]


def clock_of(files):
    """What the clock may have answered in a run in which no instant failed to begin."""
    return times_in(files) or [0]


def changing_marks(text):
    """The journal's marks of steps that call the store to change something."""
    marks = [line.split(b" ") for line in text.splitlines() if line.startswith(b"mark ")]
    return [mark for mark in marks if mark[3] in (b"begin", b"enter", b"append", b"finish") and mark[4] != b"time_over"]


def clock_of_marks(text):
    """What the clock may have answered, by the journal. An instant that failed to begin drew no time."""
    return [int(mark[5]) for mark in changing_marks(text) if mark[3] == b"begin"] or [0]


def failing_calls(text):
    """The changing calls of the store that failed, by the journal. The first one, 0, made the properties."""
    return [number for number, mark in enumerate(changing_marks(text), 1) if mark[4] == b"fault"]


# ---- what has to be

def check_files(found, wanted):
    assert sorted(found) == sorted(wanted), f"files {sorted(set(found) ^ set(wanted))[:4]}"
    for name, data in wanted.items():
        assert found[name] == data, f"the bytes of {name}"


def check_reader(found, commits):
    """A reader of the files finds these instants completed, and their rows. It answers the table."""
    table = read_table(found)
    assert [time_of(time) for time in table.completed] == [time for time, _ in commits], f"instants {table.completed}"
    assert table.rows == [printed_row(*row) for row in fold(commits)], "the rows that the files have"
    return table


def check_end(script, status, text, found):
    """A run over a folder without files, whose outside didn't fail."""
    ending = run(script, clock=clock_of(found))
    assert status == ending.status, f"status {status}, not {ending.status}"
    assert text == ending.text, f"the text {text[:300]}"
    check_files(found, ending.files)
    if found:
        check_reader(found, ending.commits)
