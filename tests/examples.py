#!/usr/bin/env python3
"""Tries the scripts of examples/: whether the text beside each is what has to be printed at a clock that stands at the
beginning of 2024, by script_model.py, and whether docs/SCRIPT.md and README.md quote these scripts and texts as they are.

Run: tests/examples.py [PROGRAM]
With a built program it is run too, in a new folder for each script. That wants faketime, which stops its clock.
It prints a line a case, and ends with status 1 if any failed.
"""
import os
import re
import subprocess
import sys
import tempfile
from pathlib import Path

from script_model import run

TOP = Path(__file__).resolve().parent.parent
STOPPED = ["faketime", "-f", "2024-01-01 00:00:00"]
failed = False


def told(name, holds):
    global failed
    failed = failed or not holds
    print("ok     " if holds else "FAILED ", name)


def printed_by(program, script):
    """The status and the text of the program, over a folder that isn't there yet."""
    with tempfile.TemporaryDirectory() as room:
        words = [*STOPPED, os.path.abspath(program), room + "/table", "run", "1"]
        ended = subprocess.run(words, input=script, stdout=subprocess.PIPE, env={**os.environ, "TZ": "UTC"}, check=False)
    return ended.returncode, ended.stdout


def quoted(page):
    """The blocks of a page that are lines of a script or what is printed, without a last line of three points."""
    blocks = re.findall(r"^```\n(.*?)^```$", page.read_text(), re.S | re.M)
    return [block.removesuffix("...\n") for block in blocks if block.startswith(('{"job"', "1 init"))]


def main(programs):
    scripts = {path.stem: path.read_bytes() for path in sorted((TOP / "examples").glob("*.jsonl"))}
    texts = {name: (TOP / "examples" / (name + ".txt")).read_bytes() for name in scripts}
    for name, script in scripts.items():
        ending = run(script)
        told(f"{name}, by the model", ending.text == texts[name])
        for program in programs:
            told(f"{name}, by the program", printed_by(program, script) == (ending.status, texts[name]))
    for page in [TOP / "README.md", TOP / "docs" / "SCRIPT.md"]:
        for number, block in enumerate(quoted(page), 1):
            within = any(block.encode() in text for text in [*scripts.values(), *texts.values()])
            told(f"{page.name}, block {number}", within)
    return int(failed)


sys.exit(main(sys.argv[1:]))
