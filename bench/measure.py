#!/usr/bin/env python3
"""Runs a command once and prints the seconds that it took and the most memory that it had, in KB.

Run: measure.py INPUT OUTPUT COMMAND..

GNU time, where it is there, tells the memory. Without it the figure is that of the children of this process, which is
never less than what Python itself has, some 10,000 KB. A command that ends with another status than 0 ends this one.
"""
import os
import resource
import shutil
import subprocess
import sys
import tempfile
import time


def gnu_time():
    path = shutil.which("time")
    told = path and subprocess.run([path, "--version"], capture_output=True, text=True)
    return path if told and "GNU" in told.stdout + told.stderr else None


def run(command, source, sink):
    """The seconds that a command took, which must succeed."""
    with open(source, "rb") as reader, open(sink, "wb") as writer:
        start = time.monotonic()
        status = subprocess.run(command, stdin=reader, stdout=writer).returncode
        seconds = time.monotonic() - start
    if status:
        sys.exit(f"{command}: status {status}")
    return seconds


source, sink, command = sys.argv[1], sys.argv[2], sys.argv[3:]
timer = gnu_time()
if timer:
    with tempfile.NamedTemporaryFile("r") as told:
        seconds = run([timer, "-f", "%M", "-o", told.name] + command, source, sink)
        memory = int(told.read())
else:
    seconds = run(command, source, sink)
    memory = resource.getrusage(resource.RUSAGE_CHILDREN).ru_maxrss
print(f"{seconds:.3f} {memory}")
