#!/usr/bin/env python3
"""Measures what the gate costs: processor seconds of each crate's proof, of its tests and of its edits.

Run it in a clone that nothing else uses: it removes each crate's out/ before it measures, so that each proof is made
from nothing over the libraries below it. It prints the table of CONTRIBUTING.md.

    bench/gate_cost.py [CRATE..]
"""

import os
import re
import resource
import shutil
import subprocess
import sys

TOP = os.path.dirname(os.path.dirname(os.path.abspath(__file__)))


def crates():
    """The crates, in the order of crates.txt, which is lowest first."""
    with open(os.path.join(TOP, "crates.txt"), encoding="utf-8") as lines:
        return [re.match(r"\w+", line).group() for line in lines if re.match(r"\w", line)]


def processor_seconds(words, folder):
    """How many processor seconds a command takes with all that it starts, and whether it succeeded."""
    before = resource.getrusage(resource.RUSAGE_CHILDREN)
    done = subprocess.run(words, cwd=folder, stdout=subprocess.DEVNULL, stderr=subprocess.DEVNULL, check=False)
    after = resource.getrusage(resource.RUSAGE_CHILDREN)
    spent = after.ru_utime + after.ru_stime - before.ru_utime - before.ru_stime
    return spent, done.returncode == 0


def line_count(folder, suffix):
    total = 0
    for root, _, names in os.walk(folder):
        for name in names:
            if name.endswith(suffix):
                with open(os.path.join(root, name), encoding="utf-8") as lines:
                    total += sum(1 for _ in lines)
    return total


def has_tests(folder):
    for root, _, names in os.walk(os.path.join(folder, "src")):
        for name in names:
            with open(os.path.join(root, name), encoding="utf-8") as text:
                if "#[test]" in text.read():
                    return True
    return False


def cell(spent, succeeded):
    return f"{spent:.0f}" if succeeded else f"{spent:.0f} (failed)"


def main():
    wanted = sys.argv[1:] or crates()
    sums = [0, 0.0, 0.0, 0.0]
    print("| Crate | Lines of code | Proof | Tests | Edits |")
    print("|---|---|---|---|---|")
    for name in wanted:
        folder = os.path.join(TOP, "crates", name)
        shutil.rmtree(os.path.join(folder, "out"), ignore_errors=True)
        code = line_count(os.path.join(folder, "src"), ".rt")
        is_library = os.path.exists(os.path.join(folder, "src", "lib.rt"))
        proof = processor_seconds(["rt", "lib" if is_library else "check"], folder)
        tests = processor_seconds(["rt", "test"], folder) if has_tests(folder) else (0.0, True)
        edits = os.path.join(folder, "must-fail")
        edited = processor_seconds(["rt", "must-fail", name], TOP) if os.path.isdir(edits) else (0.0, True)
        sums = [sums[0] + code, sums[1] + proof[0], sums[2] + tests[0], sums[3] + edited[0]]
        count = len(os.listdir(edits)) if os.path.isdir(edits) else 0
        print(f"| `{name}` | {code} | {cell(*proof)} | {cell(*tests)} | {cell(*edited)} ({count}) |", flush=True)
    print(f"| together | {sums[0]} | {sums[1]:.0f} | {sums[2]:.0f} | {sums[3]:.0f} |")


if __name__ == "__main__":
    main()
