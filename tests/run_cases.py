#!/usr/bin/env python3
"""Makes the cases of crates/run_cases: how a run begins, and how it must end by tests/script_model.py, which has its
own reading of the language, its own files and its own fold. `case_scripts.py`, `case_lines.py` and `case_stops.py` are
the scripts by subject, `worked_rows.py` the runs whose answers were worked out by hand.

Run: run_cases.py stdin >crates/run_cases/stdin
     run_cases.py stdout >crates/run_cases/stdout
"""
import json
import re
import sys

import case_lines as lines
import case_scripts as scripts
import case_stops as stops
from script_language import MOST_SCRIPT
from script_lines import INIT, ORDERED, SNAPSHOT, delete, gone, init, key, row, up, upsert
from script_model import run
from worked_rows import WORKED, check_model, check_worked

A, B = up("a"), up("b")
BEGIN = ("words", "clock", "files", "failing_calls", "prefix", "existing_calls")
LONG_RUN = re.compile(rb"([\n -~])\1{499,}")


# ---- cases

def piece(data):
    """Bytes as a text, or as hexadecimal digits where they are none."""
    try:
        return [data.decode()] if data else []
    except UnicodeDecodeError:
        return [{"hex": data.hex()}]


def coded(data):
    """Bytes as a case has them. Of a letter that stands there many times it says how often."""
    parts, at = [], 0
    for found in LONG_RUN.finditer(data):
        parts += piece(data[at:found.start()]) + [{"text": found[1].decode(), "times": len(found[0])}]
        at = found.end()
    parts += piece(data[at:])
    return parts[0] if len(parts) == 1 else parts


def case(name, script, **how):
    """A case with its end by the model. The script is bytes, or a text with no line feed changed."""
    data = script.encode() if isinstance(script, str) else script
    ending = run(data, **{member: how[member] for member in BEGIN if member in how})
    return {"name": name, "script": coded(data), **how, "status": ending.status, "text": coded(ending.text)}, ending


def plain(name, script, **how):
    return case(name, script, **how)[0]


def with_files(name, script, **how):
    """The same, where the files and the count of the changing calls are looked at too."""
    made, ending = case(name, script, **how)
    found = [{"name": file.decode(), "bytes": coded(data)} for file, data in sorted(ending.files.items())]
    return {**made, "found": found, "calls": ending.calls, "left": 0}


def worked():
    check_model()
    for each in WORKED:
        _, ending = case("", each.script, **each.how)
        check_worked(each, ending)
        yield with_files(f"worked: {each.name}", each.script, **each.how) if each.status < 2 else \
            plain(f"worked: {each.name}", each.script, **each.how)


# ---- scripts that run

def good():
    yield plain("an empty script makes no table", "", calls=0)
    yield plain("empty lines make no table", "\n\r\n\n", calls=0)
    yield plain("an upsert makes no table", A + SNAPSHOT, calls=0)
    yield plain("a delete makes no table", gone("a"), calls=0)
    for name, script in {**scripts.GOOD, **scripts.TEXTS}.items():
        yield plain(name, script)
    for subject, table in [("ranks", scripts.RANKS), ("deletes", scripts.DELETES)]:
        for name, script in table.items():
            yield with_files(f"{subject}: {name}", ORDERED + script + SNAPSHOT)
            yield plain(f"{subject}, which don't count: {name}", INIT + script + SNAPSHOT)
    for name, script in scripts.AT.items():
        yield plain(f"at: {name}", ORDERED + script)
    for name, script in scripts.PARTITIONS.items():
        yield with_files(f"partitions: {name}", INIT + script)
    for buckets in [1, 2, 3, 7, 1024]:
        for name, script in buckets_of(buckets):
            yield with_files(f"{buckets} buckets: {name}", script)
    for name, script in scripts.schema_cases():
        yield with_files(f"schema: {name}", script)
    for name, script in scripts.NESTING.items():
        yield plain(f"nesting: {name}", script)
    for name, clock in scripts.TIMES.items():
        yield plain(f"times: {name}", INIT + A + SNAPSHOT + gone("a") + up("") + A + SNAPSHOT + up("b"), clock=clock)


def buckets_of(buckets):
    made = init(buckets=buckets, ordering="v")
    keys = ["k%d" % number for number in range(40)]
    yield "many keys", made + upsert(*(row(name, place) for place, name in enumerate(keys))) + SNAPSHOT
    yield "two partitions, and deletes", (
        made + upsert(*(row(name, place, "xy"[place % 2]) for place, name in enumerate(keys[:12])))
        + delete(*(key(name, part) for name in keys[:12:3] for part in "yx")) + SNAPSHOT + up("k1", 99) + SNAPSHOT)
    yield "slots at the ends of groups", made + upsert(*map(row, EDGES)) + SNAPSHOT


# Keys whose slots are the first or the last of a group, where there are 2, 3 or 7 groups.
EDGES = ["k27005", "k116485", "k56807", "k6672", "k11219", "k65638", "k73933", "k16514", "k9335", "k40432", "k124155",
         "k43810", "k25480", "k10530", "k42327", "k70674", "k36550", "k174266", "k11911", "k2359"]


# ---- lines outside the language, and rows that are refused

def bad():
    for line in lines.LINES:
        yield plain("bad line: " + json.dumps(line)[1:-1][:60], INIT + A + line + "\n" + SNAPSHOT, calls=0)
    for name, data in lines.BAD_BYTES.items():
        yield plain(f"bad bytes: {name}", INIT.encode() + data)
    for name, line in [*lines.init_lines(), *lines.TWO_CAUSES.items()]:
        yield plain(f"no table: {name}", line + A + SNAPSHOT, calls=0)
    for name, line in lines.job_lines():
        yield plain(f"no job: {name}", INIT + line + SNAPSHOT, calls=0)
    for order in lines.ORDERS:
        script = order.replace("I", INIT[:-1]).replace("U", A[:-1]).replace("S", SNAPSHOT[:-1])
        yield plain("first bad line of " + json.dumps(order), script)
    for name, script in lines.PLACES.items():
        yield plain(f"first bad line: {name}", script)
    for name, misfit in lines.misfits():
        yield plain(f"bad row: {name}", lines.TYPED + upsert(misfit), calls=1)
    for name, script in lines.REFUSED.items():
        yield plain(f"bad row: {name}", script)


# ---- the outside

WORDS = [[], [""], ["run"], ["1"], ["run", "2"], ["run", "0"], ["run", "01"], ["run", "1 "], ["run", ""], ["Run", "1"],
         ["1", "run"], ["run", "1", "1"], ["load", "1"], ["run", "+1"], ["run", "16"], ["--help"]]


def outside():
    for words in WORDS:
        yield plain("words: " + json.dumps(words), "x\n", words=words, files=["note"], reads=0)
    for name, script in [("a table", stops.WRITES), ("a snapshot", SNAPSHOT), ("a bad line", "x\n"), ("no line", "")]:
        yield plain(f"a store with a file: {name}", script, files=["note"], calls=0, left=0)
    yield plain("a store with a table", INIT + A, files=[".hoodie/hoodie.properties"], calls=0)
    for pieces in [1, 2, 7, 100, 65535]:
        yield plain(f"pieces of {pieces} bytes", stops.WRITES, pieces=pieces, left=0)
    for script, number in [(stops.WRITES, 0), (stops.WRITES, 3), ("x\n", 0), ("x\n", 1), (SNAPSHOT, 3)]:
        yield {"name": f"read {number} of {len(script)} bytes fails", "script": script, "files": ["note"], "pieces": 5,
               "failing_reads": [number], "status": 5, "text": ""}
    for name, script, pieces, number in [
            ("write 0 of the rows", stops.WRITES, 1000, 0), ("write 2 of the rows", stops.WRITES, 10, 2),
            ("write 0 of a bad line", "x\n", 4, 0), ("write 1 of a bad line", "x\n", 4, 1),
            ("write 0 of no table", SNAPSHOT, 4, 0), ("write 1 of no table", "", 4, 1)]:
        yield cut(f"{name} fails", script, pieces, number)
    yield cut("write 0 of the usage fails", INIT, 1000, 0, ("run", "2"))
    yield cut("write 6 of the usage fails", INIT, 1, 6, ("run", "2"))
    yield cut("the last write of the rows fails", stops.WRITES, 1, len(run(stops.WRITES.encode()).text) - 1)


def cut(name, script, pieces, number, words=("run", "1")):
    """A run whose output fails at a call, behind so many pieces."""
    ending = run(script.encode(), words)
    return {"name": name, "words": words, "script": script, "pieces": pieces, "failing_writes": [number], "status": 6,
            "text": ending.text[:pieces * number].decode()}


def faults():
    for number in range(stops.MANY_CALLS + 1):
        for prefix in [0, 13, 50]:
            name = f"changing call {number} fails and leaves {prefix} bytes"
            yield with_files(name, stops.MANY, failing_calls=[number], prefix=prefix)
    for name, (script, failing, prefix) in stops.FAULTS.items():
        yield with_files(f"faults: {name}", script, failing_calls=list(failing), prefix=prefix)
    for name, (script, existing) in stops.EXISTING.items():
        yield plain(f"a file exists: {name}", script, existing_calls=existing, reads_back="absent")


def answered(name, script, answer, told, read=b"bytes 0 0", **how):
    """A run of an upsert and a snapshot over a store that reads back this, with what the snapshot tells."""
    ending = run(script.encode())
    head, _, marks = ending.text.partition(b"3 snapshot ")
    assert marks.count(b"read bytes 0 0") == 1, name
    marks = marks.split(b"\n", 1)[1].replace(b"read bytes 0 0", b"read " + read)
    failed = not told.startswith(b"rows")
    return {"name": f"reads back: {name}", "script": coded(script.encode()), "reads_back": answer, **how,
            "status": int(failed), "text": coded(head + b"3 snapshot " + told + b"\n" + marks)}


def answers():
    script = stops.script_with_block_of(len(stops.FIRST))
    missing, short = b"damaged 1 0", b"damaged 2 0"
    yield answered("a failure", script, "failed", b"fault", b"fault 0 0")
    yield answered("no file", script, "absent", stops.damaged(b"missing", 0), missing)
    yield answered("no byte", script, "", stops.damaged(b"short", 0), short)
    yield answered("a byte too few", script, coded(stops.FIRST[:-1]), stops.damaged(b"short", 0), short)
    for subject, table in [("", stops.LOGS), ("content: ", stops.CONTENTS), ("deletes: ", stops.DELETES)]:
        for name, (data, told) in table.items():
            yield answered(subject + name, stops.script_with_block_of(len(data)), coded(data), told)
    for name, script in [("a listing fails", INIT + SNAPSHOT), ("a listing fails where no table is made", SNAPSHOT)]:
        yield {"name": name, "script": script, "reads_back": "absent", "listing_fails": True, "status": 4, "text": ""}


# ---- limits

def repeated(name, parts, **how):
    """A long script, in parts: texts, and texts that stand there many times."""
    script = "".join(part if isinstance(part, str) else part["text"] * part["times"] for part in parts)
    made, _ = case(name, script, **how)
    return {**made, "script": parts}


def many(text, times):
    return {"text": text, "times": times}


ROWS, KEYS, END = '{"job":"upsert","rows":[', '{"job":"delete","keys":[', "]}\n" + SNAPSHOT


def limits():
    for times in [99999, 100000]:
        yield repeated(f"limits: {times + 1:,} rows", [INIT + ROWS, many(row("a") + ",", times), row("b") + END])
        yield repeated(f"limits: {times + 1:,} keys", [INIT + KEYS, many(key("a") + ",", times), key("b") + END])
    long = lines.text_row(6600)
    yield repeated("limits: a log that is read in three pieces",
                   [lines.BODIES + ROWS, many(long + ",", 5300), long + END])
    rest = MOST_SCRIPT - len(INIT + SNAPSHOT)
    for more in [0, 1]:
        yield repeated(f"limits: a script of {MOST_SCRIPT + more:,} bytes",
                       [INIT, many("\n" * 1024, rest // 1024), "\n" * (rest % 1024 + more) + SNAPSHOT])


# The heaviest ones come last.
SUBJECTS = [worked, good, bad, outside, faults, answers, limits]


def main(form, subjects):
    for subject in SUBJECTS:
        if subjects and subject.__name__ not in subjects:
            continue
        for each in subject():
            line = json.dumps(each, ensure_ascii=False, separators=(",", ":"))
            print(line if form == "stdin" else f"ok {each['name']}")


if __name__ == "__main__":
    main(sys.argv[1], sys.argv[2:])
