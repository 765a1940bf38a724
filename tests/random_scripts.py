#!/usr/bin/env python3
"""Makes random scripts, many of them damaged, and compares how they end with tests/script_model.py.

Run: random_scripts.py PROGRAM SEED COUNT    runs them by the built program, each on a folder of its own below the
                                             current one: status, text and files are compared
     random_scripts.py --cases SEED COUNT    prints them as cases of the program run_cases, with clocks, with stores
                                             that fail, and with snapshots of known times

It ends with status 1 at the first script whose end isn't the right one.
"""
import json
import random
import shutil
import sys

from program_runs import check_end, files_in, run_program
from run_cases import with_files
from script_language import LEAST, MOST, time_text
from script_lines import T0, init_members, schema, told

NUMBERS = ["1", "-5", "0", "-0", "1.5", "1.0", "1e2", "01", str(MOST), str(MOST + 1), str(LEAST), str(LEAST - 1),
           str(2**31 - 1), str(2**31), str(-2**31), str(-2**31 - 1)]
TEXTS = ['"a"', '"b"', '""', '"\u00e9"', '"\\u0061"', '"\\""', '"\\\\"', '"\\u0000"', '"\\ud83d\\ude00"', '"\\ud800"',
         '"0aff"', '"0A"', '"%s"' % ("k" * 1000), '"%s"' % ("k" * 1001)]
OTHERS = ["null", "true", "[]", "{}", "x"]
GOOD = {
    "boolean": ["true", "false"], "int": ["0", "-1", "7", str(2**31 - 1), str(-2**31)],
    "long": ["0", "1", "1", "2", "-3", str(MOST), str(LEAST)], "bytes": ['""', '"00"', '"0aff"'], "string": TEXTS[:9],
}
KEYS = ['"a"', '"b"', '"c"', '"\\u0061"', '"k1"', '"\u4e2d"']
PARTITIONS = ['"x"', '"y"', '"x=1"', '"x"', '"x"']
BYTES = b'{}[]",:\\\n\r 0-e.\x00\xff'
TIMES = [time_text(T0 + after).decode() for after in range(6)]


# ---- tables

def random_fields(draw):
    """Fields by name, each with its type: id and p, and a few more, in any order."""
    fields = [("id", "string"), ("p", "string")]
    for name in draw.sample(["v", "w", "a", "_", "Z9", "note"], draw.randint(0, 5)):
        kind = draw.choice(list(GOOD))
        fields.append((name, draw.choice([kind, kind, ["null", kind]])))
    draw.shuffle(fields)
    return fields


def is_rank(kind):
    return kind in ("int", "long", ["null", "int"], ["null", "long"])


def random_init(draw):
    fields = random_fields(draw)
    ranks = [name for name, kind in fields if is_rank(kind)]
    ordering = draw.choice(ranks) if ranks and draw.random() < 0.7 else False
    members = init_members(schema=schema(fields), ordering=ordering, buckets=draw.choice([1, 1, 1, 2, 3, 7, 1024]),
                           key=draw.choice(["id"] * 9 + ["p"]))
    if draw.random() < 0.07:
        name = draw.choice(list(members) + ["lane", "more"])
        members[name] = draw.choice([None, 0, 1, "v", "id", "", [], {}, True, 1025])
    if draw.random() < 0.03:
        del members[draw.choice(list(members))]
    return fields, shuffled(draw, [(name, told(value)) for name, value in members.items()])


# ---- lines

def shuffled(draw, members):
    draw.shuffle(members)
    space = draw.choice(["", "", " ", "\t"])
    return "{%s}" % f",{space}".join(f'"{name}":{value}' for name, value in members)


def chosen(draw, values):
    return draw.choice(values if draw.random() < 0.98 else NUMBERS + TEXTS + OTHERS)


def values_of(name, kind):
    if name in ("id", "p"):
        return KEYS if name == "id" else PARTITIONS
    return GOOD[kind[1]] + ["null"] if isinstance(kind, list) else GOOD[kind]


def random_row(draw, fields):
    members = [(name, chosen(draw, values_of(name, kind))) for name, kind in fields]
    members = [(name, value) for name, value in members if value != "null" or draw.random() < 0.5]
    if draw.random() < 0.02:
        members.append((draw.choice(["more", "id", "p", "v", ""]), draw.choice(NUMBERS + TEXTS + OTHERS)))
    if draw.random() < 0.01 and members:
        members.pop(draw.randrange(len(members)))
    return shuffled(draw, members)


def random_key(draw):
    members = [("partition", chosen(draw, PARTITIONS)), ("key", chosen(draw, KEYS))]
    if draw.random() < 0.6:
        members.append(("rank", chosen(draw, GOOD["long"])))
    if draw.random() < 0.01:
        members.append(draw.choice([("more", "1"), ("key", "1"), ("Rank", "1")]))
    return shuffled(draw, members)


def random_job(draw, fields, times):
    kind = draw.choice(["upsert"] * 5 + ["delete"] * 2 + ["snapshot"] * 3)
    if draw.random() < 0.01:
        kind = draw.choice(["init", "compact", "barrier", "Upsert", ""])
    members = [("job", told(kind))]
    if kind == "upsert":
        members.append(("rows", "[%s]" % ",".join(random_row(draw, fields) for _ in range(draw.randint(1, 4)))))
    elif kind == "delete":
        members.append(("keys", "[%s]" % ",".join(random_key(draw) for _ in range(draw.randint(1, 4)))))
    elif draw.random() < 0.5:
        members.append(("at", chosen(draw, [told(time) for time in times])))
    if draw.random() < 0.1:
        members.append(("lane", chosen(draw, ["1"])))
    if draw.random() < 0.01:
        members.append(draw.choice([("at", told(TIMES[0])), ("rows", "[{}]"), ("more", "1"), ("job", '"snapshot"')]))
    return shuffled(draw, members)


def damaged(draw, script):
    damage = bytearray(script)
    for _ in range(draw.randint(1, 3)):
        at = draw.randrange(len(damage) + 1)
        damage[at:at + draw.randrange(2)] = bytes([draw.choice(BYTES)] * draw.randrange(2))
    return bytes(damage)


def random_script(draw, times=TIMES, damages=0.2):
    fields, first = random_init(draw)
    lines = [first] if draw.random() < 0.98 else []
    for _ in range(draw.randint(0, 8)):
        lines += [random_job(draw, fields, times)] + draw.choice([[], [], [], [""]])
    script = draw.choice(["\n", "\n", "\r\n"]).join(lines) + draw.choice(["", "\n", "\n"])
    return damaged(draw, script.encode()) if draw.random() < damages else script.encode()


# ---- how they end

def try_program(program, seed, count):
    draw, statuses = random.Random(seed), {}
    for turn in range(count):
        folder, script = f"random{seed}.{turn}", random_script(draw)
        ran = run_program(program, folder, script)
        try:
            check_end(script, ran.returncode, ran.stdout, files_in(folder))
        except AssertionError as error:
            sys.exit(f"script {turn} of seed {seed}, {script}: {error}")
        statuses[ran.returncode] = statuses.get(ran.returncode, 0) + 1
        shutil.rmtree(folder, ignore_errors=True)
    print(", ".join(f"{number} with status {status}" for status, number in sorted(statuses.items())))


def some(draw, most, chance):
    """A few of the numbers below one, in most cases none."""
    return sorted(draw.sample(range(most), draw.randint(1, 3))) if draw.random() < chance else []


def random_case(draw, name):
    clock = [T0 + draw.randint(-2, 4) for _ in range(draw.randint(1, 5))]
    how = {"clock": clock, "pieces": draw.choice([1, 7, 100, 65536])}
    failing = some(draw, 24, 0.4)
    if failing:
        how.update(failing_calls=failing, prefix=draw.choice([0, 1, 13, 14, 100, 10000]))
    return with_files(name, random_script(draw, damages=0.05), **how)


def print_cases(seed, count):
    draw = random.Random(seed)
    for turn in range(count):
        print(json.dumps(random_case(draw, f"random {seed}.{turn}"), ensure_ascii=False, separators=(",", ":")))


def main(program, seed, count):
    if program == "--cases":
        print_cases(int(seed), int(count))
    else:
        try_program(program, int(seed), int(count))


main(*sys.argv[1:])
