#!/usr/bin/env python3
"""Tries the Avro crates beside the package avro of Apache, in both directions.

Run: interop_avro.py PROGRAM, where PROGRAM is the built codec_tool. tests/interop.sh runs it.

Values of a schema with each kind of type are made here, each with the JSON that the program prints of it. The package
writes them and the program reads them; the program writes them and the package reads them.
"""
import io
import json
import random
import subprocess
import sys

import avro
import avro.io
import avro.schema

program = sys.argv[1]
COUNT = 2000
SCHEMA = {
    "type": "record",
    "name": "every",
    "fields": [
        {"name": "flag", "type": "boolean"},
        {"name": "small", "type": "int"},
        {"name": "large", "type": "long"},
        {"name": "content", "type": "bytes"},
        {"name": "text", "type": "string"},
        {"name": "sized", "type": {"type": "fixed", "name": "four", "size": 4}},
        {"name": "one", "type": {"type": "enum", "name": "letter", "symbols": ["a", "b", "c"]}},
        {"name": "list", "type": {"type": "array", "items": "long"}},
        {"name": "table", "type": {"type": "map", "values": "string"}},
        {"name": "maybe", "type": ["null", "string"]},
        {"name": "either", "type": ["long", "string", {"type": "array", "items": ["null", "int"]}]},
        {"name": "inner", "type": {"type": "record", "name": "pair", "fields": [
            {"name": "left", "type": "null"}, {"name": "right", "type": ["null", "long"]}]}},
    ],
}
INT_ENDS = [-(2**31), -65, -64, -1, 0, 1, 63, 64, 2**31 - 1]
LONG_ENDS = INT_ENDS + [-(2**63), 2**63 - 1, -(2**35), 2**56]


def number(ends, bits):
    return random.choice(ends) if random.random() < 0.5 else random.randrange(-(2**(bits - 1)), 2**(bits - 1))


def text():
    return "".join(random.choice("aZ_ \"\\\u00e9\u4e2d\U0001f600\n\0") for _ in range(random.randrange(70)))


def some_bytes(length):
    return bytes(random.randrange(256) for _ in range(length))


def longs():
    return [number(LONG_ENDS, 64) for _ in range(random.randrange(5))]


def value():
    """A value as the package has it, and the JSON that the program has for it."""
    flag, small, large = random.random() < 0.5, number(INT_ENDS, 32), number(LONG_ENDS, 64)
    content, sized, told = some_bytes(random.randrange(130)), some_bytes(4), text()
    symbol = random.randrange(3)
    items, table = longs(), {text(): text() for _ in range(random.randrange(4))}
    maybe = random.choice([None, text()])
    branch = random.randrange(3)
    ints = [random.choice([None, number(INT_ENDS, 32)]) for _ in range(random.randrange(4))]
    either = [number(LONG_ENDS, 64), text(), ints][branch]
    right = random.choice([None, number(LONG_ENDS, 64)])
    theirs = {
        "flag": flag, "small": small, "large": large, "content": content, "text": told, "sized": sized,
        "one": "abc"[symbol], "list": items, "table": table, "maybe": maybe, "either": either,
        "inner": {"left": None, "right": right},
    }
    ours = [
        flag, small, large, content.hex(), told, sized.hex(), symbol, items, [list(entry) for entry in table.items()],
        nullable(maybe), [branch, [nullable(item) for item in ints] if branch == 2 else either],
        [None, nullable(right)],
    ]
    return theirs, ours


def nullable(inner):
    return [0, None] if inner is None else [1, inner]


def run(command, given):
    done = subprocess.run([program, "avro", command], input=given, capture_output=True)
    if done.returncode:
        sys.exit(f"failed: {command} ended with {done.returncode}: {done.stderr.decode()}")
    return done.stdout


def check(what, holds):
    if not holds:
        sys.exit(f"failed: {what}")
    print(f"passed: {what}")


random.seed(1)
schema = avro.schema.parse(json.dumps(SCHEMA))
head = json.dumps(SCHEMA).encode() + b"\n"
pairs = [value() for _ in range(COUNT)]
theirs, ours = [pair[0] for pair in pairs], [pair[1] for pair in pairs]

buffer = io.BytesIO()
encoder = avro.io.BinaryEncoder(buffer)
for datum in theirs:
    avro.io.DatumWriter(schema).write(datum, encoder)
written = buffer.getvalue()

read = [json.loads(line) for line in run("decode", head + written).splitlines()]
check(f"the program reads {COUNT} values that avro {avro.__version__} wrote", read == ours)
check("it writes them again byte for byte", run("copy", head + written) == written)

lines = b"".join(json.dumps(line).encode() + b"\n" for line in ours)
buffer = io.BytesIO(run("encode", head + lines))
decoder = avro.io.BinaryDecoder(buffer)
again = [avro.io.DatumReader(schema).read(decoder) for _ in range(COUNT)]
check(f"avro {avro.__version__} reads {COUNT} values that the program wrote", again == theirs)
check("and no byte is left", buffer.read() == b"")
