#!/usr/bin/python3
"""Has Apache Avro's own Python package decode the records of data blocks that the crate row_codec writes, and the crate show the
rows of blocks whose records the package encodes.

Run: interop_contents.py PROGRAM, where PROGRAM is the built codec_tool. tests/interop.sh runs it.
Rows are made here, as the JSON that comes in. A content is a version and a count, and then each record behind its length.
"""
import io
import json
import random
import struct
import subprocess
import sys

import avro
import avro.io
import avro.schema

COUNT = 1000
INSTANT, FILE = "20240101000000001", "f"
FIELDS = [
    {"name": "id", "type": "string"}, {"name": "p", "type": "string"}, {"name": "v", "type": ["null", "long"]},
    {"name": "n", "type": "int"}, {"name": "f", "type": "boolean"}, {"name": "d", "type": ["null", "bytes"]},
]
META = ["_hoodie_commit_time", "_hoodie_commit_seqno", "_hoodie_record_key", "_hoodie_partition_path", "_hoodie_file_name"]
PROPERTIES = """hoodie.table.name=t
hoodie.table.type=MERGE_ON_READ
hoodie.table.version=6
hoodie.table.recordkey.fields=id
hoodie.table.partition.fields=p
hoodie.table.precombine.field=v
hoodie.timeline.layout.version=1
profile.buckets=1
profile.schema=%s
""" % json.dumps({"fields": FIELDS, "name": "r", "type": "record"}, separators=(",", ":"))


def text(least):
    return "".join(random.choice("aZ_ \"\\\u00e9\u4e2d\U0001f600\n\0") for _ in range(random.randrange(least, 70)))


def row(partition):
    """A row as JSON, and the record that its block has, but for its place."""
    content = random.choice([None, bytes(random.randrange(256) for _ in range(random.randrange(130)))])
    told = {"id": text(1), "p": partition, "v": random.choice([-2**63, -1, 0, 1, 2**63 - 1]),
            "n": random.choice([-2**31, -64, 0, 63, 2**31 - 1]), "f": random.random() < 0.5}
    return {**told, "d": content if content is None else content.hex()}, {**told, "d": content}


def records_of(content):
    """The bytes of the records of a content."""
    version, count = struct.unpack(">II", content[:8])
    assert version == 3, f"version {version}"
    at = 8
    for _ in range(count):
        (size,) = struct.unpack(">I", content[at:at + 4])
        yield content[at + 4:at + 4 + size]
        at += 4 + size
    assert at == len(content), "bytes behind the last record"


def decoded(schema, data):
    buffer = io.BytesIO(data)
    record = avro.io.DatumReader(schema).read(avro.io.BinaryDecoder(buffer))
    assert buffer.tell() == len(data), "bytes behind the record"
    return record


def encoded(schema, record):
    buffer = io.BytesIO()
    avro.io.DatumWriter(schema).write(record, avro.io.BinaryEncoder(buffer))
    return prefixed(buffer.getvalue())


def prefixed(data):
    return struct.pack(">I", len(data)) + data


def meta(place, row):
    """The fields before a row's own, of the row at this place of its batch."""
    return dict(zip(META, [INSTANT, f"{INSTANT}_0_{place}", row["id"], row["p"], FILE]))


def output_of(program, command, data):
    given = PROPERTIES.encode() + b"\0" + data
    done = subprocess.run([program, "contents", command], input=given, capture_output=True)
    if done.returncode:
        sys.exit(f"failed: contents {command} ended with {done.returncode}: {done.stderr.decode()}")
    return done.stdout.splitlines()


def try_written(program, schema):
    """The records of blocks that the program writes, each of one row."""
    rows = [row("x=%d" % random.randrange(9)) for _ in range(COUNT)]
    lines = output_of(program, "write", b"".join(json.dumps(told).encode() + b"\n" for told, _ in rows))
    for place, (line, (_, wanted)) in enumerate(zip(lines, rows, strict=True)):
        found = [decoded(schema, data) for data in records_of(bytes.fromhex(line.decode()))]
        if found != [{**meta(place, wanted), **wanted}]:
            sys.exit(f"failed: block {place} has {found}, not {wanted}")
    print(f"passed: avro {avro.__version__} decodes the records of {COUNT} written blocks")


def try_read(program, schema):
    """The rows that the program shows of a block whose records avro encodes."""
    rows = [row("x") for _ in range(COUNT)]
    records = [encoded(schema, {**meta(place, record), **record}) for place, (_, record) in enumerate(rows)]
    lines = output_of(program, "show", prefixed(struct.pack(">II", 3, COUNT) + b"".join(records)))
    for place, (line, (wanted, _)) in enumerate(zip(lines, rows, strict=True)):
        times = {"_hoodie_commit_time": INSTANT, "_hoodie_commit_seqno": f"{INSTANT}_0_{place}"}
        if json.loads(line) != {**times, **wanted}:
            sys.exit(f"failed: row {place} is {line.decode()}, not {wanted}")
    print(f"passed: the {COUNT} rows of a block whose records avro {avro.__version__} encodes")


def main():
    random.seed(1)
    schema = avro.schema.parse(json.dumps(
        {"type": "record", "name": "r", "fields": [{"name": name, "type": "string"} for name in META] + FIELDS}))
    try_written(sys.argv[1], schema)
    try_read(sys.argv[1], schema)


main()
