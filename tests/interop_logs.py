#!/usr/bin/python3
"""Has Apache Avro's own Python package read the logs that the program wrote: each record of a data block by the schema
that the block's header has.

Run: interop_logs.py PROGRAM, where PROGRAM is the built hudi_cli. tests/interop.sh runs it.
Rows are made here, as the JSON that comes in, and so is what a record must have. tests/table_reader.py finds the
blocks.
"""
import io
import json
import os
import random
import subprocess
import sys
import tempfile

import avro
import avro.io
import avro.schema

from program_runs import files_in
from table_reader import Bytes, blocks_of

WRITES, ROWS = 20, 100
FIELDS = [
    {"name": "flag", "type": "boolean"}, {"name": "id", "type": "string"}, {"name": "small", "type": "int"},
    {"name": "v", "type": "long"}, {"name": "place", "type": "string"}, {"name": "data", "type": "bytes"},
    {"name": "maybe_flag", "type": ["null", "boolean"]}, {"name": "maybe_small", "type": ["null", "int"]},
    {"name": "maybe_v", "type": ["null", "long"]}, {"name": "maybe_data", "type": ["null", "bytes"]},
    {"name": "note", "type": ["null", "string"]},
]
INIT = {"job": "init", "name": "t", "schema": {"type": "record", "name": "r", "fields": FIELDS}, "key": "id",
        "partition": "place", "ordering": "v", "buckets": 3}
INTS = [-2**31, -65, -64, -1, 0, 1, 63, 64, 2**31 - 1]
LETTERS = "aZ_ \"\\\u00e9\u05d0\u0430\u4e2d\U0001f600\n\0"
LONGS = INTS + [-2**63, -2**31 - 1, 2**31, 2**63 - 1]


def text(draw, least):
    return "".join(draw.choice(LETTERS) for _ in range(draw.randrange(least, 70)))


def value(draw, kind):
    if isinstance(kind, list):
        return None if draw.random() < 0.3 else value(draw, kind[1])
    if kind in ("int", "long"):
        return draw.choice(INTS if kind == "int" else LONGS)
    if kind == "boolean":
        return draw.random() < 0.5
    return text(draw, 0) if kind == "string" else draw.randbytes(draw.randrange(130))


def record(draw):
    return {**{field["name"]: value(draw, field["type"]) for field in FIELDS},
            "id": text(draw, 1), "place": "p=%d" % draw.randrange(4)}


def as_json(record):
    return {name: value.hex() if isinstance(value, bytes) else value for name, value in record.items()}


def decoded(schema, data):
    buffer = io.BytesIO(data)
    found = avro.io.DatumReader(schema).read(avro.io.BinaryDecoder(buffer))
    assert buffer.tell() == len(data), "bytes behind the record"
    return found


def records_of(block):
    """The records of a data block, read by the schema in its header."""
    schema, content = avro.schema.parse(block.schema), Bytes(block.content)
    assert content.fixed("I") == 3, "the content's version"
    found = [decoded(schema, content.sized()) for _ in range(content.fixed("I"))]
    content.end("a content")
    return found


def file_id(name):
    return os.path.basename(name).decode()[1:].rsplit("_", 2)[0]


def run(program, folder, batches):
    """The times at which batches were committed."""
    lines = [INIT] + [{"job": "upsert", "rows": [as_json(record) for record in batch]} for batch in batches]
    script = "".join(json.dumps(line, ensure_ascii=False) + "\n" for line in lines)
    done = subprocess.run([program, folder, "run", "1"], input=script.encode(), stdout=subprocess.PIPE, check=True)
    told = [line.split() for line in done.stdout.decode().splitlines() if not line.startswith("mark ")]
    assert len(told) == len(batches) + 1, "an answer that is missing"
    assert all(line[1:3] == ["upsert", "committed"] for line in told[1:]), "an upsert that isn't committed"
    return [line[3] for line in told[1:]]


def main(program):
    draw = random.Random(1)
    batches = [[record(draw) for _ in range(ROWS)] for _ in range(WRITES)]
    with tempfile.TemporaryDirectory() as folder:
        times = run(program, folder, batches)
        files = {name: data for name, data in files_in(folder).items() if b".log." in name}
    wanted = {f"{time}_0_{place}": row for time, batch in zip(times, batches) for place, row in enumerate(batch)}
    blocks = [(name, block) for name, data in files.items() for block in blocks_of(data)[0]]
    count = len(wanted)
    for name, block in blocks:
        for found in records_of(block):
            row = wanted.pop(found["_hoodie_commit_seqno"])
            metas = {"_hoodie_commit_time": block.time, "_hoodie_commit_seqno": found["_hoodie_commit_seqno"],
                     "_hoodie_record_key": row["id"], "_hoodie_partition_path": row["place"],
                     "_hoodie_file_name": file_id(name)}
            if found != {**metas, **row}:
                sys.exit(f"failed: {name} has {found}, not {row}")
    if wanted:
        sys.exit(f"failed: {len(wanted)} rows stand in no log")
    print(f"passed: avro {avro.__version__} reads the {count} records of {len(blocks)} blocks in {len(files)} logs")


main(sys.argv[1])
