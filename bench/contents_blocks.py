#!/usr/bin/env python3
"""Writes the same rows twice, as the contents of data blocks of 10,000 rows, each behind its length in four bytes: as records in
their written form, behind the properties of their table and a zero byte, and as keys, ranks and bodies alone.

Run: contents_blocks.py COUNT RECORDS PLAIN

Keys are drawn from half as many names as there are rows, so that about as many rows meet a present row as meet none.
Ranks are drawn from a thousand numbers around 0, so that some rows meet their own rank. Bodies have 16 bytes.
"""
import random
import struct
import sys

SEED = 1
BLOCK = 10_000
INSTANT, PARTITION, FILE = "20240101000000001", "x", "f"
PROPERTIES = """hoodie.table.name=t
hoodie.table.type=MERGE_ON_READ
hoodie.table.version=6
hoodie.table.recordkey.fields=id
hoodie.table.partition.fields=partition
hoodie.table.precombine.field=rank
hoodie.timeline.layout.version=1
profile.buckets=1
profile.schema={"fields":[{"name":"id","type":"string"},{"name":"partition","type":"string"},{"name":"rank","type":"long"},\
{"name":"body","type":"string"}],"name":"r","type":"record"}
"""


def long(number):
    number = number << 1 if number >= 0 else (-number << 1) - 1
    out = bytearray()
    while number > 127:
        out.append(number & 127 | 128)
        number >>= 7
    out.append(number)
    return bytes(out)


def text(told):
    return long(len(told)) + told.encode()


def prefixed(data):
    return struct.pack(">I", len(data)) + data


def record(place, key, rank, body):
    """A row's record, with its place in its block."""
    meta = [INSTANT, f"{INSTANT}_0_{place}", key, PARTITION, FILE]
    return prefixed(b"".join(map(text, meta + [key, PARTITION])) + long(rank) + text(body))


def plain(place, key, rank, body):
    return prefixed(key.encode()) + struct.pack(">q", rank) + prefixed(body.encode())


def content(form, rows):
    told = [form(place, *row) for place, row in enumerate(rows)]
    return prefixed(struct.pack(">II", 3, len(rows)) + b"".join(told))


def main(count, records_file, plain_file):
    draw = random.Random(SEED)
    rows = [("k%06d" % draw.randrange(count // 2), draw.randrange(-500, 500), "%016x" % draw.getrandbits(64))
            for _ in range(count)]
    with open(records_file, "wb") as records, open(plain_file, "wb") as plains:
        records.write(PROPERTIES.encode() + b"\0")
        for start in range(0, count, BLOCK):
            block = rows[start:start + BLOCK]
            records.write(content(record, block))
            plains.write(content(plain, block))


main(int(sys.argv[1]), sys.argv[2], sys.argv[3])
