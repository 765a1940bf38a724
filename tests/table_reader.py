"""Reads the files of a table, from the formats' description alone: its properties, its timeline, the blocks of its
logs and the rows that are left. It shares nothing with the program, nor with table_files.py, which makes such files.

`read_table` gives the table that files are, or raises `Broken` at the first thing that isn't of the formats. A log
may end in the rest of a block that a stop cut, and instants may be pending.
"""
import json
import re
import struct
import uuid
from collections import namedtuple

MAGIC = b"#HUDI#"
SLOTS = 65536
FIRST = "20000101000000000"
PROPERTIES = b".hoodie/hoodie.properties"
FIXED = {"hoodie.table.type": "MERGE_ON_READ", "hoodie.table.version": "6", "hoodie.timeline.layout.version": "1"}
NAMED = ["hoodie.table.name", "hoodie.table.recordkey.fields", "hoodie.table.partition.fields"]
ORDERING = "hoodie.table.precombine.field"
META_FIELDS = ["_hoodie_commit_time", "_hoodie_commit_seqno", "_hoodie_record_key", "_hoodie_partition_path",
               "_hoodie_file_name"]
LOG = re.compile(r"([A-Za-z0-9_=-][A-Za-z0-9_=.-]*)/\.([0-9a-f]{4})([0-9a-f]{4})-([0-9a-f-]{27})-0_%s"
                 r"\.log\.([1-9][0-9]*)_0-0-(0|[1-9][0-9]*)" % FIRST)
INSTANT = re.compile(r"\.hoodie/([0-9]{17})\.deltacommit(\.requested|\.inflight|)")

# rows: as they are printed; torn: the logs that end in a rest.
Table = namedtuple("Table", "name completed pending rows torn")
Schema = namedtuple("Schema", "text fields key partition ordering")
Log = namedtuple("Log", "name partition least most file version attempt")
Block = namedtuple("Block", "time is_delete schema content")
Write = namedtuple("Write", "place key rank row")  # row is None for a delete, and the place of a delete isn't kept


class Broken(AssertionError):
    """Files that are none of a table."""


def need(held, told):
    if not held:
        raise Broken(told)


class Bytes:
    """Bytes that are read one piece after another."""

    def __init__(self, data):
        self.data, self.at = data, 0

    def take(self, count):
        need(0 <= count <= len(self.data) - self.at, f"{count} bytes at {self.at} of {len(self.data)}")
        self.at += count
        return self.data[self.at - count:self.at]

    def fixed(self, form):
        return struct.unpack(">" + form, self.take(struct.calcsize(">" + form)))[0]

    def sized(self):
        return self.take(self.fixed("I"))

    def end(self, told):
        need(self.at == len(self.data), f"bytes behind {told}")


# ---- Avro

def varint(reader):
    number, shift = 0, 0
    while True:
        byte = reader.take(1)[0]
        number |= (byte & 127) << shift
        shift += 7
        if byte < 128:
            return (number >> 1) ^ -(number & 1)


def value(reader, kind):
    if isinstance(kind, list):
        return value(reader, kind[varint(reader)])
    if kind == "null":
        return None
    if kind == "boolean":
        return {0: False, 1: True}[reader.take(1)[0]]
    if kind in ("int", "long"):
        return varint(reader)
    data = reader.take(varint(reader))
    return data.decode() if kind == "string" else data.hex()


def record(data, fields):
    reader = Bytes(data)
    found = {name: value(reader, kind) for name, kind in fields}
    reader.end("a record")
    return found


# ---- properties

def schema_of(files):
    """The name of the table, its schema, and how many file groups a partition begins with."""
    need(PROPERTIES in files, "no properties")
    lines = [line.partition("=") for line in files[PROPERTIES].decode().splitlines()]
    told = {key: text for key, _, text in lines}
    need(len(told) == len(lines) and {key: told[key] for key in FIXED} == FIXED, f"properties {told}")
    schema = json.loads(told.pop("profile.schema"))
    fields = [(field["name"], field["type"]) for field in schema["fields"]]
    name, key, partition = (told[key] for key in NAMED)
    need(set(told) - {"profile.buckets", ORDERING, *NAMED} == set(FIXED), f"properties {told}")
    return name, Schema(schema, fields, key, partition, told.get(ORDERING)), int(told["profile.buckets"])


# ---- the timeline

def instants_of(files):
    """The texts of the states of each instant, by its time."""
    found = {}
    for name, data in files.items():
        match = INSTANT.fullmatch(name.decode())
        if match:
            found.setdefault(match[1], {})[match[2]] = data
    for time, states in found.items():
        want = [".requested", ".inflight", ""][:len(states)]
        need(sorted(states) == sorted(want), f"states {sorted(states)} of {time}")
        need(states[".requested"] == b"", f"bytes of the requested {time}")
    return found


def claims_of(text):
    return [(group["partition"], group["file"], group["base"]) for group in json.loads(text)["groups"]]


# ---- logs

def log_of(table, name):
    match = LOG.fullmatch(name.decode())
    need(match, f"a name that is none: {name}")
    partition, least, most, tail, version, attempt = match.groups()
    made = str(uuid.uuid5(uuid.NAMESPACE_URL, f"{table}/{partition}"))[9:]
    need(tail == made, f"the file id of {name}")
    return Log(name, partition, int(least, 16), int(most, 16), f"{least}{most}-{tail}-0", int(version), int(attempt))


def block_of(data):
    reader = Bytes(data)
    need(reader.fixed("I") == 1, "a version")
    kind = reader.fixed("I")
    need(kind in (1, 3), f"block type {kind}")
    header = {reader.fixed("I"): reader.sized().decode() for _ in range(reader.fixed("I"))}
    need(list(header) == ([0] if kind == 1 else [0, 2]), f"header {header}")
    content = reader.take(reader.fixed("Q"))
    need(reader.fixed("I") == 0, "a footer")
    need(reader.fixed("Q") == len(data) - 8 + 14, "a size")
    reader.end("a block")
    return Block(header[0], kind == 1, header.get(2), content)


def blocks_of(data):
    """The blocks of a log, and whether the rest of one stands behind them."""
    blocks, reader = [], Bytes(data)
    while reader.at < len(data):
        rest = data[reader.at:]
        need(rest.startswith(MAGIC) or len(rest) < 14 and MAGIC.startswith(rest[:6]), f"no magic at {reader.at}")
        if len(rest) < 14 or struct.unpack(">Q", rest[6:14])[0] > len(rest) - 14:
            return blocks, True
        reader.take(6)
        blocks.append(block_of(reader.take(reader.fixed("Q"))))
    return blocks, False


def slot_of(key):
    told = 0xcbf29ce484222325
    for byte in key.encode():
        told = (told ^ byte) * 0x100000001b3 % 2**64
    return told % SLOTS


def deletes_in(schema, log, reader):
    key, rank = reader.sized().decode(), reader.fixed("q")
    need(schema.ordering is not None or rank == 0, f"rank {rank} of a delete")
    return Write(None, key, rank, None)


def put_in(schema, log, time, reader):
    text = record(reader.sized(), [(name, "string") for name in META_FIELDS] + schema.fields)
    own = {name: text[name] for name, _ in schema.fields}
    seqno = re.fullmatch(time + r"_0_(0|[1-9][0-9]*)", text["_hoodie_commit_seqno"])
    key, partition = own[schema.key], own[schema.partition]
    need(seqno, f"seqno {text['_hoodie_commit_seqno']}")
    metas = [text[name] for name in META_FIELDS]
    need(metas == [time, seqno[0], key, partition, log.file], f"columns {metas} in {log.name}")
    need(partition == log.partition, f"a row of {partition} in {log.name}")
    rank = 0 if schema.ordering is None else own[schema.ordering]
    shown = {"_hoodie_commit_seqno": seqno[0], "_hoodie_commit_time": time, **own}
    return Write(int(seqno[1]), key, rank, shown)


def writes_of(schema, log, block):
    reader = Bytes(block.content)
    need(reader.fixed("I") == 3, "a content's version")
    count = reader.fixed("I")
    if block.is_delete:
        writes = [deletes_in(schema, log, reader) for _ in range(count)]
    else:
        metas = [{"name": name, "type": "string"} for name in META_FIELDS]
        need(json.loads(block.schema) == {**schema.text, "fields": metas + schema.text["fields"]}, "a block's schema")
        writes = [put_in(schema, log, block.time, reader) for _ in range(count)]
    reader.end("a content")
    for write in writes:
        need(log.least <= slot_of(write.key) <= log.most, f"the slot of {write.key!r} in {log.name}")
    return writes


# ---- the table

def check_groups(logs, buckets):
    """The logs are of the first tiling, with versions that rise with their attempts."""
    ranges = {(i * SLOTS // buckets, (i + 1) * SLOTS // buckets - 1) for i in range(buckets)}
    need({(log.least, log.most) for log in logs} <= ranges, "slots of no group")
    need(len({log.attempt for log in logs}) == len(logs), "an attempt that is used twice")
    groups = {}
    for log in sorted(logs, key=lambda log: log.version):
        groups.setdefault(log.file, []).append(log)
    for each in groups.values():
        need(sorted(log.attempt for log in each) == [log.attempt for log in each], f"the attempts of {each[0].file}")
    return groups


def check_counts(instants, counts):
    """The metadata of an instant says what its blocks have. A pending one may have some of them."""
    for time, states in instants.items():
        claims = claims_of(states[".inflight"]) if ".inflight" in states else []
        written = counts.pop(time, {})
        need(all(base == FIRST for _, _, base in claims), f"the slices of {time}")
        need(sorted(claims) == claims and len(set(claims)) == len(claims), f"the claims of {time}")
        need(set(written) <= {claim[:2] for claim in claims}, f"blocks of no claim of {time}")
        if "" in states:
            told = json.loads(states[""])
            need(claims_of(states[""]) == claims and told["checkpoint"] is None, f"the metadata of {time}")
            need({(group["partition"], group["file"]): group["writes"] for group in told["groups"]} == written,
                 f"the number of writes of {time}")
    need(not counts, f"blocks of no instant: {sorted(counts)}")


def fold(writes):
    """The rows that are left of the writes of a group, in order."""
    rows = {}
    for write in writes:
        if write.key in rows and rows[write.key].rank > write.rank:
            continue
        rows.pop(write.key, None)
        if write.row is not None:
            rows[write.key] = write
    return rows


def read_table(files):
    """The table that files are, by their names."""
    name, schema, buckets = schema_of(files)
    instants = instants_of(files)
    others = [file for file in files if file != PROPERTIES and not INSTANT.fullmatch(file.decode())]
    groups = check_groups([log_of(name, file) for file in others], buckets)
    completed = sorted(time for time, states in instants.items() if "" in states)
    counts, rows, torn = {}, {}, []
    for logs in groups.values():
        writes = []
        for log in logs:
            blocks, is_torn = blocks_of(files[log.name])
            torn += [log.name] * is_torn
            for block in blocks:
                found = writes_of(schema, log, block)
                told = counts.setdefault(block.time, {})
                told[log.partition, log.file] = told.get((log.partition, log.file), 0) + len(found)
                writes += [(block.time, write) for write in found] if block.time in completed else []
        need(sorted(writes, key=lambda each: each[0]) == writes, f"the order of blocks in {logs[0].file}")
        for key, write in fold(write for _, write in writes).items():
            rows[logs[0].partition, key.encode()] = write.row
    check_counts(instants, counts)
    return Table(name, completed, sorted(set(instants) - set(completed)), [rows[key] for key in sorted(rows)], torn)
