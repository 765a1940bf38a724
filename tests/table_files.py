"""The names and bytes of a table's files, from the formats' description alone: file ids and slots, the timeline's
metadata, the properties, and the blocks of logs with their contents."""
import json
import struct
import uuid

from script_language import FIRST_TIME, time_text

MAGIC = b"#HUDI#"
CONTENT_VERSION = 3
DELETE, DATA = 1, 3
META_FIELDS = ["_hoodie_commit_time", "_hoodie_commit_seqno", "_hoodie_record_key", "_hoodie_partition_path",
               "_hoodie_file_name"]
PROPERTIES = b".hoodie/hoodie.properties"
SLOTS = 65536


def compact(value):
    return json.dumps(value, ensure_ascii=False, sort_keys=True, separators=(",", ":")).encode()


# ---- slots and names

def slot_of(key):
    """FNV-1a of 64 bits, modulo the number of slots."""
    told = 0xcbf29ce484222325
    for byte in key:
        told = (told ^ byte) * 0x100000001b3 % 2**64
    return told % SLOTS


def range_of(slot, buckets):
    """The first and the last slot of the group that has a slot, where a partition begins with so many."""
    for i in range(buckets):
        least, most = i * SLOTS // buckets, (i + 1) * SLOTS // buckets - 1
        if least <= slot <= most:
            return least, most
    raise ValueError(slot)


def file_id(table, partition, slots):
    tail = str(uuid.uuid5(uuid.NAMESPACE_URL, f"{table}/{partition}"))[9:]
    return "%04x%04x-%s-0" % (*slots, tail)


def log_name(table, partition, slots, version, attempt):
    file, first = file_id(table, partition, slots), time_text(FIRST_TIME).decode()
    return f"{partition}/.{file}_{first}.log.{version}_0-0-{attempt}".encode()


def timeline_name(time, state):
    return b".hoodie/" + time_text(time) + b".deltacommit" + state


# ---- texts

def claim(table, partition, slots, **more):
    """A slice that is written to, as metadata names it."""
    return dict(base=time_text(FIRST_TIME).decode(), file=file_id(table, partition, slots), partition=partition, **more)


def inflight_text(table, groups):
    return compact({"groups": [claim(table, *group) for group in groups]})


def completed_text(table, groups, counts):
    return compact({"checkpoint": None,
                    "groups": [claim(table, *group, writes=count) for group, count in zip(groups, counts)]})


def field_type(field):
    return ["null", field.kind] if field.nullable else field.kind


def schema_text(props, meta=()):
    """The schema of the table's rows, behind further string fields."""
    fields = [{"name": name, "type": "string"} for name in meta]
    fields += [{"name": field.name, "type": field_type(field)} for field in props.fields]
    return compact({"fields": fields, "name": props.record, "type": "record"})


def properties_text(props):
    lines = [("hoodie.table.name", props.name), ("hoodie.table.type", "MERGE_ON_READ"), ("hoodie.table.version", "6"),
             ("hoodie.table.recordkey.fields", props.key), ("hoodie.table.partition.fields", props.partition)]
    lines += [("hoodie.table.precombine.field", props.ordering)] if props.ordering is not None else []
    lines += [("hoodie.timeline.layout.version", "1"), ("profile.buckets", str(props.buckets)),
              ("profile.schema", schema_text(props).decode())]
    return "".join(f"{key}={value}\n" for key, value in lines).encode()


# ---- Avro

def avro_long(number):
    left = number << 1 if number >= 0 else (-number << 1) - 1
    out = bytearray()
    while left > 127:
        out.append(left & 127 | 128)
        left >>= 7
    out.append(left)
    return bytes(out)


def avro_bytes(data):
    return avro_long(len(data)) + data


def avro_cell(field, value):
    if field.nullable:
        if value is None:
            return avro_long(0)
        return avro_long(1) + avro_cell(field._replace(nullable=False), value)
    if field.kind == "boolean":
        return bytes([value])
    if field.kind in ("int", "long"):
        return avro_long(value)
    return avro_bytes(value if field.kind == "bytes" else value.encode())


def avro_row(fields, values):
    return b"".join(map(avro_cell, fields, values))


# ---- contents and blocks

def sized(data):
    return struct.pack(">I", len(data)) + data


def content_of(items):
    return struct.pack(">II", CONTENT_VERSION, len(items)) + b"".join(items)


def meta_texts(time, place, key, partition, file):
    instant = time_text(time)
    return [instant, b"%s_0_%d" % (instant, place), key.encode(), partition.encode(), file.encode()]


def record(metas, body):
    return sized(b"".join(map(avro_bytes, metas)) + body)


def deleted(key, rank):
    return sized(key.encode()) + struct.pack(">q", rank)


def framed(kind, header, inner):
    rest = struct.pack(">II", 1, kind) + header + struct.pack(">Q", len(inner)) + inner + struct.pack(">I", 0)
    return MAGIC + struct.pack(">Q", len(rest) + 8) + rest + struct.pack(">Q", len(MAGIC) + 8 + len(rest))


def header_of(entries):
    return struct.pack(">I", len(entries)) + b"".join(struct.pack(">I", key) + sized(text) for key, text in entries)


def data_block(time, schema, inner):
    return framed(DATA, header_of([(0, time_text(time)), (2, schema)]), inner)


def delete_block(time, inner):
    return framed(DELETE, header_of([(0, time_text(time))]), inner)
