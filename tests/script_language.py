"""The language of scripts, from its description alone: lines, JSON, the jobs that lines are, and why a line is none.

`read_script` gives the jobs of a script's bytes, or a `BadLine`.
"""
import json
import math
import re
from collections import namedtuple
from datetime import datetime, timedelta, timezone
from itertools import accumulate

MOST_SCRIPT, MOST_ITEMS, MOST_BUCKETS, MOST_NESTING = 67108864, 100000, 1024, 127
LEAST, MOST = -2**63, 2**63 - 1
FIRST_TIME, LAST_TIME = 946684800000, 253402300799999
EPOCH = datetime(1970, 1, 1, tzinfo=timezone.utc)
PRIMITIVES = ("boolean", "int", "long", "bytes", "string")
PASSED_OVER = {"doc", "namespace", "aliases", "default", "order", "logicalType"}
MEMBERS = {
    "init": ["name", "schema", "key", "partition", "ordering", "buckets"],
    "upsert": ["lane", "rows"],
    "delete": ["lane", "keys"],
    "snapshot": ["lane", "at"],
}

BadLine = namedtuple("BadLine", "number cause")
Job = namedtuple("Job", "line kind what")  # what: Props, rows as dicts, keys, or a time or None
Key = namedtuple("Key", "partition key rank")
Field = namedtuple("Field", "name kind nullable")
# The places of the fields that are named stand as their names.
Props = namedtuple("Props", "name record fields key partition ordering buckets")


class Refused(Exception):
    """The cause why a line is none."""


# ---- JSON

FLOAT = object()  # a number that is no whole number of 64 bits


def number(text):
    if math.isinf(float(text)):
        raise ValueError("a number that no float holds")
    return FLOAT


def whole(text):
    if len(text) > 20:
        return number(text)
    value = int(text)
    return FLOAT if not LEAST <= value <= MOST or (value == 0 and text.startswith("-")) else value


def refuse(text):
    raise ValueError(text)


def with_bytes(value):
    """Half a pair of code units has no bytes."""
    json.dumps(value, ensure_ascii=False, default=lambda value: 0).encode()
    return value


def members(pairs):
    found = dict(pairs)
    if len(found) < len(pairs):
        with_bytes(pairs)
    return found


def nesting(line):
    """How deep arrays and objects stand in one another, in a line that is JSON."""
    bare = re.sub(rb'"(?:[^"\\]|\\.)*"', b"", line, flags=re.S)
    steps = [1 if byte in b"[{" else -1 for byte in bare if byte in b"[]{}"]
    return max(accumulate(steps), default=0)


def read_json(line):
    """Python's reader takes more than the program: what it takes too much is refused here."""
    if line.count(b"[") + line.count(b"{") > MOST_NESTING and nesting(line) > MOST_NESTING:
        raise ValueError("too deep")
    if line.startswith(b"\xef\xbb\xbf"):
        raise ValueError("byte order mark")
    return with_bytes(json.loads(line.decode(), parse_int=whole, parse_float=number, parse_constant=refuse,
                                 object_pairs_hook=members))


# ---- times

def time_text(milliseconds):
    stamp = EPOCH + timedelta(milliseconds=milliseconds)
    return b"%04d" % stamp.year + stamp.strftime("%m%d%H%M%S").encode() + b"%03d" % (milliseconds % 1000)


def time_of(text):
    """The milliseconds of seventeen digits, or None."""
    if not isinstance(text, str) or not re.fullmatch(r"[0-9]{17}", text) or text < "2":
        return None
    try:
        stamp = datetime.strptime(text[:14], "%Y%m%d%H%M%S").replace(tzinfo=timezone.utc)
    except ValueError:
        return None
    if stamp.strftime("%m%d%H%M%S") != text[4:14]:
        return None
    return (stamp - EPOCH) // timedelta(milliseconds=1) + int(text[14:])


# ---- the members of an init

def is_name(value):
    return isinstance(value, str) and re.fullmatch(r"[A-Za-z_][A-Za-z0-9_]*", value) is not None


def is_table_name(value):
    return isinstance(value, str) and re.fullmatch(r"[A-Za-z0-9_-]{1,64}", value) is not None


def primitive_in(value):
    """The primitive type that a schema is, as a text or as an object, or None."""
    if isinstance(value, dict):
        if set(value) - PASSED_OVER != {"type"}:
            return None
        value = value["type"]
    return value if value in (*PRIMITIVES, "null") and isinstance(value, str) else None


def field_in(value):
    if not isinstance(value, dict) or set(value) - PASSED_OVER != {"name", "type"} or not is_name(value["name"]):
        return None
    name, told = value["name"], value["type"]
    nullable = isinstance(told, list)
    if nullable:
        if len(told) != 2 or primitive_in(told[0]) != "null":
            return None
        told = told[1]
    kind = primitive_in(told)
    if kind not in PRIMITIVES or name.startswith("_hoodie_"):
        return None
    return Field(name, kind, nullable)


def flat_schema(value):
    """The name and the fields of a flat schema, or None."""
    if not isinstance(value, dict) or set(value) - PASSED_OVER != {"type", "name", "fields"}:
        return None
    if value["type"] != "record" or not is_name(value["name"]) or not isinstance(value["fields"], list):
        return None
    fields = list(map(field_in, value["fields"]))
    if None in fields or len({field.name for field in fields}) < len(fields):
        return None
    return value["name"], fields


def wanted(held, name):
    if not held:
        raise Refused("field " + name)


def named_field(value, fields, kinds):
    return isinstance(value, str) and any(field.name == value and kinds(field) for field in fields)


def is_text_field(field):
    return field.kind == "string" and not field.nullable


def is_rank_field(field):
    return field.kind in ("int", "long")


def init_of(line):
    wanted(is_table_name(line.get("name")), "name")
    schema = flat_schema(line.get("schema"))
    wanted(schema, "schema")
    record, fields = schema
    wanted(named_field(line.get("key"), fields, is_text_field), "key")
    wanted(named_field(line.get("partition"), fields, is_text_field), "partition")
    ordering = line.get("ordering", FLOAT)
    wanted(ordering is None or named_field(ordering, fields, is_rank_field), "ordering")
    buckets = line.get("buckets")
    wanted(type(buckets) is int and 1 <= buckets <= MOST_BUCKETS, "buckets")
    return Props(line["name"], record, fields, line["key"], line["partition"], ordering, buckets)


# ---- the members of other jobs

def upsert_of(line):
    rows = line.get("rows")
    wanted(isinstance(rows, list) and 1 <= len(rows) <= MOST_ITEMS, "rows")
    wanted(all(isinstance(row, dict) for row in rows), "rows")
    return rows


def key_in(value):
    """A key to delete, or None."""
    if not isinstance(value, dict) or set(value) - {"partition", "key", "rank"}:
        return None
    if not isinstance(value.get("partition"), str) or not isinstance(value.get("key"), str):
        return None
    if "rank" in value and type(value["rank"]) is not int:
        return None
    return Key(value["partition"], value["key"], value.get("rank"))


def delete_of(line):
    keys = line.get("keys")
    wanted(isinstance(keys, list) and 1 <= len(keys) <= MOST_ITEMS, "keys")
    keys = list(map(key_in, keys))
    wanted(None not in keys, "keys")
    return keys


def snapshot_of(line):
    if "at" not in line:
        return None
    at = time_of(line["at"])
    wanted(at is not None, "at")
    return at


READERS = {"init": init_of, "upsert": upsert_of, "delete": delete_of, "snapshot": snapshot_of}


# ---- lines

def job_of(number, line, is_first):
    """The job of a line. The members are tried in order, and then those that aren't known, in byte order."""
    try:
        value = read_json(line)
    except (ValueError, RecursionError):
        raise Refused("json") from None
    if not isinstance(value, dict):
        raise Refused("object")
    kind = value.get("job")
    wanted(isinstance(kind, str) and kind in READERS, "job")
    if kind == "init":
        wanted("lane" not in value, "lane")
    else:
        lane = value.get("lane", 1)
        wanted(type(lane) is int and lane == 1, "lane")
    what = READERS[kind](value)
    for name in sorted(set(value) - {"job", *MEMBERS[kind]}, key=str.encode):
        raise Refused("field " + name)
    if kind == "init" and not is_first:
        raise Refused("init_place")
    return Job(number, kind, what)


def lines_of(script):
    *ended, last = script.split(b"\n")
    lines = [line[:-1] if line.endswith(b"\r") else line for line in ended]
    return lines + [last] if last else lines


def read_script(script):
    """The jobs, or the first line outside the language with its first cause."""
    jobs = []
    for number, line in enumerate(lines_of(script), 1):
        if not line:
            continue
        try:
            jobs.append(job_of(number, line, not jobs))
        except Refused as refused:
            return BadLine(number, str(refused))
    return jobs
