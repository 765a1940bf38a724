"""Lines outside the language, and rows and keys that a table refuses, by cause."""
from script_lines import (FIELDS, INIT, ORDERED, SNAPSHOT, TIME, delete, gone, init, init_members, key, row, schema,
                          snapshot, told, up, upsert)

MOST = 2**63 - 1


def as_line(members):
    return told(members) + "\n"


# ---- lines that are no JSON or no object, and jobs that there aren't

LINES = [
    "x", "{}", "[]", "null", "true", "1", '"snapshot"', " ", "\r\r", "[" * 128, '{"job":\n"snapshot"}', "[{}]",
    '{"job":"snap"}', '{"job":"Snapshot"}', '{"Job":"snapshot"}', '{"job":1}', '{"job":null}', '{"job":["snapshot"]}',
    '{"job":"snapshot",}', '{"job":"snapshot"} {}', '{"job":"snapshot"', '{"job":"snapshot","job":"snap"}',
    "{'job':'snapshot'}", '{"job":"snapshot"}//', '{"job":"snapshot"},', '{"job" "snapshot"}', '{job:"snapshot"}',
    '{"job":"compact"}', '{"job":"rollback"}', '{"job":"cluster","how":"cut","partition":"x","slot":0}',
    '{"job":"clean","keep":1}', '{"job":"read_optimised"}', '{"job":"incremental","from":"20240101000000000"}',
    '{"job":"barrier"}', '{"job":"stream"}', '{"job":""}', '{"job":"init "}', '{"rows":[%s]}' % row("a"),
    '{"job":"snapshot","at":NaN}', '{"job":"snapshot","at":Infinity}', '{"job":"snapshot","at":1e400}',
    '{"job":"snapshot","at":-1e400}', '{"job":"snapshot","at":1%s}' % ("0" * 400), '{"job":"snapshot","at":01}',
    '{"job":"snapshot","at":+1}', '{"job":"snapshot","at":.5}', '{"job":"snapshot","at":1.}',
    '{"job":"snapshot","at":0x1}',
    '{"job":"snapshot","at":"\\x"}', '{"job":"snapshot","at":"\\ud83d"}', '{"job":"snapshot","\\ude00":1}',
    '{"job":"snapshot","at":["\\ud83d"],"at":"%s"}' % TIME, '{"job":"snapshot","at":1e400,"at":"%s"}' % TIME,
]
BAD_BYTES = {
    "a byte that is no text": b'{"job":"snapshot"}\xff\n',
    "a key cut within a character": upsert('{"id":"\0","p":"x","v":1}').encode().replace(b"\0", b"\xc3"),
    "half a surrogate pair": upsert('{"id":"\0","p":"x","v":1}').encode().replace(b"\0", b"\xed\xa0\x80"),
    "a code point that is written too long": upsert('{"id":"\0","p":"x","v":1}').encode().replace(b"\0", b"\xc0\xaf"),
    "a code point past the last": upsert('{"id":"\0","p":"x","v":1}').encode().replace(b"\0", b"\xf4\x90\x80\x80"),
    "a byte order mark": b'\xef\xbb\xbf{"job":"snapshot"}\n',
    "a control character within a text": upsert('{"id":"\x01","p":"x","v":1}').encode(),
    "NUL behind a line": b'{"job":"snapshot"}\0\n',
    "a carriage return at the very end": b'{"job":"snapshot"}x\r',
}

# ---- lanes, and members that jobs don't have

MEMBERS = [
    *({"job": "snapshot", "lane": lane} for lane in [0, 2, 16, -1, "1", None, 1.0, True, [1], 2**64]),
    {"job": "upsert", "lane": 2, "rows": 1}, {"job": "delete", "lane": 0, "keys": []},
    {"job": "snapshot", "rows": []}, {"job": "snapshot", "keys": []}, {"job": "upsert", "rows": [{}], "at": TIME},
    {"job": "delete", "keys": [{"partition": "x", "key": "a"}], "rows": []},
    {"job": "snapshot", "at": TIME, "to": TIME}, {"job": "snapshot", "b": 1, "a": 1, "B": 1},
    {"job": "snapshot", "\u00e9": 1, "z": 1}, {"job": "snapshot", "\U0001f600": 1, "\uffff": 1},
    {"job": "snapshot", "": 1},
    {"job": "snapshot", "a\nb": 1}, {"job": "snapshot", "gr\u00f6\u00dfe": 1}, {"job": "snapshot", "\u540d\u524d": 1},
    {"job": "snapshot", "at": 1, "a": 1}, {"job": "upsert", "rows": [], "a": 1}, {"job": "upsert", "Rows": [{}]},
]

# ---- init

SCHEMAS = [
    None, "string", "r", 1, [], ["null", "string"], {}, {"type": "record"}, {"type": "string"},
    {"type": "record", "name": "r"}, {"type": "record", "fields": schema()["fields"]}, {**schema(), "name": 1},
    {**schema(), "name": "a.b"}, {**schema(), "name": ""}, {**schema(), "name": "1r"}, {**schema(), "name": "\u00e9"},
    {**schema(), "more": 1}, {**schema(), "fields": {}}, {**schema(), "type": "Record"}, {**schema(), "type": schema()},
]
FIELD_TYPES = [
    None, 1, "", "text", "String", "null", "float", "double", "r", [], ["null"], ["string"], ["long", "null"],
    ["null", "null"],
    ["null", "long", "string"], ["int", "long"], ["null", ["null", "long"]], ["null", "float"], {}, {"type": "null"},
    {"type": "int", "more": 1}, {"type": {"type": "int"}}, {"type": "array", "items": "int"},
    {"type": "map", "values": "int"},
    {"type": "fixed", "name": "f", "size": 1}, {"type": "enum", "name": "e", "symbols": ["A"]}, schema(),
]
FIELD_NAMES = ["", "1", "a-b", "a.b", "a b", "\u00e9", "_hoodie_", "_hoodie_commit_time", "id", 1, None]
OTHER_FIELDS = [{}, {"name": "f"}, {"type": "int"}, {"name": "f", "type": "int", "more": 1}, "f", 1, None]


def with_field(field):
    return init(schema={**schema(), "fields": schema()["fields"] + [field]})


def init_lines():
    """Lines that make no table, each with what is wrong in it."""
    for name in ["name", "schema", "key", "partition", "buckets"]:
        yield f"no {name}", as_line({k: v for k, v in init_members().items() if k != name})
        yield f"{name} is null", as_line({**init_members(), name: None})
    yield "no ordering", as_line({k: v for k, v in init_members().items() if k != "ordering"})
    for name in [1, "", "a b", "t.x", "a/b", "\u00fc", "n" * 65, ["t"]]:
        yield f"name {told(name)[:20]}", init(name=name)
    for place, value in enumerate(SCHEMAS):
        yield f"schema {place}", as_line({**init_members(), "schema": value})
    for value in FIELD_TYPES:
        yield f"a field's type {told(value)[:60]}", with_field({"name": "f", "type": value})
    for name in FIELD_NAMES:
        yield f"a field's name {told(name)}", with_field({"name": name, "type": "int"})
    for place, field in enumerate(OTHER_FIELDS):
        yield f"field {place}", with_field(field)
    texts = [("id", "string"), ("p", "string"), ("b", "boolean"), ("n", ["null", "string"]), ("d", "bytes")]
    for member in ["key", "partition", "ordering"]:
        for field in ["x", "", "ID", "v", "b", "n", "d", 1, ["id"], True]:
            if (member, field) != ("ordering", "v"):
                yield f"{member} {told(field)}", init(schema=schema(texts + [("v", "long")]), **{member: field})
    yield "ordering by a text", init(ordering="id")
    for buckets in [0, -1, 1025, "1", 1.0, True, [1], 2**64]:
        yield f"buckets {told(buckets)}", init(buckets=buckets)
    yield "a lane", init(lane=1)
    for name in ["at", "a", "\u0438\u043c\u044f"]:
        yield f"an unknown member {name}", init(**{name: 1})


# Two causes in one line, of which the first counts.
TWO_CAUSES = {
    "lane and name": init(lane=2, name=1), "name and schema": init(name="", schema=1),
    "schema and key": init(schema=[], key="z"),
    "key and partition": init(key="v", partition="v"), "partition and ordering": init(partition="z", ordering="z"),
    "ordering and buckets": init(ordering="id", buckets=0), "buckets and an unknown member": init(buckets=0, a=1),
    "two unknown members": init(zz=1, a=1), "name and buckets": init(name="", buckets=0),
    "a schema that isn't flat and its key": init(schema=schema([("id", "float")]), key="none"),
}

# ---- rows, keys and times

ROWS = [None, {}, 1, "a", [], [1], [None], [[]], ["a"], [{}, 1], [{}, None]]
KEYS = [
    None, {}, 1, "a", [], [1], [None], [[]], [{}], [{"key": "a"}], [{"partition": "x"}], [{"partition": 1, "key": "a"}],
    [{"partition": "x", "key": 1}], [{"partition": "x", "key": None}], [{"partition": None, "key": "a"}],
    *([{"partition": "x", "key": "a", "rank": rank}] for rank in [None, "1", 1.5, 1.0, True, 2**63, -2**63 - 1, [1]]),
    [{"partition": "x", "key": "a", "more": 1}], [{"partition": "x", "key": "a"}, {"partition": "x"}],
    [{"Partition": "x", "key": "a"}],
]
AT = [
    None, 1, 20240101000000000, "", "2024010100000000", "202401010000000000", "2024010100000000x", "x0240101000000000",
    " 20240101000000000", "20240101000000000 ", "2024-01-01T00:00", "00000101000000000", "19991231235959999",
    "20241301000000000", "20240001000000000", "20240132000000000", "20240100000000000", "20230229000000000",
    "20240230000000000", "20240101240000000", "20240101006000000", "20240101000060000", "\u0662" * 17,
    ["20240101000000000"],
]
NUMBER_TEXTS = ["1.5", "1.0", "1e2", "-0", "0.0", "1E0", "9223372036854775808", "-9223372036854775809",
                "18446744073709551616"]


def job_lines():
    """Lines of jobs, each with one wrong member."""
    for member in MEMBERS:
        yield told(member)[:60], as_line(member)
    for rows in ROWS:
        yield f"rows {told(rows)}", as_line({"job": "upsert", "rows": rows})
    yield "no rows", as_line({"job": "upsert"})
    for keys in KEYS:
        yield f"keys {told(keys)}", as_line({"job": "delete", "keys": keys})
    yield "no keys", as_line({"job": "delete"})
    for number in NUMBER_TEXTS:
        yield f"a key's rank {number}", delete('{"partition":"x","key":"a","rank":%s}' % number)
    for time in AT:
        yield f"at {told(time)}", snapshot(time)


# ---- the first bad line: U an upsert, S a snapshot, I a table that is made

ORDERS = ["x\nx\n", "I\nU\nx\nx\n", "I\nU\n\n\nx\nU\nx\n", "I\nS\nU\nx\n", "I\nS\n\n\r\nx", "I\nS\n \n", "I\nSS\n",
          "I\nU\nU\n\nSU\n", "I\nI\n", "I\n\nS\nI\n", "S\nI\n", "U\nI\nx\n", "I\nI\nI\n", "I\nx\nI\n", "\n\nI\nI\n",
          "I\nS\nI\nx\n"]
PLACES = {
    "an init with a bad member is no first job either": INIT + init(buckets=0),
    "an init behind an init that is bad": init(buckets=0) + INIT,
}

# ---- rows that a table refuses

TYPED = init(schema=schema([("id", "string"), ("p", "string"), ("b", "boolean"), ("i", "int"), ("l", "long"),
                            ("d", "bytes"), ("s", "string"), ("o", ["null", "long"])]), ordering="o")
VALUES = {"id": "a", "p": "x", "b": True, "i": 1, "l": 1, "d": "00", "s": "", "o": 1}
MISFITS = {
    "id": [None, 1, True, ["a"], {}],
    "p": [None, 1],
    "b": [None, 0, 1, "true", [], {}],
    "i": [None, 2**31, -2**31 - 1, "1", True, [1], {}],
    "l": [None, 2**63, -2**63 - 1, 2**64, "1", False],
    "d": [None, "0", "0G", "AB", "aB", "0x00", " 00", "\u0660\u0660", 0, ["00"]],
    "s": [None, 1, False, ["a"], {}],
    "o": ["1", True, 2**63, [None], {"long": 1}],
}


def misfits():
    for name, values in MISFITS.items():
        for value in values:
            yield f"{name} {told(value)}", told({**VALUES, name: value})
        without = {other: value for other, value in VALUES.items() if other != name}
        if name != "o":
            yield f"no {name}", told(without)
    for number in ["1.5", "1.0", "1e2", "-0"]:
        for name in ["i", "l", "o"]:
            yield f"{name} {number}", told(VALUES).replace(f'"{name}":1', f'"{name}":{number}')
    yield "another member", told({**VALUES, "more": 1})
    yield "two that don't fit", told({**VALUES, "i": "", "s": 1})
    yield "one that doesn't fit and another member", told({**VALUES, "more": 1, "o": ""})
    yield "no member", "{}"
    yield "a member that counts is the last of its name", told(VALUES)[:-1] + ',"i":1,"i":null}'


def text_row(length):
    """A row whose body has so many bytes."""
    return told({"id": "a", "p": "x", "v": 1, "body": "b" * (length - 8)})


BODIES = init(schema=schema(FIELDS + [("body", "string")]))
NULLABLE = init(schema=schema([("id", "string"), ("p", "string"), ("v", ["null", "long"])]), ordering="v")
LONG_NULLABLE = init(schema=schema([("id", "string"), ("p", "string"), ("v", ["null", "int"]), ("t", "string")]),
                     ordering="v")
PARTITIONS = ["", ".", ".x", "x/y", "/", "\u00fc", " ", "x ", "a:b", "a\\b", "a\nb", "p" * 201, "\0"]
REFUSED = {
    "a key of no bytes": INIT + up(""),
    "a key of 1,001 bytes": INIT + up("k" * 1001),
    "a key of 500 characters of two bytes": INIT + up("\u00e9" * 500) + SNAPSHOT,
    "a key of 501 characters of two bytes": INIT + up("\u00e9" * 501),
    **{f"partition {told(name)[:20]}": INIT + up("a", 1, name) for name in PARTITIONS},
    "no rank": NULLABLE + upsert(told({"id": "a", "p": "x"})) + SNAPSHOT,
    "a rank that is null": NULLABLE + upsert(told({"id": "a", "p": "x", "v": None})),
    "null where rows aren't ordered": NULLABLE.replace('"ordering":"v"', '"ordering":null')
        + upsert(told({"id": "a", "p": "x", "v": None})) + SNAPSHOT,
    "a body of 65,536 bytes": BODIES + upsert(text_row(65536)),
    "a body of 65,537 bytes": BODIES + upsert(text_row(65537)),
    "a row further on": INIT + upsert(*[row("a")] * 99, row("")),
    "the first of two rows": INIT + upsert(row("a"), row("a", 1, ""), row("", "x")),
    "a row that fits no more before one without a key": INIT + upsert(row("a", "x"), row("")),
    "one without a key before one that fits no more": INIT + upsert(row(""), row("a", "x")),
    "what fits is tried before the key": INIT + upsert(row("", "x", ".")),
    "the key is tried before the partition": INIT + upsert(row("", 1, ".")),
    "the partition is tried before the rank": NULLABLE + upsert(told({"id": "a", "p": "", "v": None})),
    "the rank is tried before the size": LONG_NULLABLE + upsert(told({"id": "a", "p": "x", "t": "t" * 65537})),
    "nothing is done for such rows": INIT + up("") + SNAPSHOT + up("a") + upsert(row("b"), row("")) + SNAPSHOT,
    "a delete of no key": INIT + gone(""),
    "a delete of a key of 1,001 bytes": INIT + gone("k" * 1001),
    "a delete in no partition": INIT + gone("a", ""),
    "a delete of no key in no partition": INIT + gone("", ".x"),
    "a delete, further on": INIT + delete(*[key("a")] * 7, key("a", "x/y"), key("")),
    "nothing is done for such keys": INIT + up("a") + delete(key("a"), key("")) + SNAPSHOT + gone("a") + SNAPSHOT,
    "a row that needs no rank beside one that does": ORDERED + gone("a", rank=-1) + upsert(row("", 1)),
}
