"""Scripts that run, by subject: what the jobs of a table do."""
import json

from script_lines import (FIELDS, INIT, SNAPSHOT, T0, delete, gone, init, init_members, key, row, schema, snapshot,
                          told, up, upsert)

LEAST, MOST = -2**63, 2**63 - 1
TIME = "20240101000000%03d"
NOTES = init(name="notes", schema=schema(FIELDS + [("body", "string")]), ordering="v")


def note(name, number=1, body="", partition="x"):
    return told({"id": name, "p": partition, "v": number, "body": body})


def notes(*rows):
    return NOTES + upsert(*rows) + SNAPSHOT


def at(after):
    return snapshot(TIME % after)


A, B = up("a"), up("b")
GOOD = {
    "a table alone": INIT,
    "a table behind empty lines": "\n\r\n\n" + INIT + "\n" + SNAPSHOT,
    "two snapshots": INIT + SNAPSHOT + SNAPSHOT,
    "an upsert alone": INIT + A,
    "a delete alone": INIT + gone("a"),
    "snapshots before, between and behind upserts": INIT + SNAPSHOT + A + SNAPSHOT + SNAPSHOT + B + A + SNAPSHOT,
    "members in any order, with spaces":
        '{"buckets" : 1, "ordering":"v" ,"partition":"p","key":"id", "schema": ' + told(schema())
        + ',\t"name":"t","job":"init"}\n'
        + '{"rows": [ { "v" : -7 , "p":"x", "id" : "a" } ] , "job" : "upsert" }\n \t' + SNAPSHOT
        + ' { "keys":[{"rank":-7, "key":"a","partition":"x"}],"lane":1, "job":"delete"} \n' + SNAPSHOT,
    "the last of members of one name counts":
        told(init_members())[:-1] + ',"buckets":0,"buckets":2}\n'
        + upsert('{"id":"z","p":"y","v":9,"v":1,"p":"x","id":"a"}')
        + '{"job":"snapshot","at":1,"at":"20240101000000000"}\n',
    "the last counts also behind a wrong one":
        INIT + upsert('{"id":1,"p":null,"v":1.5,"id":"a","v":1,"p":"x"}') + SNAPSHOT,
    "the last job of a line counts":
        INIT + '{"job":"upsert","rows":1,"rows":[%s],"job":"snapshot","job":"upsert"}\n' % row("a") + SNAPSHOT,
    "the last member counts also where one before it is deep":
        INIT + '{"job":"upsert","rows":[[["\\u0061"]]],"rows":[%s]}\n' % row("a") + SNAPSHOT,
    "escapes within the names":
        INIT + upsert('{"\\u0069d":"a","\\u0070":"x","\\u0076":1}') + '{"\\u006aob":"snapsho\\u0074"}\n',
    "escapes that are printed as themselves": INIT + upsert('{"id":"\\u00e9\\/","p":"x","v":1}') + SNAPSHOT,
    "a pair of code units": INIT + upsert('{"id":"\\ud83d\\ude00","p":"x","v":1}') + SNAPSHOT,
    "escapes that stay": notes(note('"', 1, '\\"\n\t\r\b\f')),
    "control characters": notes(note("\0", 1, "\x01\x1f\x7f")),
    "an empty text": notes(note(" ", 0)),
    "a carriage return before the line feed": (INIT + A + SNAPSHOT).replace("\n", "\r\n"),
    "no line feed at the end": INIT + A + SNAPSHOT[:-1],
    "of two carriage returns one is white space": (INIT + SNAPSHOT).replace("\n", "\r\r\n"),
    "a carriage return at the very end is white space": INIT + SNAPSHOT[:-1] + "\r",
    "empty lines between and behind": INIT + "\n" + A + "\n\r\n\n" + SNAPSHOT + "\n\n",
    "the first lane": INIT + '{"job":"upsert","lane":1,"rows":[%s]}\n{"job":"snapshot","lane":1}\n' % row("a"),
    "a table that is named by letters, digits, _ and -": init(name="Az_-09" + "n" * 58) + A + SNAPSHOT,
    "the key's field is the partition's too":
        init(key="p") + upsert(row("a", 1, "x"), row("b", 2, "x"), row("c", 3, "y")) + SNAPSHOT,
    "300 rows of one upsert": INIT + upsert(*(row("k%d" % place, place) for place in range(300))) + SNAPSHOT,
}

RANKS = {
    "of equal ranks the later row of an upsert stays": upsert(row("a", 1), row("a", 1), row("b", 1)),
    "of equal ranks the later upsert stays": up("a", 1) + up("a", 1),
    "a later row of a lesser rank loses": upsert(row("a", 2), row("a", 1)),
    "a later upsert of a lesser rank loses": up("a", 2) + upsert(row("b"), row("a", 1)),
    "a greater rank wins": up("a", -2) + up("a", -1),
    "the ends of the ranks": up("a", LEAST) + up("a", MOST),
    "ties at the ends of the ranks": upsert(row("a", LEAST), row("b", MOST)) * 2,
    "the greatest rank of three upserts": up("a", 1) + up("a", 3) + up("a", 2),
    "rows that came late change nothing":
        up("a", 10) + SNAPSHOT + upsert(row("a", 9), row("b", 9)) + SNAPSHOT + up("a", 11),
}

DELETES = {
    "a delete of the row that is there": up("a", 5) + gone("a", rank=5),
    "a delete of a lesser rank": up("a", 5) + gone("a", rank=4),
    "a delete of a greater rank": up("a", 5) + gone("a", rank=6),
    "a delete without a rank": up("a", MOST) + gone("a"),
    "a delete of the greatest rank": up("a", MOST) + gone("a", rank=MOST),
    "a delete of the least rank":
        upsert(row("a", LEAST), row("b", LEAST + 1)) + delete(key("a", rank=LEAST), key("b", rank=LEAST)),
    "a delete of no row": gone("a") + SNAPSHOT + up("a", LEAST),
    "a row after its delete needs no rank": up("a", 5) + gone("a", rank=9) + up("a", 1),
    "a delete that came late": up("a", 5) + gone("a", rank=4) + SNAPSHOT + gone("a", rank=5),
    "a key twice in one delete": up("a", 5) + delete(key("a", rank=4), key("a", rank=5)),
    "several keys, some of which no row has": upsert(*map(row, "abcd")) + delete(*map(key, "bxdx")),
    "the key of another partition": upsert(row("a"), row("a", 2, "y")) + gone("a", "y"),
    "keys of several partitions":
        upsert(row("a"), row("a", 2, "y"), row("b", 3, "z")) + delete(key("b", "z"), key("a", "x")),
    "the places of rows count over all groups": upsert(*(row(name, 1, part) for name in "abc" for part in "yx")),
    "a key of 1,000 bytes": up("k" * 1000) + SNAPSHOT + gone("k" * 1000),
    "deletes between snapshots": up("a", 1) + SNAPSHOT + gone("a") + SNAPSHOT + up("a", 2) + SNAPSHOT + gone("a"),
}

AT = {
    "each instant": up("a", 1) + up("b", 2) + gone("a") + up("a", 4) + "".join(map(at, range(4))),
    "between instants, before and behind them": up("a", 1) + at(1) + at(999) + snapshot("20000101000000000")
        + snapshot("99991231235959999") + snapshot("20000101000000001"),
    "no instant yet": at(0) + SNAPSHOT + up("a") + at(0),
    "an instant that isn't completed counts no pin": up("a") + at(5) + SNAPSHOT + at(5) + SNAPSHOT,
    "a partition that came later": up("a") + up("b", 2, "y") + at(0) + at(1) + SNAPSHOT,
    "an instant whose rows are all gone": up("a") + gone("a") + at(1) + at(0),
    "ranks that came late": up("a", 5) + up("a", 3) + up("a", 7) + at(0) + at(1) + at(2),
}
NEARBY = ["a", "a-", "a-b", "a.", "a.b", "a0", "a=", "a=1", "aB", "a_", "aa", "ab", "A", "-", "0", "=", "_", "_x"]
PARTITIONS = {
    "partitions whose names begin alike":
        upsert(*(row("k", place, part) for place, part in enumerate(NEARBY))) + SNAPSHOT,
    "the same, an upsert each": "".join(up("k", place, part) for place, part in enumerate(reversed(NEARBY))) + SNAPSHOT,
    "one key in two partitions": upsert(row("a", 5), row("a", 1, "y")) + up("a", 2, "y") + up("a", 2) + SNAPSHOT,
    "a partition of 200 letters": up("a", 1, "p" * 200) + SNAPSHOT,
    "rows of a partition stand together": upsert(*(row(name, 1, part) for name in "cab" for part in "yx")) + SNAPSHOT,
}

ALPHABETS = ["\u0430\u0431\u0432", "\u03b1\u03b2\u03b3", "\u05d0\u05d1", "\u0627\u0628", "\u4e2d\u6587", "\ud55c\uae00",
             "\u0e01\u0e33", "e\u0301", "\u00e9", "\u1f34", "\U0001f468\u200d\U0001f469", "\U0001d4d0", "\u202eabc",
              "\ufeffx"]
TEXTS = {
    "keys and texts in other alphabets": notes(*(note(text, place, text) for place, text in enumerate(ALPHABETS))),
    "the same escaped":
        NOTES + upsert(*(json.dumps({"id": text, "p": "x", "v": 1, "body": text}) for text in ALPHABETS)) + SNAPSHOT,
    "rows stand in the order of their keys' bytes":
        INIT + upsert(*map(row, ["\U0001f600", "\uffff", "b", "a", "ab", "A", "\u00e9", "e", "10", "9"])) + SNAPSHOT,
    "keys that are deleted, in other alphabets":
        INIT + upsert(*map(row, ALPHABETS)) + delete(*map(key, ALPHABETS[::2])) + SNAPSHOT,
}

# ---- schemas, each with rows of its fields

ALL_TYPES = ["boolean", "int", "long", "bytes", "string"]
VALUES = {
    "boolean": [False, True],
    "int": [0, -1, 2**31 - 1, -2**31, 64],
    "long": [0, -1, MOST, LEAST, 2**31, -2**31 - 1],
    "bytes": ["", "00", "ff0a", "0123456789abcdef" * 8],
    "string": ["", "a", "\u00e9\U0001f600", "x" * 200],
}


def field_rows(values):
    return [told({"id": "k%02d" % place, "p": "x", "f": value}) for place, value in enumerate(values)]


def typed(kind, values, missing=(), **more):
    """A table with a field of a type, and rows with these values and without the field."""
    rows = field_rows(values) + [told({"id": "m%02d" % place, "p": "x"}) for place in missing]
    return init(schema=schema([("id", "string"), ("p", "string"), ("f", kind)]), **more) + upsert(*rows) + SNAPSHOT


def schema_cases():
    for kind in ALL_TYPES:
        yield f"a field of type {kind}", typed(kind, VALUES[kind])
        yield f"a field of type null or {kind}", typed(["null", kind], VALUES[kind] + [None], range(2))
    yield "types as objects", typed({"type": "int", "doc": "a number"}, [1])
    yield "branches as objects", typed([{"type": "null"}, {"type": "bytes", "logicalType": "decimal"}], ["0a", None])
    for kind in ["int", "long"]:
        yield f"ranks of type {kind}", typed(kind, VALUES[kind], ordering="f")
        yield f"ranks of type null or {kind}", typed(["null", kind], VALUES[kind], ordering="f")
    told_over = {"doc": 1, "namespace": "n.s", "aliases": [], "default": {}, "order": None, "logicalType": ["x"]}
    passed = {**schema(), **told_over, "fields": [{**field, **told_over} for field in schema()["fields"]]}
    yield "what a schema may say besides", init(schema=passed) + A + SNAPSHOT
    yield "the record's name", init(schema=schema(name="_Rec0rd_" + "r" * 200)) + A
    names = ["Z", "_", "_hoodie", "_hoodi_", "__hoodie_", "a_hoodie_", "A9", "job", "key", "rank", "_hood_x", "zz"]
    fields = [("id", "string"), ("p", "string")] + [(name, "int") for name in dict.fromkeys(names)]
    rows = [told({"id": "a", "p": "x", **{name: place for place, (name, _) in enumerate(fields) if place > 1}})]
    yield "members are printed in the order of their bytes", init(schema=schema(fields)) + upsert(*rows) + SNAPSHOT
    many = [("id", "string"), ("p", "string")] + [("f%03d" % place, ALL_TYPES[place % 5]) for place in range(998)]
    value = {"boolean": True, "int": 1, "long": -1, "bytes": "ab", "string": "s"}
    wide = told({name: value[kind] for name, kind in many} | {"id": "a", "p": "x"})
    yield "a schema of 1,000 fields", init(schema=schema(many)) + upsert(wide) + SNAPSHOT
    other = wide.replace('"f997":-1', '"f998":-1')
    yield "the last of 1,000 fields is missing", init(schema=schema(many)) + upsert(other)
    yield "all fields in any order", init(schema=schema(many[:40])) + upsert(
        told(dict(reversed([(name, value[kind]) for name, kind in many[:40]])) | {"id": "a", "p": "x"})) + SNAPSHOT


def nested(depth):
    return "[" * depth + "]" * depth


# A line, its rows and a row are three levels, and a schema the second one of its line.
NESTING = {
    "127 levels in a row": INIT + '{"job":"upsert","rows":[{"id":%s,"p":"x","v":1}]}\n' % nested(124) + SNAPSHOT,
    "128 levels in a row": INIT + '{"job":"upsert","rows":[{"id":%s,"p":"x","v":1}]}\n' % nested(125) + SNAPSHOT,
    "127 levels in a schema": INIT.replace('"type":"record"', '"doc":%s,"type":"record"' % nested(125)) + SNAPSHOT,
    "128 levels in a schema": INIT.replace('"type":"record"', '"doc":%s,"type":"record"' % nested(126)) + SNAPSHOT,
    "127 levels in a member that doesn't count": INIT + '{"job":%s,"job":"snapshot"}\n' % nested(126),
    "128 levels in a member that doesn't count": INIT + '{"job":%s,"job":"snapshot"}\n' % nested(127),
    "127 levels of objects and arrays": INIT + '{"job":"snapshot","at":%s1%s}\n' % ('[{"a":' * 63, "}]" * 63),
    "brackets within a text are no levels": INIT + up("[" * 500 + "\\\"" + "{" * 300) + SNAPSHOT,
}

TIMES = {
    "the clock stands still": [T0],
    "the clock goes back": [T0, T0 - 1, -2**63],
    "the clock goes on, and back by less": [T0, T0 + 10, T0 + 5],
    "the twenty-ninth of February": [1709251199999, 1709251199999, 0],
    "the clock begins before the year 2000": [-1, 946684800000, 946684800002],
    "the clock shows the first time": [946684800001, 946684800001, -2**63],
    "the last time but one": [253402300799998, T0],
    "behind the last time": [2**63 - 1, T0],
}
