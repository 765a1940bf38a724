"""Runs in which the outside fails, and what stores read back in place of what was written."""
import struct

from script_language import read_script
from script_lines import FIELDS, INIT, SNAPSHOT, T0, TIME, gone, init, row, schema, snapshot, told, up, upsert
from script_model import Put, answer_rows, put_of
from table_files import (META_FIELDS, avro_bytes, avro_long, avro_row, content_of, data_block, delete_block, deleted,
                         file_id, log_name, meta_texts, record, schema_text)

# ---- scripts whose store, source or sink fails

WRITES = INIT + upsert(row("a"), row("b", 2)) + up("a", 3) + SNAPSHOT
# Two groups a partition, a write to three partitions, and each kind of job: its changing calls are 1, 4, 6 and 4.
MANY = (init(buckets=2, ordering="v") + up("a") + SNAPSHOT
        + upsert(row("k1", 2), row("a", 3, "y"), row("k2", 4), row("a", 5, "z"))
        + gone("a") + SNAPSHOT + snapshot(TIME) + snapshot("20240101000000001"))
MANY_CALLS = 15

A = up("a")
FAULTS = {
    "two appends of one version fail": (INIT + A + A + A + SNAPSHOT, [3, 6], 13),
    "all calls of the first upsert fail in turn": (INIT + A * 4 + up("b") + SNAPSHOT, [1, 3, 6, 10], 7),
    "an append fails and leaves all of its block": (INIT + A + up("b") + SNAPSHOT, [3], 10000),
    "a first append fails and leaves no byte": (INIT + A + SNAPSHOT + up("b") + SNAPSHOT, [3], 0),
    "the second group's append fails": (init(buckets=2) + upsert(row("a"), row("k1")) + SNAPSHOT
                                        + upsert(row("a", 2), row("k1", 2)) + SNAPSHOT, [4], 50),
    "the first group's append fails": (init(buckets=2) + upsert(row("a"), row("k1")) + SNAPSHOT
                                       + upsert(row("a", 2), row("k1", 2)) + SNAPSHOT, [3], 50),
    "an append behind a placed block fails": (INIT + A + up("b") + up("c") + SNAPSHOT, [7], 29),
    "a delete's append fails": (INIT + A + gone("a") + SNAPSHOT + gone("a") + SNAPSHOT, [7], 29),
    "a snapshot at an instant that failed": (INIT + A + up("b") + snapshot(TIME) + SNAPSHOT, [2], 0),
    "begins fail and draw no time": (INIT + A + A + A + SNAPSHOT, [1, 2], 0),
    "each call after the making fails": (INIT + A + gone("a") + A + SNAPSHOT, range(1, 30), 3),
}
EXISTING = {
    "the properties are there": (INIT + A, [0]),
    "a requested file is there": (INIT + A + up("b"), [1]),
    "an inflight file is there": (INIT + A + up("b"), [2]),
    "a completed file is there": (INIT + A + gone("a"), [4]),
    "a delete's requested file is there": (INIT + A + gone("a"), [5]),
}

# ---- stores that read back something else

BODIES = init(schema=schema(FIELDS + [("body", "string")]), ordering="v")
PROPS = read_script(BODIES.encode())[0].what
SCHEMA = schema_text(PROPS, META_FIELDS)
WHOLE = (0, 65535)
FILE = file_id("t", "x", WHOLE)
LOG = log_name("t", "x", WHOLE, 1, 0)


def put(name, number, body, partition="x"):
    return put_of(PROPS, {"id": name, "p": partition, "v": number, "body": body})


def script_with_block_of(size):
    """A script of one upsert whose block has so many bytes."""
    first = [("f", "b" * 50000)] * (size // 60000)
    for name in ["a", "aa", "aaa"]:
        rest = size - len(block_of(first + [(name, "")]))
        for length in range(max(rest - 3, 0), rest + 1):
            rows = first + [(name, "b" * length)]
            if len(block_of(rows)) == size:
                lines = [told({"id": key, "p": "x", "v": 1, "body": body}) for key, body in rows]
                return BODIES + upsert(*lines) + SNAPSHOT
    raise ValueError(size)


def block_of(rows):
    return block([put(name, 1, body) for name, body in rows])


def records(puts, time=T0):
    return [record(meta_texts(time, place, each.key, "x", FILE), each.body) for place, each in enumerate(puts)]


def data(inner, time=T0):
    return data_block(time, SCHEMA, inner)


def block(puts, time=T0):
    return data(content_of(records(puts, time)), time)


def one(metas=None, body=None, tail=b""):
    """The block of a record with other meta columns, another body or more bytes."""
    usual = put("a", 5, "one")
    metas = dict(enumerate(metas)) if isinstance(metas, list) else metas or {}
    texts = [metas.get(place, text) for place, text in enumerate(meta_texts(T0, 0, "a", "x", FILE))]
    return data(content_of([record(texts, (usual.body if body is None else body) + tail)]))


def changed(whole, at, new):
    return whole[:at] + new + whole[at + len(new):]


def shown(*puts):
    """A snapshot that shows these rows, as if one upsert had written them."""
    return answer_rows(T0, [(T0, list(puts))])


def damaged(cause, at):
    return b"damaged " + LOG + b" %s %d" % (cause, at)


PUTS = [put("a", 5, "one"), put("b", 1, "two")]
FIRST = block(PUTS)
SIZE_AT = len(FIRST) - 8
HEADER = len(SCHEMA) + 8 + 25 + 4  # of a data block
CONTENT_AT = 22 + HEADER + 8
NOTHING = b"rows " + TIME.encode() + b" []"
CONTENT = damaged(b"content", 0)
WIDE = b"\x02a\x02x" + b"\x8a\x80\x00" + b"\x06one"  # 5 in three bytes
LONG = "b" * 65537

LOGS = {
    "the same block": (FIRST, shown(*PUTS)),
    "no magic": (changed(FIRST, 0, b"x"), damaged(b"log", 0)),
    "another length that is within": (changed(FIRST, 6, struct.pack(">Q", len(FIRST) - 15)), damaged(b"log", SIZE_AT)),
    "a length that passes the end": (changed(FIRST, 6, b"\x80"), NOTHING),
    "version 2": (changed(FIRST, 17, b"\x02"), damaged(b"log", 14)),
    "a corrupt block": (changed(FIRST, 21, b"\x02"), damaged(b"log", 18)),
    "a header of one entry": (changed(FIRST, 25, b"\x01"), damaged(b"log", 22)),
    "a header whose time is none": (changed(FIRST, 34, b"x"), damaged(b"log", 22)),
    "a content that passes the end": (changed(FIRST, CONTENT_AT - 8, b"\x01"), damaged(b"log", CONTENT_AT)),
    "a footer that isn't empty": (changed(FIRST, SIZE_AT - 1, b"\x01"), damaged(b"log", SIZE_AT - 4)),
    "another size at the end": (changed(FIRST, SIZE_AT + 7, b"\x00"), damaged(b"log", SIZE_AT)),
    "a block and half of one": (FIRST + FIRST[:60], shown(*PUTS)),
    "a block and no magic": (FIRST + b"#HUDI!", damaged(b"log", len(FIRST))),
    "a pending instant's block": (block(PUTS, T0 + 1), NOTHING),
    "a pending instant's block with another content": (block(PUTS) + data(content_of([])[:-1], T0 + 1), shown(*PUTS)),
    "a later block": (block(PUTS[:1]) + block(PUTS[1:], T0 + 1), shown(PUTS[0])),
    "another schema's text": (data_block(T0, b"\xc3\xa9" + SCHEMA[2:], content_of(records(PUTS))), shown(*PUTS)),
}
CONTENTS = {
    "version 2": (data(changed(content_of(records(PUTS)), 3, b"\x02")), CONTENT),
    "seven bytes": (block(PUTS) + data(content_of([])[:-1]), damaged(b"content", 1)),
    "the bad content of two":
        (data(changed(content_of(records(PUTS)), 3, b"\x02")) + data(content_of([])[:-1]), CONTENT),
    "a row too many": (data(changed(content_of(records(PUTS)), 7, b"\x03")), CONTENT),
    "a row too few": (data(changed(content_of(records(PUTS)), 7, b"\x01")), CONTENT),
    "no row": (block(PUTS) + data(content_of([])), shown(*PUTS)),
    "a byte behind the rows": (data(content_of(records(PUTS)) + b"\0"), CONTENT),
    "a record that ends too soon": (data(content_of([records(PUTS)[0][:-1]])), CONTENT),
    "a record with a byte more": (one(tail=b"\0"), CONTENT),
    "a number in a wider form": (one(body=WIDE), shown(put("a", 5, "one"))),
    "a number of eleven bytes": (one(body=b"\x02a\x02x" + b"\x80" * 10 + b"\x00\x06one"), CONTENT),
    "a key that is no text": (one(metas={2: b"\xff"}, body=b"\x02\xff\x02x\x0a\x06one"), CONTENT),
    "a body that is no text": (one(body=b"\x02a\x02x\x0a\x06on\xff"), CONTENT),
    "another commit's time": (one(metas=[b"20240101000000001"]), CONTENT),
    "a seqno of another time": (one(metas={1: b"20240101000000001_0_0"}), CONTENT),
    "a seqno of another form": (one(metas={1: TIME.encode() + b"_1_0"}), CONTENT),
    "a seqno with a leading zero": (one(metas={1: TIME.encode() + b"_0_00"}), CONTENT),
    "the greatest seqno": (one(metas={1: TIME.encode() + b"_0_4294967295"}),
                           shown(put("a", 5, "one")).replace(b'_0_0"', b'_0_4294967295"')),
    "a seqno of 33 bits": (one(metas={1: TIME.encode() + b"_0_4294967296"}), CONTENT),
    "no seqno": (one(metas={1: b""}, body=put("a", 5, "one" * 9).body), CONTENT),
    "another key": (one(metas={2: b"b"}), CONTENT),
    "another partition": (one(metas={3: b"y"}), CONTENT),
    "a row of another partition": (one(metas={3: b"y"}, body=put("a", 5, "one", "y").body), CONTENT),
    "another file id": (one(metas={4: FILE.replace("ffff", "fffe", 1).encode()}), CONTENT),
    "a cell that is too long":
        (one(body=avro_bytes(b"a") + avro_bytes(b"x") + avro_long(5) + avro_bytes(LONG.encode())), CONTENT),
    "a key that no upsert may have": (one(metas={2: b""}, body=avro_row(PROPS.fields, ["", "x", 5, "three"])),
                                      shown(Put("x", "", 5, {"id": "", "p": "x", "v": 5, "body": "three"}, b""))),
    "two rows of one place": (data(content_of(records(PUTS[:1]) + records(PUTS[1:]))),
                              shown(*PUTS).replace(b'_0_1"', b'_0_0"')),
}
KEY_A = deleted("a", 5)
BEHIND = damaged(b"content", 1)


def row_and(*keys, time=T0):
    """A block of a row, and one of deletes."""
    return block(PUTS[:1]) + delete_block(time, content_of(keys))


def row_and_content(content):
    return block(PUTS[:1]) + delete_block(T0, content)


DELETES = {
    "a delete of no row": (block(PUTS[1:]) + delete_block(T0, content_of([KEY_A])), shown(PUTS[1])),
    "a row and its delete": (row_and(KEY_A), NOTHING),
    "a row and a delete of a lesser rank": (row_and(deleted("a", 4)), shown(PUTS[0])),
    "a row and its delete by a pending instant": (row_and(KEY_A, time=T0 + 1), shown(PUTS[0])),
    "a delete of a key that is no text": (row_and(KEY_A.replace(b"a", b"\xff")), shown(PUTS[0])),
    "a delete of no key": (row_and(deleted("", 5)), shown(PUTS[0])),
    "no delete": (row_and(), shown(PUTS[0])),
    "version 2 of a delete": (row_and_content(changed(content_of([KEY_A]), 3, b"\x02")), BEHIND),
    "a delete too many": (row_and_content(changed(content_of([KEY_A]), 7, b"\x02")), BEHIND),
    "a byte behind the deletes": (row_and_content(content_of([KEY_A]) + b"\0"), BEHIND),
    "a delete that ends too soon": (row_and_content(content_of([KEY_A[:-1]])), BEHIND),
}
