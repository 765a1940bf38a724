"""Runs whose answers were worked out by hand, in full or but for the journal.

Each is a script over an empty store with what has to come: the whole text, or the lines of the jobs, behind which the
journal stands; and files with their bytes, or the bytes that they end with, where they were worked out too.
"""
from collections import namedtuple

from script_lines import INIT, ORDERED, SNAPSHOT, T0, delete, gone, init, key, row, up, upsert
from table_files import avro_bytes, avro_long, file_id, range_of, slot_of

Worked = namedtuple("Worked", "name script status lines whole files ends how")
MOST = 9223372036854775807


def time(after):
    return "20240101000000%03d" % after


def shown(name, number, after, place, partition="x"):
    """A row as it is printed: written by the instant so many milliseconds behind the first, at this place."""
    return ('{"_hoodie_commit_seqno":"%s_0_%d","_hoodie_commit_time":"%s","id":"%s","p":"%s","v":%d}'
            % (time(after), place, time(after), name, partition, number))


def worked(name, script, lines, status=0, whole=False, files=(), ends=(), **how):
    return Worked(name, script, status, lines, whole, dict(files), dict(ends), how)


THREE_ROWS = upsert(row("a", 1), row("b", 2), row("a", 3))
PROPERTIES = """hoodie.table.name=t
hoodie.table.type=MERGE_ON_READ
hoodie.table.version=6
hoodie.table.recordkey.fields=id
hoodie.table.partition.fields=p
%shoodie.timeline.layout.version=1
profile.buckets=1
profile.schema={"fields":[{"name":"id","type":"string"},{"name":"p","type":"string"},{"name":"v","type":"long"}],\
"name":"r","type":"record"}
"""
PRECOMBINE = "hoodie.table.precombine.field=v\n"
PROPERTIES_NAME = ".hoodie/hoodie.properties"
LOG = "x/.0000ffff-4f01-52df-a6be-557d177dca72-0_20000101000000000.log.1_0-0-0"
# The delete of the key `a` with rank 5 at the second instant, in a block of 92 bytes.
DELETE_BLOCK = bytes.fromhex(
    "234855444923" "000000000000004e" "00000001" "00000001" "00000001" "00000000" "00000011"
    "3230323430313031303030303030303031" "0000000000000015" "00000003" "00000001" "00000001" "61" "0000000000000005"
    "00000000" "0000000000000054")

WORKED = [
    worked("a table is made and looked at", INIT + SNAPSHOT, """\
1 init made
2 snapshot rows none []
mark 1 2 pin pinned 0 1
mark 1 2 unpin done 1 0
""", whole=True),
    worked("three rows, two of one key", INIT + THREE_ROWS + SNAPSHOT, """\
1 init made
2 upsert committed 20240101000000000
3 snapshot rows 20240101000000000 [{"_hoodie_commit_seqno":"20240101000000000_0_2","_hoodie_commit_time":"2024010100\
0000000","id":"a","p":"x","v":3},{"_hoodie_commit_seqno":"20240101000000000_0_1","_hoodie_commit_time":"202401010000\
00000","id":"b","p":"x","v":2}]
mark 1 2 begin began 1704067200000 0
mark 1 2 enter entered 1 0
mark 1 2 append placed 1 0
mark 1 2 finish completed 1704067200000 0
mark 1 3 pin pinned 1704067200000 1
mark 1 3 read bytes 0 0
mark 1 3 unpin done 1 0
""", whole=True),
    worked("a delete of a lesser rank loses, one of an equal rank wins, and its rank is forgotten",
           ORDERED + up("a", 5) + gone("a", rank=3) + SNAPSHOT + gone("a", rank=5) + SNAPSHOT + up("a", 1) + SNAPSHOT,
           f"""\
1 init made
2 upsert committed {time(0)}
3 delete committed {time(1)}
4 snapshot rows {time(1)} [{shown("a", 5, 0, 0)}]
5 delete committed {time(2)}
6 snapshot rows {time(2)} []
7 upsert committed {time(3)}
8 snapshot rows {time(3)} [{shown("a", 1, 3, 0)}]
"""),
    worked("the block of a delete", ORDERED + up("a", 5) + gone("a", rank=5), f"""\
1 init made
2 upsert committed {time(0)}
3 delete committed {time(1)}
""", ends={LOG: DELETE_BLOCK}),
    worked("a delete without a rank wins over the greatest one", ORDERED + up("a", MOST) + gone("a") + SNAPSHOT, f"""\
1 init made
2 upsert committed {time(0)}
3 delete committed {time(1)}
4 snapshot rows {time(1)} []
"""),
    worked("the last time of all", INIT + up("a") + up("b"), """\
1 init made
2 upsert committed 99991231235959999
3 upsert time_over
""", clock=[253402300799999]),
    worked("a clock before the first time", INIT + up("a") + up("b"), """\
1 init made
2 upsert committed 20000101000000001
3 upsert committed 20000101000000002
""", clock=[-5]),
    worked("an append fails, and the next upsert begins a log", INIT + up("a") + up("b", 2), """\
1 init made
2 upsert fault
3 upsert committed 20240101000000001
mark 1 2 begin began 1704067200000 0
mark 1 2 enter entered 1 0
mark 1 2 append fault 0 0
mark 1 2 abandon done 1704067200000 0
mark 1 3 begin began 1704067200001 0
mark 1 3 enter entered 1 0
mark 1 3 append placed 2 0
mark 1 3 finish completed 1704067200001 0
""", status=1, whole=True, failing_calls=[3]),
    worked("the properties of a table without an ordering field", INIT, "1 init made\n", whole=True,
           files={PROPERTIES_NAME: (PROPERTIES % "").encode()}),
    worked("the properties of a table with an ordering field", ORDERED, "1 init made\n", whole=True,
           files={PROPERTIES_NAME: (PROPERTIES % PRECOMBINE).encode()}),
    worked("rows that are none", INIT + up("", 1) + upsert(row("a", 1, ".x")) + upsert(row("a", "q")), """\
1 init made
2 upsert bad_row 0 no_key
3 upsert bad_row 0 bad_partition
4 upsert bad_row 0 mismatch 2
""", whole=True),
    worked("a delete of no key", INIT + delete(), "bad line 2 field keys\n", status=3, whole=True),
    worked("two partitions, one of them with two groups",
           init(buckets=2) + upsert(row("a", 1), row("k1", 2), row("a", 3, "y")) + SNAPSHOT, f"""\
1 init made
2 upsert committed {time(0)}
3 snapshot rows {time(0)} [{shown("a", 1, 0, 0)},{shown("k1", 2, 0, 1)},{shown("a", 3, 0, 2, "y")}]
mark 1 2 begin began {T0} 0
mark 1 2 enter entered 3 0
mark 1 2 append placed 1 0
mark 1 2 append placed 1 0
mark 1 2 append placed 1 0
mark 1 2 finish completed {T0} 0
mark 1 3 pin pinned {T0} 1
mark 1 3 read bytes 0 0
mark 1 3 read bytes 1 0
mark 1 3 read bytes 2 0
mark 1 3 unpin done 1 0
""", whole=True),
    worked("no lane", INIT, "usage: hudi DIR run LANES\n", status=2, whole=True, words=["run", "0"]),
    worked("a line that isn't ended", '{"job":"snapshot"', "bad line 1 json\n", status=3, whole=True),
    worked("a line that is no object", "[]", "bad line 1 object\n", status=3, whole=True),
    worked("a job that there isn't", '{"job":"snap"}', "bad line 1 field job\n", status=3, whole=True),
    worked("a table is made twice", INIT + INIT, "bad line 2 init_place\n", status=3, whole=True),
    worked("a snapshot of no table", SNAPSHOT, "no table\n", status=9, whole=True),
]

# ---- what the model itself has to get right

SLOTS = {"": 8997, "a": 60556, "b": 61861, "c": 61426, "k1": 9409, "k2": 8104, "k3": 8539, "foobar": 26600}
RANGES = {2: [(0, 32767), (32768, 65535)], 3: [(0, 21844), (21845, 43689), (43690, 65535)]}
NUMBERS = {64: "8001", -1: "01", 27: "36", 3: "06"}


def check_model():
    for name, slot in SLOTS.items():
        assert slot_of(name.encode()) == slot, name
    for buckets, ranges in RANGES.items():
        assert [range_of(least, buckets) for least, _ in ranges] == ranges, buckets
    begun = [file_id("t", "x", slots) for slots in RANGES[2]]
    assert begun[0].startswith("00007fff-") and begun[1].startswith("8000ffff-"), begun
    assert all(name.endswith("-0") for name in begun), begun
    for number, written in NUMBERS.items():
        assert avro_long(number).hex() == written, number
    assert avro_bytes(b"foo").hex() == "06666f6f"


def check_worked(row, ending):
    """The model says what was worked out."""
    assert ending.status == row.status, row.name
    text = ending.text.decode()
    if row.whole:
        assert text == row.lines, (row.name, text)
    else:
        marks = text[len(row.lines):].splitlines()
        assert text.startswith(row.lines) and all(mark.startswith("mark ") for mark in marks), (row.name, text)
    for name, data in row.files.items():
        assert ending.files[name.encode()] == data, (row.name, name)
    for name, data in row.ends.items():
        assert ending.files[name.encode()].endswith(data), (row.name, name)
