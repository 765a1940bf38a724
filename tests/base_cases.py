#!/usr/bin/env python3
"""Makes base files of two columns and says what a plain reader of docs/formats finds in them.

The reader below is plain and shares nothing with the crates. `base_cases.py stdin` prints the files in hexadecimal, which
the program base_cases reads, with a line `written` for a file that it writes, and `base_cases.py stdout` what must come of them; `base_cases.py names` says what each shows.
"""
import struct
import sys

COLUMNS = [(b"k", 6, False, True), (b"v", 1, True, False)]


# ---- written

def varint(n):
    out = b""
    while n >= 128:
        out += bytes([n % 128 + 128])
        n //= 128
    return out + bytes([n])


def zigzag(n):
    return varint(n * 2 if n >= 0 else -n * 2 - 1)


def fields(*pairs):
    """A struct: pairs of an id and an encoded value with its type."""
    out, last = b"", 0
    for ident, (kind, value) in pairs:
        out += bytes([(ident - last) * 16 + kind]) + value
        last = ident
    return out + b"\0"


def i32(n):
    return (5, zigzag(n))


def i64(n):
    return (6, zigzag(n))


def binary(b):
    return (8, varint(len(b)) + b)


def listed(kind, items):
    assert len(items) < 15
    return (9, bytes([len(items) * 16 + kind]) + b"".join(items))


def struct_of(*pairs):
    return (12, fields(*pairs))


def page(body, count, encoding=0, levels=3, kind=0, size=None):
    size = len(body) if size is None else size
    return fields((1, i32(kind)), (2, i32(size)), (3, i32(size)),
                  (5, struct_of((1, i32(count)), (2, i32(encoding)), (3, i32(levels)), (4, i32(3))))) + body


def texts(*values):
    return b"".join(struct.pack("<I", len(v)) + v for v in values)


def runs(*pairs):
    body = b"".join(varint(2 * n) + bytes([level]) for n, level in pairs)
    return struct.pack("<I", len(body)) + body


def ints(*values):
    return b"".join(struct.pack("<i", v) for v in values)


class Chunk:
    def __init__(self, index, offset, count, size, **changed):
        name, physical, _, _ = COLUMNS[index]
        self.file_offset, self.physical, self.path, self.codec = offset, physical, [name], 0
        self.count, self.size, self.offset = count, size, offset
        self.__dict__.update(changed)

    def bytes(self):
        meta = struct_of((1, i32(self.physical)), (2, listed(5, [zigzag(0), zigzag(3)])),
                         (3, listed(8, [varint(len(n)) + n for n in self.path])), (4, i32(self.codec)),
                         (5, i64(self.count)), (6, i64(self.size)), (7, i64(self.size)), (9, i64(self.offset)))
        return fields((2, i64(self.file_offset)), (3, meta))


def element(name, physical, repetition, children=None, converted=None):
    pairs = []
    if physical is not None:
        pairs.append((1, i32(physical)))
    if repetition is not None:
        pairs.append((3, i32(repetition)))
    pairs.append((4, binary(name)))
    if children is not None:
        pairs.append((5, i32(children)))
    if converted is not None:
        pairs.append((6, i32(converted)))
    return fields(*pairs)


SCHEMA = [element(b"schema", None, None, 2), element(b"k", 6, 0, None, 0), element(b"v", 1, 1)]


def made(groups, chunk_changes=None, schema=None, rows=None, group_rows=None, extra=(), root=None):
    """A file of row groups, each a list of two lists of pages with their count of values."""
    out, told = b"PAR1", []
    for g, (count, columns) in enumerate(groups):
        chunks = []
        for c, pages in enumerate(columns):
            body = b"".join(pages)
            chunk = Chunk(c, len(out), count, len(body))
            chunk.__dict__.update((chunk_changes or {}).get((g, c), {}))
            chunks.append(chunk)
            out += body
        num = (group_rows or {}).get(g, count)
        told.append(fields((1, listed(12, [c.bytes() for c in chunks])), (2, i64(sum(c.size for c in chunks))), (3, i64(num))))
    total = sum(n for n, _ in groups) if rows is None else rows
    pairs = [(1, i32(1)), (2, listed(12, schema or SCHEMA)), (3, i64(total)), (4, listed(12, told)),
             (6, binary(b"hudi profile"))]
    footer = fields(*pairs)
    if extra:
        footer = footer[:-1] + b"".join(extra) + b"\0"
    return out + footer + struct.pack("<I", len(footer)) + b"PAR1"


FIRST = (2, [[page(texts(b"a", b"b"), 2)], [page(runs((1, 1), (1, 0)) + ints(1), 2)]])
SECOND = (1, [[page(texts(b"c"), 1)], [page(runs((1, 1)) + ints(-7), 1)]])


# ---- read

class Bad(Exception):
    def __init__(self, why, at):
        super().__init__(why, at)
        self.why, self.at = why, at


class Short(Exception):
    pass


class Thrift:
    """Items of the compact protocol. A failure is told by the first byte of the item that is wrong."""

    def __init__(self, data, at=0):
        self.data, self.at = data, at

    def fail(self, at):
        raise Bad("item", at)

    def byte(self, item):
        if self.at >= len(self.data):
            self.fail(item)
        self.at += 1
        return self.data[self.at - 1]

    def varint(self, bits, item=None):
        item = self.at if item is None else item
        n = shift = 0
        for i in range(10):
            b = self.byte(item)
            n |= (b & 127) << shift
            if b < 128:
                if (i == 9 and b > 1) or n >= 1 << bits:
                    self.fail(item)
                return n
            shift += 7
            if i == 9:
                self.fail(item)
        self.fail(item)

    def zigzag(self, bits, item=None):
        n = self.varint(bits, item)
        return n // 2 if n % 2 == 0 else -(n // 2) - 1

    def binary(self):
        item = self.at
        n = self.varint(32, item)
        if len(self.data) - self.at < n:
            self.fail(item)
        self.at += n
        return self.data[self.at - n:self.at]

    def field(self, last):
        item = self.at
        b = self.byte(item)
        if b == 0:
            return None
        kind = b % 16
        if not 1 <= kind <= 12:
            self.fail(item)
        if b // 16:
            ident = last + b // 16
        else:
            ident = self.zigzag(16, item)
        if not -32768 <= ident <= 32767:
            self.fail(item)
        return ident, kind, item

    def list_head(self):
        item = self.at
        b = self.byte(item)
        kind = b % 16
        if not 1 <= kind <= 12:
            self.fail(item)
        n = b // 16
        if n == 15:
            n = self.varint(32, item)
        return kind, n, item

    def skip(self, kind, depth=1, in_list=False):
        if kind in (9, 10, 11, 12) and depth > 32:
            self.fail(self.at)
        if kind in (1, 2):
            if in_list:
                self.byte(self.at)
        elif kind == 3:
            self.byte(self.at)
        elif kind == 4:
            self.zigzag(16)
        elif kind == 5:
            self.zigzag(32)
        elif kind == 6:
            self.zigzag(64)
        elif kind == 7:
            item = self.at
            if len(self.data) - self.at < 8:
                self.fail(item)
            self.at += 8
        elif kind == 8:
            self.binary()
        elif kind in (9, 10):
            element_kind, n, _ = self.list_head()
            for _ in range(n):
                self.skip(element_kind, depth + 1, True)
        elif kind == 11:
            item = self.at
            n = self.varint(32, item)
            if n:
                b = self.byte(item)
                if not (1 <= b // 16 <= 12 and 1 <= b % 16 <= 12):
                    self.fail(item)
                for _ in range(n):
                    self.skip(b // 16, depth + 1, True)
                    self.skip(b % 16, depth + 1, True)
        else:
            last = 0
            while True:
                found = self.field(last)
                if found is None:
                    return
                last = found[0]
                self.skip(found[1], depth + 1)

    def struct(self, known, required):
        """The known fields, by id: a name, a type and a reader."""
        found, last = {}, 0
        while True:
            stop = self.at
            field = self.field(last)
            if field is None:
                break
            last, kind, item = field
            if last in known:
                name, wanted, read = known[last]
                if kind != wanted:
                    self.fail(item)
                found[name] = read(self)
            else:
                self.skip(kind)
        if any(name not in found for name in required):
            self.fail(stop)
        return found

    def listed(self, wanted, read):
        kind, n, item = self.list_head()
        if kind != wanted:
            self.fail(item)
        return [read(self) for _ in range(n)]


def r32(t):
    return t.zigzag(32)


def r64(t):
    return t.zigzag(64)


def read_element(t):
    return t.struct({1: ("physical", 5, r32), 3: ("repetition", 5, r32), 4: ("name", 8, Thrift.binary),
                     5: ("children", 5, r32)}, ["name"])


def read_column_meta(t):
    names = ["physical", "encodings", "path", "codec", "count", "unpacked", "packed", "offset"]
    return t.struct({1: ("physical", 5, r32), 2: ("encodings", 9, lambda t: t.listed(5, r32)),
                     3: ("path", 9, lambda t: t.listed(8, Thrift.binary)), 4: ("codec", 5, r32), 5: ("count", 6, r64),
                     6: ("unpacked", 6, r64), 7: ("packed", 6, r64), 9: ("offset", 6, r64)}, names)


def read_chunk(t):
    return t.struct({2: ("file_offset", 6, r64), 3: ("meta", 12, read_column_meta)}, ["file_offset", "meta"])


def read_group(t):
    return t.struct({1: ("columns", 9, lambda t: t.listed(12, read_chunk)), 2: ("size", 6, r64), 3: ("rows", 6, r64)},
                    ["columns", "size", "rows"])


def read_meta(t):
    return t.struct({1: ("version", 5, r32), 2: ("schema", 9, lambda t: t.listed(12, read_element)), 3: ("rows", 6, r64),
                     4: ("groups", 9, lambda t: t.listed(12, read_group))}, ["version", "schema", "rows", "groups"])


def read_page_header(t):
    inner = {1: ("values", 5, r32), 2: ("encoding", 5, r32), 3: ("levels", 5, r32), 4: ("repetitions", 5, r32)}
    header = t.struct({1: ("kind", 5, r32), 2: ("unpacked", 5, r32), 3: ("packed", 5, r32),
                       5: ("page", 12, lambda t: t.struct(inner, ["values", "encoding", "levels", "repetitions"]))},
                      ["kind", "unpacked", "packed", "page"])
    header.update(header.pop("page"))
    return header


def read_levels(body, count):
    if len(body) < 4:
        raise Short()
    n = struct.unpack("<I", body[:4])[0]
    if len(body) - 4 < n:
        raise Short()
    t, levels = Thrift(body[4:4 + n]), []
    while t.at < n:
        head = t.varint(64)
        if head % 2 == 0:
            if head == 0 or t.at >= n or t.data[t.at] > 1:
                raise Short()
            levels += [t.data[t.at]] * min(head // 2, count)
            t.at += 1
        else:
            if n - t.at < head // 2:
                raise Short()
            for b in t.data[t.at:t.at + head // 2]:
                levels += [b >> i & 1 for i in range(8)]
            t.at += head // 2
    if len(levels) < count:
        raise Short()
    return levels[:count], body[4 + n:]


def read_cells(column, count, body):
    _, physical, optional, utf8 = column
    levels = [1] * count
    if optional:
        levels, body = read_levels(body, count)
    cells = []
    for level in levels:
        if not level:
            cells.append(None)
        elif physical == 1:
            if len(body) < 4:
                raise Short()
            cells.append(struct.unpack("<i", body[:4])[0])
            body = body[4:]
        else:
            if len(body) < 4 or len(body) - 4 < struct.unpack("<I", body[:4])[0]:
                raise Short()
            n = struct.unpack("<I", body[:4])[0]
            cells.append(body[4:4 + n].decode("utf-8"))
            body = body[4 + n:]
    if body:
        raise Short()
    return cells


def read_page(column, data, at, left):
    t = Thrift(data, at)
    try:
        header = read_page_header(t)
    except Bad:
        raise Bad("page", at)
    if header["encoding"] != 0:
        raise Bad("encoding %d" % header["encoding"], at)
    if column[2] and header["levels"] != 3:
        raise Bad("encoding %d" % header["levels"], at)
    size = header["packed"]
    if header["kind"] != 0 or header["unpacked"] != size or not 0 <= size <= len(data) - t.at or not 0 <= header["values"] <= left:
        raise Bad("page", at)
    try:
        return read_cells(column, header["values"], data[t.at:t.at + size]), t.at + size
    except (Short, Bad, UnicodeDecodeError):
        raise Bad("page", at)


def is_file_of(columns, meta):
    schema = meta["schema"]
    if not schema or schema[0].get("children") != len(columns) or len(schema) != len(columns) + 1:
        return False
    for (name, physical, optional, _), e in zip(columns, schema[1:]):
        if (e["name"], e.get("physical"), e.get("repetition")) != (name, physical, int(optional)):
            return False
    for group in meta["groups"]:
        if group["rows"] < 0 or len(group["columns"]) != len(columns):
            return False
        for (name, physical, _, _), c in zip(columns, group["columns"]):
            m = c["meta"]
            if (m["physical"], m["path"], m["count"]) != (physical, [name], group["rows"]):
                return False
    return meta["rows"] == sum(g["rows"] for g in meta["groups"])


def read_file(columns, data):
    size = len(data)
    if size < 12 or data[:4] != b"PAR1":
        raise Bad("magic", 0)
    if data[-4:] != b"PAR1":
        raise Bad("magic", size - 4)
    length = struct.unpack("<I", data[-8:-4])[0]
    if length > size - 12:
        raise Bad("footer", size - 8)
    start = size - 8 - length
    t = Thrift(data[start:size - 8])
    try:
        meta = read_meta(t)
    except Bad as bad:
        raise Bad("meta", start + bad.at)
    if t.at < length:
        raise Bad("meta", start + t.at)
    for i, e in enumerate(meta["schema"][1:], 1):
        if e.get("children", 0) != 0 or e.get("repetition") == 2 or e.get("physical") not in (0, 1, 2, 6):
            raise Bad("unsupported %d" % i, start)
    if not is_file_of(columns, meta):
        raise Bad("columns", start)
    rows = []
    for group in meta["groups"]:
        lists = []
        for column, chunk in zip(columns, group["columns"]):
            m = chunk["meta"]
            at = m["offset"]
            if m["codec"] != 0:
                raise Bad("compressed %d" % m["codec"], max(at, 0))
            if not 0 <= at < size:
                raise Bad("page", max(at, 0))
            cells = []
            while len(cells) < m["count"]:
                more, at = read_page(column, data, at, m["count"] - len(cells))
                cells += more
            lists.append(cells)
        rows += [list(row) for row in zip(*lists)]
    return rows


def answer(data):
    try:
        return "; ".join(" ".join("-" if c is None else str(c) for c in row) for row in read_file(COLUMNS, data))
    except Bad as bad:
        return "%s at %d" % (bad.why, bad.at)


# ---- cases: a later fault stands beside each

def changed(data, at, new):
    at %= len(data)
    return data[:at] + new + data[at + len(new):]


def cases():
    whole = made([FIRST, SECOND])
    yield "a file of two row groups", whole
    yield "a file of no rows", made([])
    twelve = [bytes([2 * 16 + 1]), bytes([16 + 2]), bytes([16 + 3, 9]), bytes([16 + 4, 2]), bytes([16 + 5, 2]),
              bytes([16 + 6, 2]), bytes([16 + 7]) + bytes(8), bytes([16 + 8, 1, 65]), bytes([16 + 9, 0x13, 7]),
              bytes([16 + 10, 0x15, 2]), bytes([16 + 11, 1, 0x53, 2, 9]), bytes([16 + 12, 0])]
    yield "an unknown footer field of each type", made([FIRST], extra=twelve)
    yield "pages that follow each other, one of them empty", made(
        [(2, [[page(texts(b"a"), 1), page(b"", 0), page(texts(b"b"), 1)], FIRST[1][1]])])
    yield "levels as bits", made([(2, [FIRST[1][0], [page(struct.pack("<I", 2) + b"\x03\x01" + ints(1), 2)]])])
    yield "eleven bytes, and other ends", b"QAR1" + whole[-7:]
    yield "other first bytes, and other last ones", changed(changed(whole, 0, b"Q"), -1, b"2")
    yield "other last bytes, and too long a footer", changed(changed(whole, -1, b"2"), -8, b"\xff\xff")
    yield "a footer that is one byte too long, and an item that is bad", changed(
        changed(whole, -8, struct.pack("<I", len(whole) - 11)), -10, b"\xff")
    bad = whole.index(b"\x15\x02\x19\x3c")
    yield "a version of another type, and a column that is nested", changed(
        made([FIRST], schema=[SCHEMA[0], element(b"k", 6, 0, 1), SCHEMA[2]]),
        made([FIRST], schema=[SCHEMA[0], element(b"k", 6, 0, 1), SCHEMA[2]]).index(b"\x15\x02\x19\x3c"), b"\x16")
    yield "bytes behind the footer's stop", changed(whole[:-8] + b"\0" + whole[-8:], -8, struct.pack("<I", len(whole) - 8 - bad + 1))
    yield "a type that isn't supported, and another name before it", made(
        [FIRST], schema=[SCHEMA[0], element(b"q", 6, 0), element(b"v", 4, 1)])
    yield "a repeated column", made([FIRST], schema=[SCHEMA[0], element(b"k", 6, 2), SCHEMA[2]])
    compressed = {(0, 0): {"codec": 1}}
    yield "another name, and a codec", made([FIRST], compressed, [SCHEMA[0], element(b"q", 6, 0), SCHEMA[2]])
    yield "an optional column that should not be, and a codec", made([FIRST], compressed, [SCHEMA[0], element(b"k", 6, 1), SCHEMA[2]])
    yield "a root that doesn't tell its children, and a codec", made([FIRST], compressed, [element(b"schema", None, None), *SCHEMA[1:]])
    yield "one row too many in the file, and a codec", made([FIRST], compressed, rows=3)
    yield "a row group of other rows than its chunks, and a codec", made([FIRST], compressed, group_rows={0: 1}, rows=1)
    yield "rows fewer than none, and a codec", made(
        [FIRST], {(0, 0): {"codec": 1, "count": -2}, (0, 1): {"count": -2}}, group_rows={0: -2}, rows=-2)
    yield "a path of two names, and a codec", made([FIRST], {(0, 0): {"codec": 1, "path": [b"k", b"k"]}})
    yield "a codec in the first column, and a page that is none", made([FIRST], {(0, 0): {"codec": 1, "offset": 4}, (0, 1): {"offset": -1}})
    yield "a codec at a negative place", made([FIRST], {(0, 0): {"codec": -3, "offset": -9}})
    yield "a negative place, and a codec in the next column", made([FIRST], {(0, 0): {"offset": -9}, (0, 1): {"codec": 1}})
    yield "a place at the file's end", made([FIRST], {(0, 0): {"offset": len(made([FIRST])) + 1}, (0, 1): {"codec": 1}})
    strange = page(texts(b"a", b"b", b"c"), 3, encoding=2)
    yield "an encoding, and too many cells", made([(2, [[strange], FIRST[1][1]])], {(0, 1): {"codec": 1}})
    yield "levels of another encoding, and a body that is none", made([(2, [FIRST[1][0], [page(b"", 2, levels=4)]])])
    yield "levels of another encoding in a required column", made([(2, [[page(texts(b"a", b"b"), 2, levels=4)], FIRST[1][1]])])
    yield "too many cells, and a codec in the next column", made(
        [(2, [[page(texts(b"a", b"b", b"c"), 3)], FIRST[1][1]])], {(0, 1): {"codec": 1}})
    yield "too many nulls to be held", made([(2, [FIRST[1][0], [page(runs((2147483647, 0)), 2147483647)]])])
    yield "too few cells, and a codec in the next group", made(
        [(2, [[page(texts(b"a", b"b"), 2)], [page(runs((1, 1)) + ints(1), 2)]]), SECOND], {(1, 0): {"codec": 1}})
    yield "a text that isn't UTF-8", made([(2, [[page(texts(b"a", b"\xff"), 2)], FIRST[1][1]])])
    yield "a page in the second group", made([FIRST, (1, [SECOND[1][0], [page(b"\1", 1)]])])
    yield "another type of page", made([(2, [[page(texts(b"a", b"b"), 2, kind=1)], FIRST[1][1]])])


def small_changes():
    """Every prefix of one small file, and the file with each byte changed in two ways."""
    small = made([FIRST])
    for n in range(len(small)):
        yield "its first %d bytes" % n, small[:n]
    for n in range(len(small)):
        for mask in (1, 128):
            yield "byte %d by %d" % (n, mask), changed(small, n, bytes([small[n] ^ mask]))


def printed(data):
    found = answer(data)
    return found if all(32 <= ord(c) for c in found) else None


if __name__ == "__main__":
    print({"stdin": "written", "stdout": made([FIRST]).hex()}.get(sys.argv[1], "a file that is written"))
    for name, data in list(cases()) + list(small_changes()):
        found = printed(data)
        if found is not None:
            print({"stdin": data.hex(), "stdout": found}.get(sys.argv[1], "%s: %s" % (name, found)))
