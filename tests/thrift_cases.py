#!/usr/bin/env python3
"""Writes the cases of crates/thrift_cases and what must come of them, by a reader of its own.

The reader follows the text of Thrift's compact protocol and of Parquet's parquet.thrift, and shares nothing with the
crates. `thrift_cases.py stdin` prints the cases, `thrift_cases.py stdout` the answers.
"""
import sys

LEVELS = 32


class Short(Exception):
    pass


class Bad(Exception):
    pass


class Reader:
    def __init__(self, data):
        self.data, self.at = data, 0

    def byte(self, item):
        if self.at >= len(self.data):
            raise Short(item)
        self.at += 1
        return self.data[self.at - 1]

    def varint(self, bits, item=None):
        item = self.at if item is None else item
        value = 0
        for place in range(10):
            byte = self.byte(item)
            value |= (byte & 127) << (7 * place)
            if byte < 128:
                if value >> bits:
                    raise Bad(item)
                return value
        raise Bad(item)

    def zigzag(self, bits, item=None):
        value = self.varint(bits, item)
        return value >> 1 if value % 2 == 0 else -1 - (value >> 1)

    def take(self, count, item=None):
        item = self.at if item is None else item
        if len(self.data) - self.at < count:
            raise Short(item)
        self.at += count
        return self.data[self.at - count:self.at]

    def binary(self):
        item = self.at
        return self.take(self.varint(32, item), item)

    def field(self, last):
        item = self.at
        byte = self.byte(item)
        if byte == 0:
            return None
        if not 1 <= byte & 15 <= 12:
            raise Bad(item)
        fid = last + (byte >> 4) if byte >> 4 else self.zigzag(16, item)
        if fid > 32767:
            raise Bad(item)
        return fid, byte & 15, item

    def list(self):
        item = self.at
        byte = self.byte(item)
        if not 1 <= byte & 15 <= 12:
            raise Bad(item)
        return byte & 15, self.varint(32, item) if byte >> 4 == 15 else byte >> 4, item

    def skip(self, kind, level=1, inside=False):
        if kind in (1, 2):
            if inside:
                self.take(1)
        elif kind == 3:
            self.take(1)
        elif kind in (4, 5, 6):
            self.zigzag({4: 16, 5: 32, 6: 64}[kind])
        elif kind == 7:
            self.take(8)
        elif kind == 8:
            self.binary()
        elif kind in (9, 10, 11, 12):
            if level > LEVELS:
                item = self.at
                self.byte(item)
                raise Bad(item)
            self.container(kind, level)
        else:
            raise Bad(self.at)

    def container(self, kind, level):
        if kind in (9, 10):
            of, count, _ = self.list()
            for _ in range(count):
                self.skip(of, level + 1, True)
        elif kind == 11:
            item = self.at
            count = self.varint(32)
            if count:
                byte = self.byte(item)
                if not (1 <= byte >> 4 <= 12 and 1 <= byte & 15 <= 12):
                    raise Bad(item)
                for _ in range(count):
                    self.skip(byte >> 4, level + 1, True)
                    self.skip(byte & 15, level + 1, True)
        else:
            last = 0
            while (field := self.field(last)) is not None:
                last = field[0]
                self.skip(field[1], level + 1)

    def struct(self, spec):
        """Reads a struct; spec maps an id to its name, type, reader and whether it is required."""
        found, last = {}, 0
        while True:
            stop = self.at
            field = self.field(last)
            if field is None:
                break
            last, kind, item = field
            if last in spec:
                name, wanted, read, _ = spec[last]
                if kind != wanted:
                    raise Bad(item)
                found[name] = read(self)
            else:
                self.skip(kind)
        if any(required and name not in found for name, _, _, required in spec.values()):
            raise Bad(stop)
        return found

    def items(self, wanted, read):
        kind, count, item = self.list()
        if kind != wanted:
            raise Bad(item)
        return [read(self) for _ in range(count)]


def i32(name, required=True):
    return name, 5, lambda r: r.zigzag(32), required


def i64(name):
    return name, 6, lambda r: r.zigzag(64), True


DATA_PAGE = {1: i32('values'), 2: i32('encoding'), 3: i32('def_encoding'), 4: i32('rep_encoding')}
HEADER = {1: i32('kind'), 2: i32('uncompressed'), 3: i32('compressed'),
          5: ('page', 12, lambda r: r.struct(DATA_PAGE), True)}
ELEMENT = {1: i32('physical', False), 3: i32('repetition', False), 4: ('name', 8, Reader.binary, True),
           5: i32('children', False)}
COLUMN = {1: i32('physical'), 2: ('encodings', 9, lambda r: r.items(5, lambda q: q.zigzag(32)), True),
          3: ('path', 9, lambda r: r.items(8, Reader.binary), True), 4: i32('codec'), 5: i64('num_values'),
          6: i64('uncompressed'), 7: i64('compressed'), 9: i64('data_offset')}
CHUNK = {2: i64('file_offset'), 3: ('meta', 12, lambda r: r.struct(COLUMN), True)}
GROUP = {1: ('columns', 9, lambda r: r.items(12, lambda q: q.struct(CHUNK)), True), 2: i64('size'), 3: i64('rows')}
FOOTER = {1: i32('version'), 2: ('schema', 9, lambda r: r.items(12, lambda q: q.struct(ELEMENT)), True), 3: i64('rows'),
          4: ('groups', 9, lambda r: r.items(12, lambda q: q.struct(GROUP)), True)}


# ---- writing

def varint(n):
    out = b''
    while n >= 128:
        out, n = out + bytes([128 + n % 128]), n >> 7
    return out + bytes([n])


def zig(n):
    return varint(2 * n if n >= 0 else -2 * n - 1)


def fields(*parts):
    """A struct of (id, type, value), ids in any order."""
    out, last = b'', 0
    for fid, kind, value in parts:
        step = fid - last
        out += (bytes([step * 16 + kind]) if 1 <= step <= 15 else bytes([kind]) + zig(fid)) + value
        last = fid
    return out + b'\0'


def listing(kind, *values):
    head = bytes([len(values) * 16 + kind]) if len(values) < 15 else bytes([240 + kind]) + varint(len(values))
    return head + b''.join(values)


def text(s):
    return varint(len(s)) + s


def num(fid, n, kind=5):
    return fid, kind, zig(n)


def page(*more, values=3):
    return fields(num(1, values), num(2, 0), num(3, 3), num(4, 3), *more)


def header(*more, inner=None):
    return fields(num(1, 0), num(2, 10), num(3, 10), (5, 12, page() if inner is None else inner), *more)


def element(name, *more, physical=6):
    return fields(num(1, physical), num(3, 0), (4, 8, text(name)), *more)


def chunk(offset, name, *more):
    meta = fields(num(1, 6), (2, 9, listing(5, zig(0), zig(3))), (3, 9, listing(8, text(name))), num(4, 0),
                  num(5, 2, 6), num(6, 40, 6), num(7, 40, 6), num(9, offset, 6), *more)
    return fields(num(2, offset, 6), (3, 12, meta))


def group(*chunks, more=()):
    return fields((1, 9, listing(12, *chunks)), num(2, 80, 6), num(3, 2, 6), *more)


def footer(*more, elements=None, groups=None, root=None):
    root = fields((4, 8, text(b'schema')), num(5, 2)) if root is None else root
    elements = [element(b'a'), element(b'bc')] if elements is None else elements
    groups = [group(chunk(4, b'a'), chunk(44, b'bc'))] if groups is None else groups
    return fields(num(1, 1), (2, 9, listing(12, root, *elements)), num(3, 2, 6), (4, 9, listing(12, *groups)),
                  (6, 8, text(b'hudi profile')), *more)


# a value of each type, and how it stands as an item
VALUES = {1: b'', 2: b'', 3: b'\x7f', 4: zig(-300), 5: zig(1 << 30), 6: zig(-(1 << 62)), 7: b'\1' * 8,
          8: text(b'some'), 9: listing(1, b'\1', b'\0'), 10: listing(12, b'\0', fields(num(1, 4))),
          11: varint(2) + b'\x81' + text(b'k') + b'\1' + text(b'l') + b'\5', 12: fields(num(7, 1), (40, 2, b''))}


def nested(levels):
    """Lists, sets, maps and structs by turns, so many levels, with a byte inside; and its type."""
    kind, value = 3, b'\0'
    for level in range(levels):
        turn = level % 4
        if turn == 0:
            kind, value = 9, listing(kind, value)
        elif turn == 1:
            kind, value = 10, listing(kind, value)
        elif turn == 2:
            kind, value = 11, varint(1) + bytes([48 + kind]) + b'\0' + value
        else:
            kind, value = 12, fields((1, kind, value))
    return kind, value


def cases():
    yield 'written'
    for kind, value in VALUES.items():
        yield f'skip {kind} {(value + b"rest").hex()}'
        for cut in (0, len(value) - 1):
            if value and cut < len(value):
                yield f'skip {kind} {value[:cut].hex()}'
    for kind in (0, 13, 14, 15, 255):
        yield f'skip {kind} 00'
    for levels in (31, 32, 33, 34):
        kind, value = nested(levels)
        yield f'skip {kind} {value.hex()}'
    kind, value = nested(33)
    yield f'skip 12 {"1c" * 32 + "00" * 32}'
    yield f'skip 12 {"1c" * 31}'
    yield f'skip 12 {"1c" * 32}'
    yield f'skip 12 {"1c" * 33}'
    for digits in ('f9ffffffff0f', 'fcffffffff0f00000000', 'fdffffffff0f', '90', '9d', '00', '0d', 'f5', 'f580', '1f'):
        yield f'skip 9 {digits}'
    for digits in ('ffffffff0f', 'ffffffff1f', '00', '01', '0100', '0133', '013301', '01330102', '01d3', '013d',
                   '80808080808080808000', '8080808080808080808000'):
        yield f'skip 11 {digits}'
    for width, kind in ((16, 4), (32, 5), (64, 6)):
        for n in ((1 << width) - 1, 1 << width):
            yield f'skip {kind} {varint(n).hex()}'
    for digits in ('ff' * 9 + '01', 'ff' * 9 + '02', 'ff' * 10, 'ff' * 9, '80' * 9 + '00', '80' * 10 + '00'):
        yield f'skip 6 {digits}'
    for digits in ('0500', '05fffe0f00', '05feff0300', '05ffff0300', '0580800400', '05feff031500', '0d', '10', '15', '1d',
                   '05', '0580'):
        yield f'skip 12 {digits}'
    yield 'header 1500151415142c150615001506150600 00'.replace(' 00', '00')
    whole = header()
    for cut in range(len(whole)):
        yield f'header {whole[:cut].hex()}'
    yield f'header {(whole + b"rest").hex()}'
    for kind, value in VALUES.items():
        yield f'header {header((4, kind, value), (100, kind, value)).hex()}'
        yield f'header {header(inner=page((5, kind, value), (-7, kind, value))).hex()}'
    yield f'header {fields((5, 12, page()), num(3, -1), num(2, 9), num(1, 2), num(1, 0)).hex()}'
    yield f'header {header(inner=fields(num(4, 3), num(1, 8), num(3, 3), num(2, 0), num(1, 9))).hex()}'
    for fid in (1, 2, 3):
        for kind in (1, 3, 4, 6, 8, 12):
            yield f'header {header((fid, kind, VALUES[kind])).hex()}'
    yield f'header {header((5, 9, VALUES[9])).hex()}'
    for missing in (1, 2, 3, 5):
        parts = [p for p in (num(1, 0), num(2, 10), num(3, 10), (5, 12, page())) if p[0] != missing]
        yield f'header {fields(*parts).hex()}'
    for missing in (1, 2, 3, 4):
        parts = [p for p in (num(1, 3), num(2, 0), num(3, 3), num(4, 3)) if p[0] != missing]
        yield f'header {header(inner=fields(*parts)).hex()}'
    whole = footer()
    yield f'footer {whole.hex()}'
    for cut in range(0, len(whole), 7):
        yield f'footer {whole[:cut].hex()}'
    yield f'footer {(whole + bytes(1)).hex()}'
    yield f'footer {footer(groups=[]).hex()}'
    yield f'footer {footer(elements=[]).hex()}'
    for kind, value in VALUES.items():
        yield f'footer {footer((5, kind, value), (900, kind, value)).hex()}'
        yield f'footer {footer(elements=[element(b"a", (2, kind, value), (10, kind, value))]).hex()}'
        yield f'footer {footer(groups=[group(chunk(4, b"a", (8, kind, value), (12, kind, value)))]).hex()}'
        yield f'footer {footer(groups=[group(more=((5, kind, value), (4, kind, value)))]).hex()}'
    for name, parts in (('children', (num(5, 1),)), ('leaf', (num(5, 0),)), ('repeated', (num(3, 2),)),
                        ('large', (num(3, 7),))):
        yield f'footer {footer(elements=[element(b"a"), element(name.encode(), *parts)]).hex()}'
    for physical in (-1, 0, 1, 2, 3, 4, 5, 6, 7):
        yield f'footer {footer(elements=[element(b"a", physical=physical)]).hex()}'
    yield f'footer {footer(elements=[fields((4, 8, text(b"no type")))]).hex()}'
    yield f'footer {footer(elements=[element(b"a", num(5, 1))]).hex()}ff'
    for fid, kind in ((1, 6), (2, 10), (3, 5), (4, 12)):
        yield f'footer {footer((fid, kind, VALUES[kind])).hex()}'
    yield f'footer {footer((2, 9, listing(5))).hex()}'
    yield f'footer {footer((4, 9, listing(8, text(b"x")))).hex()}'
    yield f'footer {footer((2, 9, bytes([252]) + varint((1 << 32) - 1))).hex()}'
    yield f'footer {footer(num(1, 2), num(3, 5, 6), (2, 9, listing(12))).hex()}'


def plain(element):
    return (element.get('children', 0) == 0 and element.get('repetition', 0) != 2
            and element.get('physical') in (0, 1, 2, 6))


def told_header(data):
    r = Reader(data)
    h = r.struct(HEADER)
    p = h['page']
    names = ('kind', 'uncompressed', 'compressed')
    told = [f'{n}: {h[n]}' for n in names] + [f'{n}: {p[n]}' for n in ('values', 'encoding', 'def_encoding', 'rep_encoding')]
    written = fields(*(num(i + 1, h[n]) for i, n in enumerate(names)),
                     (5, 12, fields(*(num(i + 1, p[n]) for i, n in
                                      enumerate(('values', 'encoding', 'def_encoding', 'rep_encoding'))))))
    return f'PageHeader {{ {", ".join(told)} }}, {r.at} bytes, written {written.hex()}'


def told_footer(data):
    r = Reader(data)
    m = r.struct(FOOTER)
    if r.at < len(data):
        raise Bad(r.at)
    for index, one in enumerate(m['schema']):
        if index and not plain(one):
            return f'unsupported {index}'
    told = f'version {m["version"]}, {m["rows"]} rows'
    for one in m['schema']:
        told += '; element {} {} {} {}'.format(one['name'].hex(), *(one.get(n, -1) for n in ('physical', 'repetition', 'children')))
    for one in m['groups']:
        told += f'; group {one["rows"]} {one["size"]} {len(one["columns"])}'
    return told


def sample_footer():
    """What is written of the footer of crates/thrift_cases/src/sample.rt."""
    root = fields((4, 8, text(b'root')), num(5, 1))
    column = fields(num(1, 6), num(3, 1), (4, 8, text(b'a')), num(6, 0))
    meta = fields(num(1, 6), (2, 9, listing(5, zig(0))), (3, 9, listing(8, text(b'a'))), num(4, 0), num(5, 3, 6),
                  num(6, 100, 6), num(7, 100, 6), num(9, 4, 6))
    group = fields((1, 9, listing(12, fields(num(2, 4, 6), (3, 12, meta)))), num(2, 100, 6), num(3, 3, 6))
    return fields(num(1, 1), (2, 9, listing(12, root, column)), num(3, 3, 6), (4, 9, listing(12, group)),
                  (6, 8, text(b'hudi profile')))


def answer(case):
    word, *rest = case.split()
    if word == 'written':
        return sample_footer().hex()
    data = bytes.fromhex(rest[-1]) if len(rest) > (word == 'skip') else b''
    try:
        if word == 'skip':
            r = Reader(data)
            r.skip(int(rest[0]))
            return f'{r.at} bytes'
        return told_header(data) if word == 'header' else told_footer(data)
    except Short as e:
        return f'{"short" if word == "skip" else "bad"} at {e.args[0]}'
    except Bad as e:
        return f'bad at {e.args[0]}'


for case in cases():
    print(case if sys.argv[1] == 'stdin' else answer(case))
