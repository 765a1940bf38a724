#!/usr/bin/python3
"""Has Apache Thrift's own Python library read what the crates write: a footer and a page's header of parquet_meta, and
the footer and the page headers of a base file of base_writer, whose pages the reader of base_cases.py reads.

Run: interop_thrift.py THRIFT_CASES BASE_CASES, the two built programs. tests/interop.sh runs it.
It wants Debian's python3-thrift. It prints a line and ends with status 1 where the library isn't there, or reads anything
but what the footer of thrift_cases (crates/thrift_cases/src/sample.rt), the header of the Parquet format's example and the
file of base_cases (crates/base_cases/src/written.rt) hold. The structs are those of parquet.thrift, with all the fields
that may stand in such a footer.
"""
import subprocess
import sys

try:
    from thrift.Thrift import TType
    from thrift.protocol.TCompactProtocol import TCompactProtocol
    from thrift.transport.TTransport import TMemoryBuffer
except ImportError:
    print("failed: no python3-thrift")
    sys.exit(1)

from base_cases import answer

I32, I64, STRUCT, LIST, STRING = TType.I32, TType.I64, TType.STRUCT, TType.LIST, TType.STRING


def struct(name, *fields):
    """A class with the `thrift_spec` that Thrift's compiler would write for these fields: (id, type, name, arguments)."""
    spec = [None] * (1 + max(field[0] for field in fields))
    for number, kind, field, arguments in fields:
        spec[number] = (number, kind, field, arguments, None)

    def init(self, **values):
        for _, _, field, _ in fields:
            setattr(self, field, values.get(field))

    def read(self, protocol):
        protocol.readStruct(self, self.thrift_spec)

    return type(name, (), {"thrift_spec": tuple(spec), "__init__": init, "read": read})


def list_of(cls):
    return (STRUCT, (cls, cls.thrift_spec), False)


def nested(cls):
    return (cls, cls.thrift_spec)


SchemaElement = struct(
    "SchemaElement", (1, I32, "type", None), (2, I32, "type_length", None), (3, I32, "repetition_type", None),
    (4, STRING, "name", "UTF8"), (5, I32, "num_children", None), (6, I32, "converted_type", None))
ColumnMetaData = struct(
    "ColumnMetaData", (1, I32, "type", None), (2, LIST, "encodings", (I32, None, False)),
    (3, LIST, "path_in_schema", (STRING, "UTF8", False)), (4, I32, "codec", None), (5, I64, "num_values", None),
    (6, I64, "total_uncompressed_size", None), (7, I64, "total_compressed_size", None),
    (9, I64, "data_page_offset", None), (10, I64, "index_page_offset", None))
ColumnChunk = struct(
    "ColumnChunk", (1, STRING, "file_path", "UTF8"), (2, I64, "file_offset", None),
    (3, STRUCT, "meta_data", nested(ColumnMetaData)))
RowGroup = struct(
    "RowGroup", (1, LIST, "columns", list_of(ColumnChunk)), (2, I64, "total_byte_size", None), (3, I64, "num_rows", None))
FileMetaData = struct(
    "FileMetaData", (1, I32, "version", None), (2, LIST, "schema", list_of(SchemaElement)), (3, I64, "num_rows", None),
    (4, LIST, "row_groups", list_of(RowGroup)), (6, STRING, "created_by", "UTF8"))
DataPageHeader = struct(
    "DataPageHeader", (1, I32, "num_values", None), (2, I32, "encoding", None),
    (3, I32, "definition_level_encoding", None), (4, I32, "repetition_level_encoding", None))
PageHeader = struct(
    "PageHeader", (1, I32, "type", None), (2, I32, "uncompressed_page_size", None),
    (3, I32, "compressed_page_size", None), (4, I32, "crc", None),
    (5, STRUCT, "data_page_header", nested(DataPageHeader)))


def plain(value):
    """The value as dictionaries and lists, without the fields that are absent."""
    if isinstance(value, list):
        return [plain(item) for item in value]
    if hasattr(value, "thrift_spec"):
        return {name: plain(part) for name, part in vars(value).items() if part is not None}
    return value


def read(cls, data):
    """The struct that the library reads, and the bytes that it leaves."""
    transport = TMemoryBuffer(data)
    value = cls()
    value.read(TCompactProtocol(transport))
    return plain(value), transport.read(len(data))


FOOTER = {
    "version": 1,
    "schema": [
        {"name": "root", "num_children": 1},
        {"type": 6, "repetition_type": 1, "name": "a", "converted_type": 0},
    ],
    "num_rows": 3,
    "row_groups": [{
        "columns": [{
            "file_offset": 4,
            "meta_data": {
                "type": 6, "encodings": [0], "path_in_schema": ["a"], "codec": 0, "num_values": 3,
                "total_uncompressed_size": 100, "total_compressed_size": 100, "data_page_offset": 4,
            },
        }],
        "total_byte_size": 100,
        "num_rows": 3,
    }],
    "created_by": "hudi profile",
}
HEADER_HEX = "1500151415142c15061500150615060000"
HEADER = {
    "type": 0, "uncompressed_page_size": 10, "compressed_page_size": 10,
    "data_page_header": {
        "num_values": 3, "encoding": 0, "definition_level_encoding": 3, "repetition_level_encoding": 3,
    },
}




def base_footer(first, second):
    """The footer of the file of two rows, whose two pages take so many bytes."""
    def chunk(name, kind, offset, size):
        return {"file_offset": offset, "meta_data": {
            "type": kind, "encodings": [0, 3], "path_in_schema": [name], "codec": 0, "num_values": 2,
            "total_uncompressed_size": size, "total_compressed_size": size, "data_page_offset": offset}}
    return {
        "version": 1,
        "schema": [
            {"name": "schema", "num_children": 2},
            {"type": 6, "repetition_type": 0, "name": "k", "converted_type": 0},
            {"type": 1, "repetition_type": 1, "name": "v"},
        ],
        "num_rows": 2,
        "row_groups": [{
            "columns": [chunk("k", 6, 4, first), chunk("v", 1, 4 + first, second)],
            "total_byte_size": first + second,
            "num_rows": 2,
        }],
        "created_by": "hudi profile",
    }


BASE_ROWS = "a 1; b -"


def page_header(size):
    return {"type": 0, "uncompressed_page_size": size, "compressed_page_size": size, "data_page_header": {
        "num_values": 2, "encoding": 0, "definition_level_encoding": 3, "repetition_level_encoding": 3}}


def lines_of(program, given):
    return subprocess.run([program], input=given, capture_output=True, text=True, check=True).stdout.splitlines()


def written_parts(program):
    """What the library has to read of a footer and of a page's header that are written by themselves."""
    told = lines_of(program, f"written\nheader {HEADER_HEX}\n")
    yield "footer", FileMetaData, bytes.fromhex(told[0]), FOOTER, 0
    yield "page header", PageHeader, bytes.fromhex(told[1].rsplit(" written ", 1)[1]), HEADER, 0


def base_parts(data):
    """What it has to read of a base file: a page of two texts, one of levels and a number, and the footer."""
    texts, optional = 2 * (4 + 1), 4 + 2 * 2 + 4
    footer_at = len(data) - 8 - int.from_bytes(data[-8:-4], "little")
    pages = data[4:footer_at]
    first = len(pages) - len(read(PageHeader, pages)[1]) + texts
    second = pages[first:]
    yield "first page header of a base file", PageHeader, pages, page_header(texts), len(pages) - first + texts
    yield "second page header of a base file", PageHeader, second, page_header(optional), optional
    yield "footer of a base file", FileMetaData, data[footer_at:-8], base_footer(first, len(second)), 0


def main():
    thrift_cases, base_cases = sys.argv[1:]
    data = bytes.fromhex(lines_of(base_cases, "written\n")[0])
    failed = 0
    for name, cls, given, wanted, behind in list(written_parts(thrift_cases)) + list(base_parts(data)):
        found, left = read(cls, given)
        if found != wanted or len(left) != behind:
            failed = 1
            print(f"FAILED {name}: the library reads {found} and leaves {left.hex() or 'nothing'}")
        else:
            print(f"ok: Thrift's library reads the {name}, of {len(given) - len(left)} bytes")
    if data[:4] != b"PAR1" or data[-4:] != b"PAR1" or answer(data) != BASE_ROWS:
        failed = 1
        print(f"FAILED pages of a base file: {answer(data)}")
    else:
        print(f"ok: a plain reader reads the rows of a base file of {len(data)} bytes")
    sys.exit(failed)


main()
