"""Files of columns as docs/PARTS.md has them, taken apart and put together by plain Python."""

import json
import struct
import zlib
from decimal import Decimal

MAGIC = b"VXPART2\n"

# Rows of each type.
EACH = [
    ("null", [None, None]),
    ("bool", [True, None, False, True, True, False, False, True, True]),
    ("int8", [-128, None, 127]),
    ("uint8", [0, None, 255]),
    ("int16", [-(2**15), None, 2**15 - 1]),
    ("uint16", [0, None, 2**16 - 1]),
    ("int32", [-(2**31), None, 2**31 - 1]),
    ("uint32", [0, None, 2**32 - 1]),
    ("int64", [-(2**63), None, 2**63 - 1]),
    ("uint64", [0, None, 2**64 - 1]),
    ("float16", [1.5, None, -0.25]),
    ("float32", [1.5, None, -0.25]),
    ("float64", [1.1, None, -2.2]),
    ("decimal32(5, 1)", [Decimal("-1.5"), None]),
    ("decimal64(9, -2)", [Decimal("1.2e3"), None]),
    ("decimal128(20, 3)", [Decimal("1.250"), None]),
    ("decimal256(40, 0)", [Decimal(10**39), None]),
    ("fixed_size_binary(0)", [b"", None]),
    ("fixed_size_binary(3)", [b"abc", None]),
    ("date32", [7, None]),
    ("date64", [86400000, None]),
    ("time32[s]", [5, None]),
    ("time32[ms]", [5, None]),
    ("time64[us]", [2**40, None]),
    ("time64[ns]", [2**40, None]),
    ("timestamp[s]", [2**40, None]),
    ("timestamp[ms, UTC]", [2**40, None]),
    ("timestamp[us, Europe/Rome]", [2**40, None]),
    ("timestamp[ns]", [2**40, None]),
    ("duration[s]", [2**40, None]),
    ("duration[ms]", [2**40, None]),
    ("duration[us]", [2**40, None]),
    ("duration[ns]", [2**40, None]),
    ("interval[months]", [2**30, None]),
    ("interval[days]", [(2**30, -5), None]),
    ("interval[nanoseconds]", [(1, 2, 2**40), None]),
    ("utf8", ["", None, "a string of more than twelve", "é"]),
    ("large_utf8", ["", None, "abc"]),
    ("binary", [b"\xff", None, b""]),
    ("large_binary", [b"\xff", None, b""]),
    ("utf8_view", ["short", None, "a string of more than twelve", "twelve bytes"]),
    ("binary_view", [b"\xff" * 13, None, b"", b"\x00" * 40]),
    ("list<int8>", [[1, None], None, []]),
    ("large_list<utf8>", [["a", None], None, []]),
    ("list_view<int8>", [[1, None], None, [], [7]]),
    ("large_list_view<int16>", [[1, None], None, [], [7]]),
    ("fixed_size_list<int8, 2>", [[1, None], None]),
    ("fixed_size_list<int8, 0>", [[], None]),
    ("map<utf8, int8>", [[("a", 1), ("b", None)], None, []]),
    ("struct<>", [{}, None]),
    ("struct<a: int8, b: list<utf8>>", [{"a": 1, "b": ["x"]}, None, {"a": None, "b": None}]),
    ("sparse_union<a: int8, b: utf8>", [1, "x", -3]),
    ("sparse_union[5,0]<a: bool, b: float64>", [True, 2.5]),
    ("dense_union<a: int8, b: utf8>", [1, "x", -3]),
    ("dense_union[5,0]<a: bool, b: list<float64>>", [[2.5], True]),
    ("dictionary<int8, utf8>", ["a", "b", None, "a"]),
    ("dictionary<uint64, dictionary<int16, utf8_view>>", ["a", "b", None, "a"]),
    ("dictionary<int32, struct<a: int8>>", [{"a": 1}, None, {"a": 1}]),
]


def taken_apart(data):
    """Return the values of the head of a file, and its body."""
    assert data[:8] == MAGIC
    size, crc = struct.unpack("<QQ", data[8:24])
    assert zlib.crc32(data[24 : 24 + size]) == crc
    return json.loads(data[24 : 24 + size].decode()), data[24 + size :]


def put_back(head, body):
    """Return a file of a head and a body. The checksum of the head is right."""
    text = head if isinstance(head, bytes) else json.dumps(head).encode()
    text += b" " * (-(24 + len(text)) % 64)
    return MAGIC + struct.pack("<QQ", len(text), zlib.crc32(text)) + text + body


def placed_body(buffers):
    """Return the places of buffers, and a body of them."""
    places, body = [], b""
    for data in buffers:
        places.append([len(body), len(data), zlib.crc32(data)])
        body += data + bytes(-len(data) % 64)
    return places, body


def file_of(field, array, buffers):
    """Return a file of a column."""
    places, body = placed_body(buffers)
    return put_back([field, array, places, len(body)], body)


def field(form, name="", flags=2, metadata=None, children=(), dictionary=None):
    return [form, name, flags, metadata, list(children), dictionary]
