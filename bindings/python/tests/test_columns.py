"""Columns of each type as bytes worked out by hand: built from rows, and read from buffers."""

import decimal
import pickle
import struct
import unittest
from array import array
from decimal import Decimal
from unittest import mock

from vortex_select import Take, _building, _native, check, column, from_buffers, select
from vortex_select._building import lengths_of
from vortex_select.columns import column_over

# The type, rows whose second is a null, and the bytes of their values, in hexadecimal.
FIXED = (
    ("int8", [1, None, -2], "01 00 fe"),
    ("uint8", [1, None, 254], "01 00 fe"),
    ("int16", [1, None, -2], "0100 0000 feff"),
    ("uint16", [258, None, 65534], "0201 0000 feff"),
    ("int32", [1, None, -2], "01000000 00000000 feffffff"),
    ("uint32", [1, None, 2**32 - 2], "01000000 00000000 feffffff"),
    ("int64", [1, None, -2], "0100000000000000 0000000000000000 feffffffffffffff"),
    ("uint64", [1, None, 2**64 - 2], "0100000000000000 0000000000000000 feffffffffffffff"),
    ("float16", [1.5, None, -2.0], "003e 0000 00c0"),
    ("float32", [1.5, None, -2.0], "0000c03f 00000000 000000c0"),
    ("float64", [1.5, None, -2.0], "000000000000f83f 0000000000000000 00000000000000c0"),
    ("date32", [1, None, -2], "01000000 00000000 feffffff"),
    ("date64", [1, None, -2], "0100000000000000 0000000000000000 feffffffffffffff"),
    ("time32[s]", [1, None, 2], "01000000 00000000 02000000"),
    ("time32[ms]", [1, None, 2], "01000000 00000000 02000000"),
    ("time64[us]", [1, None, 2], "0100000000000000 0000000000000000 0200000000000000"),
    ("time64[ns]", [1, None, 2], "0100000000000000 0000000000000000 0200000000000000"),
    ("timestamp[s]", [1, None, -2], "0100000000000000 0000000000000000 feffffffffffffff"),
    ("timestamp[ms, UTC]", [1, None, -2], "0100000000000000 0000000000000000 feffffffffffffff"),
    ("duration[us]", [1, None, -2], "0100000000000000 0000000000000000 feffffffffffffff"),
    ("interval[months]", [1, None, -2], "01000000 00000000 feffffff"),
    (
        "interval[days]", [(1, -2), None, (3, 4)],
        "01000000 feffffff" + "00" * 8 + "03000000 04000000"
    ),
    (
        "interval[nanoseconds]",
        [(1, -2, 3), None, (0, 0, -1)],
        "01000000 feffffff 0300000000000000" + "00" * 16 + "00" * 8 + "ff" * 8,
    ),
    ("decimal32(5, 1)", [Decimal("1.5"), None, Decimal("-0.2")], "0f000000 00000000 feffffff"),
    (
        "decimal64(9, 2)", [Decimal("1.50"), None, Decimal("-0.02")],
        "96" + "00" * 15 + "fe" + "ff" * 7
    ),
    (
        "decimal128(9, 2)", [Decimal("1.50"), None, Decimal("-0.02")],
        "96" + "00" * 31 + "fe" + "ff" * 15
    ),
    ("decimal128(20, -3)", [Decimal("5E+3"), None, Decimal("0E+3")], "05" + "00" * 47),
    ("decimal256(76, 0)", [Decimal(256), None, Decimal(-1)], "0001" + "00" * 62 + "ff" * 32),
    ("fixed_size_binary(3)", [b"abc", None, b"def"], "616263 000000 646566"),
    ("fixed_size_binary(0)", [b"", None, b""], ""),
)
# The type, rows, and the buffers behind the validity.
OF_BYTES = (
    ("utf8", ["a", None, "\u00e9"], ["00000000 01000000 01000000 03000000", "61c3a9"]),
    (
        "large_utf8",
        ["a", None, "\u00e9"],
        ["00" * 8 + ("01" + "00" * 7) * 2 + "03" + "00" * 7, "61c3a9"],
    ),
    ("binary", [b"a", None, b"\xff"], ["00000000 01000000 01000000 02000000", "61ff"]),
    (
        "large_binary", [b"a", None, b"\xff"],
        ["00" * 8 + ("01" + "00" * 7) * 2 + "02" + "00" * 7, "61ff"]
    ),
    (
        "utf8_view",
        ["a", None, "thirteen byte"],
        [
            "01000000 61" + "00" * 11 + "00" * 16 + "0d000000 74686972 00000000 00000000",
            b"thirteen byte".hex()
        ],
    ),
    ("binary_view", [b"twelve bytes", None, b""], ["0c000000" + b"twelve bytes".hex() + "00" * 32]),
)
NUMBERS = column([1, 2, 3], "int8")
ONE_ITEM_NULL = column([1, 2, None, None, 3, None], "int8")
ENTRIES = column(
    [{"key": "a", "value": 1}, {"key": "b", "value": None}], "struct<key: utf8, value: int8>"
)
# The type, rows, the buffers behind the validity, and the child.
LISTS = (
    ("list<int8>", [[1, 2], None, [3]], ["00000000 02000000 02000000 03000000"], NUMBERS),
    (
        "large_list<int8>",
        [[1, 2], None, [3]],
        ["00" * 8 + ("02" + "00" * 7) * 2 + "03" + "00" * 7],
        NUMBERS,
    ),
    (
        "list_view<int8>",
        [[1, 2], None, [3]],
        ["00000000 02000000 02000000", "02000000 00000000 01000000"],
        NUMBERS,
    ),
    (
        "large_list_view<int8>",
        [[1, 2], None, [3]],
        ["00" * 8 + ("02" + "00" * 7) * 2, "02" + "00" * 15 + "01" + "00" * 7],
        NUMBERS,
    ),
    ("fixed_size_list<int8, 2>", [[1, 2], None, [3, None]], [], ONE_ITEM_NULL),
    ("fixed_size_list<int8, 0>", [[], None, []], [], column([], "int8")),
    (
        "map<utf8, int8>", [[("a", 1)], None, [("b", None)]],
        ["00000000 01000000 01000000 02000000"], ENTRIES
    ),
    (
        "list<null>", [[None, None], None, []], ["00000000 02000000 02000000 02000000"],
        column([None, None])
    ),
)
VALID = b"\x05"


def bytes_of(of):
    """The buffers of a column, as bytes, and `None` for one that isn't there."""
    return [None if data is None else bytes(data) for data in of._chunks[0].node.buffers]


class Each(unittest.TestCase):
    """Three rows, of which the second is null, of each type."""

    def agrees(self, kind, rows, buffers, children=()):
        """The buffers are those of the rows, and what leads over them."""
        node = column(rows, kind)._chunks[0].node
        self.assertEqual((node.length, node.null_count, node.offset), (3, 1, 0), kind)
        source = from_buffers(kind, 3, [VALID, *buffers], children)
        self.assertEqual((source.to_pylist(), source.type), (rows, kind))
        self.assertEqual(source._chunks[0].node.null_count, -1)
        tail = from_buffers(kind, 2, [VALID, *buffers], children, offset=1)
        self.assertEqual(tail.to_pylist(), rows[1:], kind)
        for made, wanted in ((source, rows), (tail, rows[1:])):
            again = pickle.loads(pickle.dumps(made))
            self.assertEqual((again.to_pylist(), again.type), (wanted, kind))
            found = select(made, [Take([1, None, 0])])
            self.assertEqual(found.to_pylist(), [wanted[1], None, wanted[0]])

    def test_fixed(self):
        for kind, rows, text in FIXED:
            values = bytes.fromhex(text)
            self.assertEqual(bytes_of(column(rows, kind)), [VALID, values], kind)
            self.agrees(kind, rows, [values])
            if values:
                with self.assertRaises(ValueError, msg=kind):
                    from_buffers(kind, 3, [VALID, values[:-1]])

    def test_bytes(self):
        for kind, rows, texts in OF_BYTES:
            buffers = [bytes.fromhex(text) for text in texts]
            lengths = [
                struct.pack(f"<{len(buffers) - 1}q", *map(len, buffers[1:]))
            ] if "view" in kind else []
            self.assertEqual(bytes_of(column(rows, kind)), [VALID, *buffers, *lengths], kind)
            self.agrees(kind, rows, buffers)

    def test_lists(self):
        for kind, rows, texts, items in LISTS:
            buffers = [bytes.fromhex(text) for text in texts]
            made = column(rows, kind)
            self.assertEqual(bytes_of(made), [VALID, *buffers], kind)
            child = made._chunks[0].node.children[0]
            wanted = items._chunks[0].node
            self.assertEqual(child.length, wanted.length, kind)
            self.assertEqual(child.null_count, wanted.null_count, kind)
            self.agrees(kind, rows, buffers, [items])

    def test_structs(self):
        children = [column([1, None, None], "int8"), column(["x", None, None])]
        rows = [{"a": 1, "b": "x"}, None, {"a": None, "b": None}]
        self.assertEqual(bytes_of(column(rows, "struct<a: int8, b: utf8>")), [VALID])
        self.agrees("struct<a: int8, b: utf8>", rows, [], children)
        self.agrees("struct<>", [{}, None, {}], [])

    def test_bools(self):
        """Nine rows: the lowest bit of a byte is its first row."""
        rows = [True, None, False, True, True, False, False, False, True]
        made = column(rows, "bool")
        self.assertEqual(bytes_of(made), [b"\xfd\x01", b"\x19\x01"])
        self.assertEqual(made.to_pylist(), rows)
        for offset in range(9):
            source = from_buffers("bool", 9 - offset, [b"\xfd\xff", b"\x19\xff"], offset=offset)
            self.assertEqual(source.to_pylist(), rows[offset:])
            self.assertEqual(pickle.loads(pickle.dumps(source)).to_pylist(), rows[offset:])

    def test_nulls(self):
        made = from_buffers("null", 3, [])
        self.assertEqual((made.to_pylist(), made._chunks[0].node.null_count), ([None] * 3, 3))
        self.assertEqual(column([None, None])._chunks[0].node.null_count, 2)
        with self.assertRaisesRegex(ValueError, "^row 1: expected None for type null, got 1$"):
            column([None, 1], "null")

    def test_no_nulls(self):
        """A column without nulls has no validity, and says so."""
        for kind, rows in (
            ("int8", [1, 2]), ("bool", [True]), ("utf8", ["a"]), ("list<int8>", [[]])
        ):
            node = column(rows, kind)._chunks[0].node
            self.assertEqual((node.buffers[0], node.null_count), (None, 0), kind)
        self.assertEqual(from_buffers("int8", 1, [None, b"a"])._chunks[0].node.null_count, 0)

    def test_dictionaries(self):
        """Codes stand in the order in which the values come."""
        made = column(["b", "a", None, "b"], "dictionary<int16, utf8>")
        node = made._chunks[0].node
        self.assertEqual(bytes_of(made), [b"\x0b", bytes.fromhex("0000 0100 0000 0000")])
        self.assertEqual(bytes(node.dictionary.buffers[2]), b"ba")
        values = column(["b", None, "a"])
        source = from_buffers("dictionary<uint8, utf8>", 4, [b"\x0b", b"\2\0\xff\1"], (), values)
        self.assertEqual(source.to_pylist(), ["a", "b", None, None])
        self.assertEqual(select(source, [Take([3, 0])]).to_pylist(), [None, "a"])
        with self.assertRaisesRegex(ValueError, "expected type utf8, got int8"):
            from_buffers("dictionary<uint8, utf8>", 1, [None, b"\0"], (), column([1], "int8"))
        words = "dictionary: expected one for type dictionary<uint8, utf8>, got none"
        with self.assertRaisesRegex(ValueError, words):
            from_buffers("dictionary<uint8, utf8>", 1, [None, b"\0"])
        with self.assertRaisesRegex(ValueError, "expected none for type uint8, got one"):
            from_buffers("uint8", 1, [None, b"\0"], (), values)
        with self.assertRaisesRegex(TypeError, "dictionary: expected a Column, got list"):
            from_buffers("dictionary<uint8, utf8>", 1, [None, b"\0"], (), ["a"])


class Unions(unittest.TestCase):
    def test_sparse(self):
        made = column([1, "x", None], "sparse_union[7,5]<a: int8, b: utf8>")
        node = made._chunks[0].node
        self.assertEqual(bytes_of(made), [b"\7\5\7"])
        self.assertEqual([child.length for child in node.children], [3, 3])
        self.assertEqual([child.null_count for child in node.children], [2, 2])
        self.assertEqual(bytes(node.children[0].buffers[1]), b"\1\0\0")
        self.assertEqual((node.null_count, made.to_pylist()), (0, [1, "x", None]))

    def test_dense(self):
        """A child has the rows that are in it alone."""
        made = column([1, "x", None, "yz"], "dense_union<a: int8, b: utf8>")
        node = made._chunks[0].node
        self.assertEqual(bytes_of(made), [b"\0\1\0\1", struct.pack("<4i", 0, 0, 1, 1)])
        self.assertEqual([child.length for child in node.children], [2, 2])
        self.assertEqual(bytes(node.children[1].buffers[2]), b"xyz")

    def test_buffers(self):
        children = column([1, 2, 3], "int8"), column(["a", "b", None])
        source = from_buffers("sparse_union[7,5]<a: int8, b: utf8>", 3, [b"\5\7\5"], children)
        self.assertEqual(source.to_pylist(), ["a", 2, None])
        self.assertEqual(source._chunks[0].node.null_count, 0)
        places = struct.pack("<3i", 1, 0, 2)
        source = from_buffers(
            "dense_union[7,5]<a: int8, b: utf8>", 3, [b"\5\7\5", places], children
        )
        self.assertEqual(source.to_pylist(), ["b", 1, None])
        tail = from_buffers(
            "dense_union[7,5]<a: int8, b: utf8>", 2, [b"\5\7\5", places], children, offset=1
        )
        self.assertEqual(tail.to_pylist(), [1, None])

    def test_first_child(self):
        """A value goes to the first child whose type has it, bounds included."""
        bounds = [-128, 127, -129, 128, 2**15 - 1, -(2**15), 2**15, 2**64 - 1]
        made = column(bounds, "sparse_union<a: int8, b: int16, c: uint64>")
        self.assertEqual(bytes_of(made), [b"\0\0\1\1\1\1\2\2"])
        for wrong in (2**64, -(2**15) - 1, 1.0, True, "a", b"a", (1,), [1], {"a": 1}, Decimal(1)):
            with self.assertRaisesRegex(ValueError, "matches no child type of sparse_union"):
                column([wrong], "sparse_union<a: int8, b: int16, c: uint64>")

    def chosen(self, kinds, rows):
        """The children of these types in which rows are."""
        named = ", ".join(f"f{k}: {kind}" for k, kind in enumerate(kinds))
        return list(bytes_of(column(rows, f"dense_union<{named}>"))[0])

    def test_scalars(self):
        kinds = ["bool", "binary", "utf8", "float32", "int8"]
        self.assertEqual(self.chosen(kinds, [1, 1.5, "a", b"a", False]), [4, 3, 2, 1, 0])
        for kind, row in (
            ("large_utf8", "a"), ("utf8_view", "a"), ("large_binary", b"a"), ("binary_view", b"a")
        ):
            self.assertEqual(self.chosen(["bool", kind], [row]), [1])
            self.assertEqual(self.chosen(["float16", kind], [row]), [1])
        self.assertEqual(
            self.chosen(["fixed_size_binary(2)", "binary"], [b"ab", b"a", b"abc"]), [0, 1, 1]
        )
        self.assertEqual(self.chosen(["null", "int8"], [None, 1]), [0, 1])
        self.assertEqual(self.chosen(["null", "binary"], [b"a", None]), [1, 0])
        self.assertEqual(
            self.chosen(["float16", "float32", "float64"], [65504.0, 65536.0, 1e39]), [0, 1, 2]
        )
        days = "interval[days]", "interval[nanoseconds]"
        self.assertEqual(self.chosen(days, [(1, 2), (1, 2, 3)]), [0, 1])

    def test_decimals(self):
        """A decimal has no more places than the scale, and fits the bits."""
        kinds = "decimal32(9, 1)", "decimal64(18, 2)"
        rows = [Decimal("0.5"), Decimal("0.25"), Decimal("-214748364.8"), Decimal("214748364.8")]
        self.assertEqual(self.chosen(kinds, rows), [0, 1, 0, 1])
        self.assertEqual(
            self.chosen(kinds, [Decimal("214748364.7"), Decimal("-214748364.9")]), [0, 1]
        )
        for wrong in (Decimal("0.125"), 1, 0.5, Decimal(2**63).scaleb(-2)):
            with self.assertRaises(ValueError):
                self.chosen(kinds, [wrong])

    def test_nested(self):
        lists = "list<int8>", "list<utf8>", "fixed_size_list<float32, 2>"
        self.assertEqual(self.chosen(lists, [[1], ["a", None], [0.5, None], []]), [0, 1, 2, 0])
        maps = "map<utf8, int8>", "map<int8, utf8>", "list<null>"
        self.assertEqual(
            self.chosen(maps, [[("a", 1)], [(1, "a")], [None], [("a", None)]]), [0, 1, 2, 0]
        )
        structs = "struct<a: int8>", "struct<a: utf8>", "struct<a: int8, b: int8>"
        rows = [{"a": 1}, {"a": "x"}, {"a": 1, "b": 2}, {"a": None}]
        self.assertEqual(self.chosen(structs, rows), [0, 1, 2, 0])
        for kinds, wrong in (
            (lists, [1.5]), (lists, (1,)), (lists, [0.5, 0.5, 0.5]), (maps, [(1, 1)]),
            (maps, [["a", 1]]),
            (maps, [("a", 1, 1)]), (structs, {}), (structs, {"b": 1}), (structs, {"a": 1, "c": 1}),
            (structs, [1]),
        ):
            with self.assertRaises(ValueError, msg=wrong):
                self.chosen(kinds, [wrong])
        inner = "dictionary<int8, utf8>", "sparse_union<a: int8, b: bool>"
        self.assertEqual(self.chosen(inner, ["a", 1, True]), [0, 1, 1])


class Built(unittest.TestCase):
    """Rows that don't fit their type, and rows of other objects that do."""

    # The type, rows of which one doesn't fit, the exception, and its text.
    MISFITS = (
        ("fixed_size_binary(3)", [b"abc", None, b"ab"], ValueError,
         "row 2: expected 3 bytes, got 2"),
        (
            "fixed_size_list<int8, 2>", [[1, 2], None, [1]], ValueError,
            "row 2: expected 2 items, got 1",
        ),
        ("int8", [300], OverflowError, "row 0: expected int8 from -128 to 127, got 300"),
        ("int8", [1, 128], OverflowError, "row 1: expected int8 from -128 to 127, got 128"),
        ("int8", [1, -129], OverflowError, "row 1: expected int8 from -128 to 127, got -129"),
        ("uint16", [65536], OverflowError, "row 0: expected uint16 from 0 to 65535, got 65536"),
        (
            "uint64", [None, -1], OverflowError,
            "row 1: expected uint64 from 0 to 18446744073709551615, got -1",
        ),
        (
            "date32", [2**31], OverflowError,
            "row 0: expected date32 from -2147483648 to 2147483647, got 2147483648",
        ),
        ("int8", [1, 1.5], TypeError, "row 1: expected int8, got 1.5"),
        ("int8", [1, "1"], TypeError, "row 1: expected int8, got '1'"),
        ("int8", [1, (1,)], TypeError, "row 1: expected int8, got (1,)"),
        ("int8", [1, [1]], TypeError, "row 1: expected int8, got [1]"),
        ("float32", [1e39], OverflowError,
         "row 0: expected float32, got 1e+39, which is too large"),
        (
            "float16", [10**9], OverflowError,
            "row 0: expected float16, got 1000000000, which is too large",
        ),
        ("float64", ["a"], TypeError, "row 0: expected float64, got 'a'"),
        ("interval[days]", [1], TypeError, "row 0: expected interval[days], got 1"),
        ("interval[days]", [(1, 2), (1,)], TypeError, "row 1: expected interval[days], got (1,)"),
        (
            "dictionary<int8, int16>", list(range(129)), OverflowError,
            "row 128: expected at most 128 values in a dictionary of int8 codes, got more",
        ),
        (
            "dictionary<int8, int8>", [1, 1, None, 300], OverflowError,
            "row 3, value: expected int8 from -128 to 127, got 300",
        ),
        ("utf8", ["a", b"\xff"], ValueError, "row 1: expected UTF-8, got byte 0xff at 0"),
        ("utf8_view", [b"a\x80"], ValueError, "row 0: expected UTF-8, got byte 0x80 at 1"),
        ("bool", [True, "False"], TypeError, "row 1: expected a bool, got 'False'"),
        ("bool", [2], TypeError, "row 0: expected a bool, got 2"),
        (
            "list<int8>", [[1], None, [], [2, 300]], OverflowError,
            "row 3, item 1: expected int8 from -128 to 127, got 300",
        ),
        ("list_view<utf8>", [["a"], ["b", 5]], TypeError,
         "row 1, item 1: expected a string or bytes, got 5"),
        (
            "fixed_size_list<int8, 2>", [None, [1, 300]], OverflowError,
            "row 1, item 1: expected int8 from -128 to 127, got 300",
        ),
        (
            "struct<a: int8>", [{"a": 1}, {"a": "x"}], TypeError,
            "row 1, field 'a': expected int8, got 'x'",
        ),
        (
            "list<struct<a: list<int8>>>", [[], [{"a": [1]}, {"a": [2, None, 300]}]], OverflowError,
            "row 1, item 1, field 'a', item 2: expected int8 from -128 to 127, got 300",
        ),
        (
            "map<utf8, int8>", [[("a", 1), ("b", 300)]], OverflowError,
            "row 0, item 1, field 'value': expected int8 from -128 to 127, got 300",
        ),
        (
            "map<utf8, int8>", [None, [("a", 1), ("b",)]], ValueError,
            "row 1, item 1: expected a pair of a key and a value, got ('b',)",
        ),
        (
            "sparse_union<a: int8, b: bool>", [1, 300], ValueError,
            "row 1: value 300 matches no child type of sparse_union<a: int8, b: bool>",
        ),
        ("decimal32(9, 0)", [2**31], OverflowError,
         "row 0: expected decimal32(9, 0), got 2147483648"),
        ("decimal128(9, 1)", ["x"], TypeError, "row 0: expected decimal128(9, 1), got 'x'"),
        ("utf8", ["a", list(range(99))], TypeError, "row 1: expected a string or bytes, got [0, 1"),
    )

    def test_misfits(self):
        """A row that doesn't fit is named, with its place, the type and the value."""
        for kind, rows, error, text in self.MISFITS:
            with self.subTest(text), self.assertRaises((TypeError, ValueError, OverflowError)) as why:
                column(rows, kind)
            self.assertIs(type(why.exception), error, text)
            self.assertEqual(str(why.exception)[: len(text)], text)
            self.assertLess(len(str(why.exception)), 200)

    def test_kinds(self):
        """Numbers aren't strings, and strings aren't bools."""
        for kind in (
            "utf8", "large_utf8", "utf8_view", "binary", "binary_view", "fixed_size_binary(2)"
        ):
            for wrong in (2, 0, True, [1, 2], 1.5, {}):
                with self.assertRaisesRegex(TypeError, "^row 0: expected a string or bytes, got "):
                    column([wrong], kind)
        for kind in ("utf8", "large_utf8", "utf8_view"):
            self.assertEqual(column([b"\xc3\xa9", None], kind).to_pylist(), ["\u00e9", None])
        for wrong in ("False", 2, b"", [], 0.5):
            with self.assertRaisesRegex(TypeError, "^row 1: expected a bool, got "):
                column([True, wrong], "bool")
        self.assertEqual(column([0, 1, None], "bool").to_pylist(), [False, True, None])

    def test_nested_kinds(self):
        """Strings and dicts aren't lists, and lists aren't dicts; a pair is a key and a value."""
        for kind in (
            "list<utf8>", "list_view<utf8>", "fixed_size_list<utf8, 3>", "map<utf8, utf8>"
        ):
            for wrong in ("abc", {"a": "b"}, 5):
                with self.assertRaisesRegex(TypeError, "^row 1: expected a list, got "):
                    column([None, wrong], kind)
        for wrong in ([1], "a", 5):
            with self.assertRaisesRegex(TypeError, "^row 1: expected a dict, got "):
                column([None, wrong], "struct<a: int8>")
        for wrong in (("a", 1, 3), ("a",), (None, 1), None, "ab", 5):
            with self.assertRaises(ValueError) as why:
                column([[("a", 1), wrong]], "map<utf8, int8>")
            said = f"row 0, item 1: expected a pair of a key and a value, got {wrong!r}"
            self.assertEqual(str(why.exception), said)
        self.assertEqual(column([[["a", 1]]], "map<utf8, int8>").to_pylist(), [[("a", 1)]])

    def test_inexact_decimals(self):
        """No digit is dropped: a number with more places than the scale is rejected."""
        for kind, wrong, error in (
            ("decimal128(9, 1)", Decimal("1.25"), ValueError),
            ("decimal32(9, -2)", Decimal(150), ValueError),
            ("decimal32(9, 0)", 2**31, OverflowError),
            ("decimal64(18, 0)", -(2**63) - 1, OverflowError),
            ("decimal128(9, 1)", Decimal("NaN"), ValueError),
            ("decimal256(76, 0)", 0.1, ValueError),
            ("decimal128(9, 1)", Decimal("Infinity"), ValueError),
        ):
            with self.assertRaises(error) as why:
                column([wrong], kind)
            self.assertEqual(str(why.exception), f"row 0: expected {kind}, got {wrong!r}")
            with self.assertRaisesRegex(ValueError, "matches no child type"):
                column([wrong], f"sparse_union<a: {kind}>")
        self.assertEqual(
            column([-(2**31), 2**31 - 1], "decimal32(9, 0)").to_pylist(), [-(2**31), 2**31 - 1]
        )

    def test_other_objects(self):
        """Bytes are any buffer, and lists any iterable; structs leave out what is null."""
        self.assertEqual(
            column([bytearray(b"ab"), memoryview(b"c")], "binary").to_pylist(), [b"ab", b"c"]
        )
        self.assertEqual(column(["ab", b"c"], "binary_view").to_pylist(), [b"ab", b"c"])
        self.assertEqual(
            column([(1, 2), range(2), iter([5])], "list<int8>").to_pylist(), [[1, 2], [0, 1], [5]]
        )
        self.assertEqual(column([{}], "struct<a: int8>").to_pylist(), [{"a": None}])
        self.assertEqual(column(iter([1, None]), "int8").to_pylist(), [1, None])
        self.assertEqual(
            column([1, "2.5"], "decimal128(9, 1)").to_pylist(), [Decimal("1.0"), Decimal("2.5")]
        )

    def test_precision(self):
        """The precision of the caller's context cuts no digit, and stays as it was."""
        number = Decimal("1234567890123456789012345678901234567.8")
        with decimal.localcontext() as context:
            context.prec = 5
            made = column([number], "decimal128(38, 1)")
            self.assertEqual(made.to_pylist(), [number])
            self.assertEqual(
                column([number], "dense_union<a: decimal128(38, 1)>").to_pylist(), [number]
            )
            self.assertEqual(decimal.getcontext().prec, 5)

    def test_decimals(self):
        """A decimal is read with the places of its scale."""
        for bits in (32, 64, 128, 256):
            made = column([Decimal("-1.5"), Decimal(0)], f"decimal{bits}(9, 2)")
            self.assertEqual(list(map(str, made.to_pylist())), ["-1.50", "0.00"])

    def test_data_buffers_of_views(self):
        """Strings of views go to a new data buffer where one would be too long, of 26 bytes here."""
        words = ["thirteen byte", "a", "another 13 by", "one 13 bytes.", "twelve bytes"]
        with mock.patch.object(_building, "_MOST", 26):
            made = column(words, "utf8_view")
        self.assertEqual(made.to_pylist(), words)
        _, views, *data, lengths = bytes_of(made)
        self.assertEqual(data, [b"thirteen byteanother 13 by", b"one 13 bytes."])
        self.assertEqual(lengths, struct.pack("<2q", 26, 13))
        places = [struct.unpack_from("<2i", views, 16 * k + 8) for k in (0, 2, 3)]
        self.assertEqual(places, [(0, 0), (0, 13), (1, 0)])

    def test_lengths_of(self):
        self.assertEqual(lengths_of([b"abc", array("i", [1, 2])]).tolist(), [3, 8])


class Buffers(unittest.TestCase):
    """What `from_buffers` refuses, and what it says."""

    def test_children(self):
        one = column([1], "int8")
        for given in ([], [one, one]):
            found = f"type list<int8>: expected 1 children, got {len(given)}"
            with self.assertRaisesRegex(ValueError, found):
                from_buffers("list<int8>", 1, [None, bytes(8)], given)
        with self.assertRaisesRegex(ValueError, "child 'item': expected type int8, got int64"):
            from_buffers("list<int8>", 1, [None, bytes(8)], [column([1])])
        with self.assertRaisesRegex(TypeError, "child 'item': expected a Column, got list"):
            from_buffers("list<int8>", 1, [None, bytes(8)], [[1]])

    def test_names(self):
        """Children have the names and flags of the type, whatever they had."""
        keys = column([{"key": "a", "value": 1}], "struct<key: utf8, value: int8>")
        made = from_buffers("map<utf8, int8>", 1, [None, struct.pack("<2i", 0, 1)], [keys])
        pair = column([None, None, "a"]), column([None, None, 1], "int8")
        cut = from_buffers("struct<key: utf8, value: int8>", 1, [b"\4"], pair, offset=2)
        valid = from_buffers("map<utf8, int8>", 1, [None, struct.pack("<2i", 0, 1)], [cut])
        for of in (made, valid, column([[("a", 1)]], "map<utf8, int8>")):
            self.assertEqual(of.to_pylist(), [[("a", 1)]])
            pickled = pickle.loads(pickle.dumps(of))
            self.assertEqual((pickled.to_pylist(), pickled._field()), (of.to_pylist(), of._field()))
            nulls = of._chunks[0].node.children[0].null_count
            self.assertEqual(nulls, -1 if of is valid else 0)
            entries = of._field().children[0]
            self.assertEqual((entries.name, entries.flags), ("entries", 0))
            named = [(child.name, child.flags) for child in entries.children]
            self.assertEqual(named, [("key", 0), ("value", 2)])
            self.assertEqual(
                (of._field().name, of._field().flags, of._field().metadata), ("", 2, None)
            )

    def test_bounds(self):
        for length, offset in ((-1, 0), (2**60, 0), (0, -1), (0, 2**60)):
            with self.assertRaisesRegex(ValueError, f"from 0 on, got {length} and {offset}"):
                from_buffers("null", length, [], offset=offset)
        self.assertEqual(len(from_buffers("null", 2**60 - 1, [])), 2**60 - 1)
        self.assertEqual(len(from_buffers("null", 0, [], offset=2**60 - 1)), 0)
        for wrong in ("1", 1.0, None):
            with self.assertRaises(TypeError):
                from_buffers("null", wrong, [])

    def test_trusted(self):
        """`trusted` skips the test of the rows; selected rows are tested all the same."""
        given = "utf8", 1, [None, struct.pack("<2i", 5, 1), b"ab"]
        with self.assertRaisesRegex(ValueError, "offsets"):
            from_buffers(*given)
        made = from_buffers(*given, trusted=True)
        with self.assertRaisesRegex(ValueError, "offsets"):
            select(made, [])
        several = column_over([column(["a"])._chunks[0], made._chunks[0]])
        with self.assertRaisesRegex(ValueError, "offsets"):
            check(several)

    def test_fixed_places(self):
        """What leads into other buffers is copied if it can be written, and only that."""
        offsets, data = bytearray(struct.pack("<2i", 0, 2)), bytearray(b"ab")
        made = from_buffers("utf8", 1, [None, offsets, data])
        offsets[4], data[0] = 1, ord("x")
        self.assertEqual(made.to_pylist(), ["xb"])
        for kind, form in (("binary", "<2i"), ("large_utf8", "<2q"), ("large_binary", "<2q")):
            offsets = bytearray(struct.pack(form, 0, 2))
            made = from_buffers(kind, 1, [None, offsets, b"ab"])
            offsets[:] = bytes(len(offsets))
            wanted = ["ab"] if "utf8" in kind else [b"ab"]
            self.assertEqual(made.to_pylist(), wanted, kind)
        for kind, form in (("list<int8>", "<2i"), ("large_list<int8>", "<2q")):
            offsets = bytearray(struct.pack(form, 0, 2))
            made = from_buffers(kind, 1, [None, offsets], [NUMBERS])
            offsets[:] = bytes(len(offsets))
            self.assertEqual(made.to_pylist(), [[1, 2]], kind)
        offsets = bytearray(struct.pack("<2i", 0, 2))
        made = from_buffers("map<utf8, int8>", 1, [None, offsets], [ENTRIES])
        offsets[:] = bytes(8)
        self.assertEqual(made.to_pylist(), [[("a", 1), ("b", None)]])
        for kind in ("utf8_view", "binary_view"):
            views = bytearray(b"\1\0\0\0a" + bytes(11))
            made = from_buffers(kind, 1, [None, views])
            views[0] = 0
            self.assertEqual(made.to_pylist(), ["a"] if kind == "utf8_view" else [b"a"])
        ids = bytearray(b"\1")
        made = from_buffers("sparse_union<a: int8, b: int8>", 1, [ids], [NUMBERS, ONE_ITEM_NULL])
        ids[0] = 0
        self.assertEqual(made._chunks[0].node.buffers[0].tobytes(), b"\1")
        for kind, form, number in (("list_view", "<i", 4), ("large_list_view", "<q", 8)):
            starts, sizes = bytearray(struct.pack(form, 1)), bytearray(struct.pack(form, 2))
            made = from_buffers(f"{kind}<int8>", 1, [None, starts, sizes], [NUMBERS])
            starts[:], sizes[:] = bytes(number), bytes(number)
            self.assertEqual(made.to_pylist(), [[2, 3]])
        ids, places = bytearray(b"\1"), bytearray(struct.pack("<i", 1))
        children = NUMBERS, column(["a", "b"])
        made = from_buffers("dense_union<a: int8, b: utf8>", 1, [ids, places], children)
        ids[0], places[0] = 0, 0
        self.assertEqual(made.to_pylist(), ["b"])
        fixed = struct.pack("<2i", 0, 1)
        held = from_buffers("list<int8>", 1, [None, fixed], [NUMBERS])
        wanted = from_buffers("int32", 2, [None, fixed])
        places = [of._chunks[0].node.places[1] for of in (held, wanted)]
        self.assertEqual(places[0], places[1])


class Columns(unittest.TestCase):
    def test_no_constructor(self):
        with self.assertRaisesRegex(TypeError, "Column: use column, from_buffers"):
            type(NUMBERS)()

    def test_shown(self):
        self.assertEqual(repr(NUMBERS), f"Column(int8, 3 rows: {str(NUMBERS.to_pylist())[1:-1]})")

    def test_schema(self):
        """A schema capsule of the type, which is handed over without an array."""
        made = NUMBERS.__arrow_c_schema__(), NUMBERS.__arrow_c_array__()[1]
        taken = _native.array_from_capsules(*made)
        self.assertEqual((taken.node.format, len(taken)), ("c", 3))

    def test_not_arrow(self):
        with self.assertRaisesRegex(TypeError, "__arrow_c_array__ or __arrow_c_stream__, got list"):
            select([1], [])

    def test_several_arrays(self):
        """A column of several arrays is handed over as a stream alone."""

        class Streamed:
            def __arrow_c_stream__(self, requested_schema=None):
                made = [NUMBERS._chunks[0], column([4], "int8")._chunks[0]]
                return _native.stream_capsule(made[0], made)

        found = select(Streamed(), [])
        self.assertEqual((len(found), found.to_pylist()), (4, [1, 2, 3, 4]))
        with self.assertRaisesRegex(ValueError, "expected a column of one array, got 2"):
            found.__arrow_c_array__()
        with self.assertRaisesRegex(ValueError, "expected a column of one array, got 2"):
            from_buffers("list<int8>", 1, [None, bytes(8)], [found])
        self.assertEqual(select(found, [Take([3, 0, None])]).to_pylist(), [4, 1, None])
        check(found)
        self.assertEqual(pickle.loads(pickle.dumps(found)).to_pylist(), [1, 2, 3, 4])


if __name__ == "__main__":
    unittest.main()
