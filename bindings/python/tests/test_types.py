"""Compares the names of types with format strings of Arrow that were worked out by hand."""

import unittest

from vortex_select import column
from vortex_select._types import _OTHER_NAMES, Type, alike, spelled, type_of

# Each name, and the format string that Arrow's specification gives for it.
FLAT = {
    "null": "n",
    "bool": "b",
    "int8": "c",
    "uint8": "C",
    "int16": "s",
    "uint16": "S",
    "int32": "i",
    "uint32": "I",
    "int64": "l",
    "uint64": "L",
    "float16": "e",
    "float32": "f",
    "float64": "g",
    "utf8": "u",
    "large_utf8": "U",
    "binary": "z",
    "large_binary": "Z",
    "utf8_view": "vu",
    "binary_view": "vz",
    "fixed_size_binary(16)": "w:16",
    "decimal32(9, 2)": "d:9,2,32",
    "decimal64(18, 0)": "d:18,0,64",
    "decimal128(38, -3)": "d:38,-3",
    "decimal256(76, 4)": "d:76,4,256",
    "date32": "tdD",
    "date64": "tdm",
    "time32[s]": "tts",
    "time32[ms]": "ttm",
    "time64[us]": "ttu",
    "time64[ns]": "ttn",
    "timestamp[s]": "tss:",
    "timestamp[ms, UTC]": "tsm:UTC",
    "timestamp[us]": "tsu:",
    "timestamp[ns, Europe/Rome]": "tsn:Europe/Rome",
    "duration[s]": "tDs",
    "duration[ms]": "tDm",
    "duration[us]": "tDu",
    "duration[ns]": "tDn",
    "interval[months]": "tiM",
    "interval[days]": "tiD",
    "interval[nanoseconds]": "tin",
}
BYTE, TEXT = Type("c"), Type("u")
ITEM = (("item", BYTE),)
PAIR = ("a", BYTE), ("b", TEXT)
NESTED = {
    "list<int8>": Type("+l", ITEM),
    "large_list<int8>": Type("+L", ITEM),
    "list_view<int8>": Type("+vl", ITEM),
    "large_list_view<int8>": Type("+vL", ITEM),
    "fixed_size_list<int8, 30>": Type("+w:30", ITEM),
    "map<utf8, int8>": Type("+m", (("entries", Type("+s", (("key", TEXT), ("value", BYTE)))),)),
    "struct<>": Type("+s"),
    "struct<: int8>": Type("+s", (("", BYTE),)),
    "struct<a: int8, b: utf8>": Type("+s", PAIR),
    "sparse_union<a: int8, b: utf8>": Type("+us:0,1", PAIR),
    "dense_union<a: int8, b: utf8>": Type("+ud:0,1", PAIR),
    "sparse_union[5,19]<a: int8, b: utf8>": Type("+us:5,19", PAIR),
    "dense_union[1,0]<a: int8, b: utf8>": Type("+ud:1,0", PAIR),
    "dictionary<uint16, utf8>": Type("S", (), TEXT),
    "dictionary<int8, list<int8>>": Type("c", (), Type("+l", ITEM)),
    "list<struct<a: int8, b: utf8>>": Type("+l", (("item", Type("+s", PAIR)),)),
}


class Names(unittest.TestCase):
    def test_flat(self):
        for name, form in FLAT.items():
            self.assertEqual(type_of(name), Type(form), name)
            self.assertEqual(spelled(Type(form)), name)
            self.assertEqual(str(Type(form)), name)
            self.assertEqual(column([None], name).type, name)

    def test_nested(self):
        for name, of in NESTED.items():
            self.assertEqual(type_of(name), of, name)
            self.assertEqual(spelled(of), name)

    def test_indices(self):
        """A dictionary has integers of each width as its codes."""
        for name in ("int8", "uint8", "int16", "uint16", "int32", "uint32", "int64", "uint64"):
            of = type_of(f"dictionary<{name}, utf8>")
            self.assertEqual(of, Type(FLAT[name], (), TEXT))

    def test_blanks(self):
        """Blanks stand around names, types and marks."""
        for text, name in (
            (" \t int8 ", "int8"),
            (" struct < a :  int8 ,  b:utf8 > ", "struct<a: int8, b: utf8>"),
            ("fixed_size_list<int8 ,  30 >", "fixed_size_list<int8, 30>"),
            ("map  <utf8  ,int8  >", "map<utf8, int8>"),
            ("decimal32(9,2)", "decimal32(9, 2)"),
            ("timestamp[ms,UTC]", "timestamp[ms, UTC]"),
        ):
            self.assertEqual(spelled(type_of(text)), name, text)

    def test_wrong(self):
        """An unknown type is named, with the most like type; else the position and what was got."""
        for text, said in (
            ("string", "unknown type 'string'; did you mean utf8?"),
            ("int65", "unknown type 'int65'; did you mean int64?"),
            ("Int8", "unknown type 'Int8'; did you mean int8?"),
            ("double", "unknown type 'double'; did you mean float64?"),
            ("decimal96(9, 2)", "unknown type 'decimal96(9, 2)'"),
            ("decimal128(9)", "unknown type 'decimal128(9)'; did you mean decimal128(38, 0)?"),
            ("timestamp[h]", "unknown type 'timestamp[h]'; did you mean timestamp[us]?"),
            ("list<string>", "{}, position 5: unknown type 'string'; did you mean utf8?"),
            ("struct<a: boolean>", "{}, position 9: unknown type 'boolean'; did you mean bool?"),
            ("bag<int8>", "{}, position 0: unknown type 'bag'"),
            ("array<int8>", "{}, position 0: unknown type 'array'; did you mean list?"),
            ("", "{}, position 0: expected a type, got the end"),
            ("  ", "{}, position 0: expected a type, got the end"),
            ("int8 x", "{}, position 5: expected the end, got 'x'"),
            ("int8>", "{}, position 4: expected the end, got '>'"),
            ("list", "{}, position 4: expected '<', got the end"),
            ("list<", "{}, position 5: expected a type, got the end"),
            ("list<int8", "{}, position 9: expected '>', got the end"),
            ("list<int8>>", "{}, position 10: expected the end, got '>'"),
            ("list<int8, int8>", "{}, position 9: expected '>', got ', int8>'"),
            ("struct<a>", "{}, position 7: expected a name and a colon, got 'a>'"),
            ("struct<a: int8", "{}, position 14: expected ',', got the end"),
            ("struct<a: int8 b: int8>", "{}, position 15: expected ',', got 'b: int8>'"),
            ("struct<a: int8,>", "{}, position 15: expected a name and a colon, got '>'"),
            ("fixed_size_list<int8>", "{}, position 20: expected ',', got '>'"),
            ("fixed_size_list<int8, x>", "{}, position 21: expected a number, got 'x>'"),
            ("map<utf8>", "{}, position 8: expected ',', got '>'"),
            (
                "dictionary<utf8, int8>",
                "{}, position 11: expected an integer type, got 'utf8, int8>'",
            ),
            (
                "dictionary<dictionary<int8, utf8>, utf8>",
                "{}, position 11: expected an integer type, got 'dictionary<int8, utf'",
            ),
            (
                "sparse_union[]<int8>",
                "{}, position 0: unknown type 'sparse_union[]'; did you mean sparse_union?",
            ),
        ):
            with self.assertRaises(ValueError, msg=text) as why:
                type_of(text)
            self.assertEqual(str(why.exception), said.format(f"type {text!r}"))

    def test_long_names(self):
        """The message of a long text is short."""
        for text in ("x" * 1_000_000, "list<" + "x" * 1_000_000, "int8" + " " * 1_000_000 + "x"):
            with self.assertRaises(ValueError) as why:
                type_of(text)
            self.assertLess(len(str(why.exception)), 200)

    def test_other_names(self):
        """Each hint is a type, or the word that a type begins with."""
        for word, name in _OTHER_NAMES.items():
            self.assertEqual(alike(word.upper()), name)
            try:
                type_of(name)
            except ValueError as why:
                self.assertIn("expected '<'", str(why))

    def test_levels(self):
        """64 levels are the most; children side by side count once."""
        def nested(levels, inside="int8"):
            return "list<" * levels + inside + ">" * levels

        self.assertEqual(spelled(type_of(nested(63))), nested(63))
        for text in (nested(64), nested(62, "dictionary<int8, list<int8>>")):
            with self.assertRaisesRegex(ValueError, "expected at most 64 levels, got more"):
                type_of(text)
        wide = ", ".join(f"c{k}: list<int8>" for k in range(100))
        self.assertEqual(len(type_of(f"struct<{wide}>").children), 100)

    def test_unknown_formats(self):
        """Formats of other producers are shown as they are."""
        for form in ("x", "+r", "+x", "ts", "abc:"):
            self.assertEqual(spelled(Type(form)), form)
        self.assertEqual(spelled(Type("x", (), TEXT)), "dictionary<x, utf8>")


class Guessed(unittest.TestCase):
    def test_first_values(self):
        """The first value that isn't `None` gives the type."""
        for rows, name in (
            ([None, True], "bool"),
            ([None, 1], "int64"),
            ([1.5, 2], "float64"),
            (["a"], "utf8"),
            ([b"a"], "binary"),
            ([], "null"),
            ([None, None], "null"),
            ([None, [], [1]], "list<int64>"),
            ([[], None], "list<null>"),
            ([(True,), None], "list<bool>"),
            ([None, {"a": 1}, {}, {"a": None, "b": "x"}], "struct<a: int64, b: utf8>"),
            ([{}], "struct<>"),
            ([[{"a": [1.5]}]], "list<struct<a: list<float64>>>"),
        ):
            self.assertEqual(column(rows).type, name, rows)

    def test_rows(self):
        rows = [None, {"a": 1}, {}, {"a": None, "b": "x"}]
        wanted = [None, {"a": 1, "b": None}, {"a": None, "b": None}, {"a": None, "b": "x"}]
        self.assertEqual(column(rows).to_pylist(), wanted)

    def test_no_type(self):
        for rows in ([object()], [{1}], [1j], [None, range(3)]):
            with self.assertRaisesRegex(TypeError, "expected a type for values of class"):
                column(rows)


if __name__ == "__main__":
    unittest.main()
