"""Reads rows of arrays that lead outside of themselves, and calls small helpers.

The arrays are stand-ins: what is read is what a stand-in says, so each bound is met alone.
"""

import struct
import unittest
from array import array
from decimal import Decimal
from types import SimpleNamespace
from unittest import mock

from vortex_select import program
from vortex_select import _cuts, _native
from vortex_select._arrays import NULLABLE, Field, Plain
from vortex_select._arrays import array_of, borrowed, field_of, field_of_type
from vortex_select._buffers import _plain_size, clamped, letter_of, number
from vortex_select._building import offsets_of, viewed
from vortex_select._reading import letters_of, rows, width_of
from vortex_select._types import Type, decimal_of, ids_of, type_of
from vortex_select.columns import column, from_buffers


def tree(form, length, buffers, children=(), dictionary=None, offset=0, name=""):
    """A stand-in of an array, over bytes."""
    views = tuple(None if data is None else memoryview(data).cast("B") for data in buffers)
    return SimpleNamespace(
        format=form, name=name, length=length, offset=offset, buffers=views, children=children,
        dictionary=dictionary,
    )


def ints(*numbers):
    return struct.pack(f"<{len(numbers)}i", *numbers)


def view(size, which, at, start=b"0123"):
    return struct.pack("<i4sii", size, start, which, at)


BYTES = tree("c", 3, [None, b"\1\2\3"])


class Outside(unittest.TestCase):
    def refused(self, text, *given):
        with self.assertRaises(ValueError) as why:
            list(rows(*given))
        self.assertEqual(str(why.exception), text)

    def test_rows(self):
        numbers = tree("i", 3, [None, ints(1, 2, 3, 4)], offset=1)
        self.assertEqual(rows(numbers, 0, 3), [2, 3, 4])
        self.assertEqual(rows(numbers, 1, 1), [3])
        self.assertEqual(rows(numbers, 3, 0), [])
        for at, count in ((2, 2), (4, 0), (-1, 1), (0, -1), (0, 4)):
            text = f"expected rows within 3, got rows {at} to {at + count}"
            self.refused(text, numbers, at, count)

    def test_buffers(self):
        short = tree("i", 3, [None, ints(1, 2, 3, 4)[:15]], offset=1)
        self.refused("buffer: expected 12 bytes at 4, got 15 in all", short, 0, 3)
        self.assertEqual(rows(short, 0, 2), [2, 3])
        self.refused(
            "buffer: expected 4 bytes at 0, got 0 in all", tree("i", 1, [None, None]), 0, 1
        )
        self.refused(
            "buffer: expected 4 bytes at 0, got 0 in all", tree("i", 1, [None]), 0, 1
        )
        self.refused(
            "buffer: expected 2 bytes at 1, got 2 in all",
            tree("b", 9, [None, b"ab"], offset=8), 0, 9
        )
        self.refused(
            "buffer: expected 1 bytes at 0, got 0 in all", tree("c", 1, [b"", b"a"]), 0, 1
        )
        self.refused(
            "buffer: expected 6 bytes at 3, got 8 in all",
            tree("w:3", 2, [None, b"12345678"], offset=1), 0, 2
        )
        self.refused(
            "buffer: expected 8 bytes at 0, got 7 in all",
            tree("d:5,2,32", 2, [None, bytes(7)]), 0, 2
        )

    def test_no_rows(self):
        """An array of no rows is read without its buffers."""
        for form in (
            "n", "b", "c", "d:9,2", "w:3", "u", "U", "vz", "+l", "+L", "+vl", "+w:2", "+s", "tin"
        ):
            self.assertEqual(
                rows(tree(form, 0, [None] * 3, [tree("c", 0, [None, None])]), 0, 0), [], form
            )

    def test_strings(self):
        def words(*offsets, valid=None):
            return tree("u", len(offsets) - 1, [valid, ints(*offsets), b"abcd"])

        self.assertEqual(rows(words(0, 1, 1, 4), 0, 3), ["a", "", "bcd"])
        self.assertEqual(rows(words(9, 9, 9), 0, 2), ["", ""])
        self.assertEqual(rows(words(0, 99, 99, valid=b"\2"), 0, 2), [None, ""])
        self.refused("buffer: expected 5 bytes at 0, got 4 in all", words(0, 5), 0, 1)
        self.refused("buffer: expected -1 bytes at 3, got 4 in all", words(3, 2), 0, 1)
        self.refused("buffer: expected 2 bytes at -1, got 4 in all", words(-1, 1), 0, 1)
        self.refused(
            "buffer: expected 8 bytes at 0, got 4 in all",
            tree("u", 1, [None, ints(0), b""]), 0, 1
        )

    def test_views(self):
        def views(*each, valid=None):
            return tree(
                "vz", len(each), [valid, b"".join(each), bytes(range(20)), struct.pack("<q", 20)]
            )

        made = views(
            viewed(b"abc", 7, 7), view(13, 0, 0), view(15, 0, 5), viewed(b"twelve bytes", 9, 9)
        )
        wanted = [b"abc", bytes(range(13)), bytes(range(5, 20)), b"twelve bytes"]
        self.assertEqual(rows(made, 0, 4), wanted)
        self.assertEqual(rows(made, 1, 2), wanted[1:3])
        self.refused("view: expected a buffer below 1, got 1", views(view(13, 1, 0)), 0, 1)
        self.refused("view: expected a buffer below 1, got -1", views(view(13, -1, 0)), 0, 1)
        self.refused(
            "buffer: expected 13 bytes at 8, got 20 in all", views(view(13, 0, 8)), 0, 1
        )
        self.refused(
            "buffer: expected -1 bytes at 0, got 20 in all", views(view(-1, 0, 0)), 0, 1
        )
        self.assertEqual(
            rows(views(view(13, 1, 0), viewed(b"a", 0, 0), valid=b"\2"), 0, 2), [None, b"a"]
        )

    def test_lists(self):
        made = tree("+l", 3, [b"\5", ints(0, 2, 99, 3)], [BYTES])
        self.refused("expected rows within 3, got rows 99 to 3", made, 2, 1)
        made = tree("+l", 3, [b"\5", ints(0, 2, 2, 3)], [BYTES])
        self.assertEqual(rows(made, 0, 3), [[1, 2], None, [3]])
        made = tree("+vl", 3, [b"\5", ints(2, 99, 0), ints(1, 99, 3)], [BYTES])
        self.assertEqual(rows(made, 0, 3), [[3], None, [1, 2, 3]])
        self.refused(
            "expected rows within 3, got rows 2 to 4",
            tree("+vl", 1, [None, ints(2), ints(2)], [BYTES]), 0, 1
        )
        wide = tree("+vL", 1, [None, struct.pack("<q", 1), struct.pack("<q", 2)], [BYTES])
        self.assertEqual(rows(wide, 0, 1), [[2, 3]])
        self.assertEqual(
            rows(tree("+L", 1, [None, struct.pack("<qq", 1, 3)], [BYTES]), 0, 1), [[2, 3]]
        )
        fixed = tree("+w:2", 2, [b"\2"], [tree("c", 4, [None, b"\1\2\3\4"])], offset=0)
        self.assertEqual(rows(fixed, 0, 2), [None, [3, 4]])
        self.refused(
            "expected rows within 3, got rows 2 to 4", tree("+w:2", 1, [None], [BYTES], offset=1), 0, 1
        )

    def test_structs(self):
        """A child that is too short matters where the struct is valid."""
        short = [tree("c", 2, [None, b"\1\2"], name="a"), BYTES]
        made = tree("+s", 3, [b"\3"], short)
        self.assertEqual(rows(made, 0, 3), [{"a": 1, "": 1}, {"a": 2, "": 2}, None])
        self.refused("expected rows within 2, got rows 1 to 3", tree("+s", 3, [b"\6"], short), 0, 3)
        made = tree("+s", 5, [b"\x36"], [tree("c", 6, [None, b"\1\2\3\4\5\6"], name="a")], offset=1)
        self.assertEqual(rows(made, 0, 5), [{"a": 2}, {"a": 3}, None, {"a": 5}, {"a": 6}])
        self.assertEqual(rows(tree("+s", 3, [b"\5"]), 0, 3), [{}, None, {}])

    def test_names(self):
        """Of two children of one name, a dict has the last, and a pair of a map has both."""
        data = b"\1\2\3", b"\4\5\6"
        both = [tree("c", 3, [None, each], name="a") for each in data]
        made = tree("+s", 3, [None], both)
        self.assertEqual(rows(made, 0, 3), [{"a": 4}, {"a": 5}, {"a": 6}])
        entries = tree("+s", 2, [b"\5"], both, offset=1)
        made = tree("+m", 2, [None, ints(0, 1, 2)], [entries])
        self.assertEqual(rows(made, 0, 2), [[None], [(3, 6)]])
        outside = tree("+m", 1, [None, ints(1, 3)], [entries])
        self.refused("expected rows within 2, got rows 1 to 3", outside, 0, 1)

    def test_unions(self):
        made = tree(
            "+us:5,9", 2, [b"\5\x09\7"], [BYTES, tree("u", 3, [None, ints(0, 1, 2, 3), b"xyz"])]
        )
        self.assertEqual(rows(made, 0, 2), [1, "y"])
        made.length = 3
        self.refused("type id: expected one of [5, 9], got 7", made, 2, 1)
        self.refused(
            "buffer: expected 1 bytes at 0, got 0 in all",
            tree("+us:5", 1, [b""], [BYTES]), 0, 1
        )
        dense = tree("+ud:5", 2, [b"\5\5", ints(2, 3)], [BYTES])
        self.assertEqual(rows(dense, 0, 1), [3])
        self.refused("expected rows within 3, got rows 3 to 4", dense, 1, 1)

    def test_codes(self):
        made = tree("c", 3, [b"\5", b"\2\x7f\0"], (), BYTES)
        self.assertEqual(rows(made, 0, 3), [3, None, 1])
        for code, text in ((b"\3", "rows 3 to 4"), (b"\xff", "rows -1 to 0")):
            made = tree("c", 1, [None, code], (), BYTES)
            self.refused(f"expected rows within 3, got {text}", made, 0, 1)

    def test_unknown(self):
        for form in ("x", "+r"):
            with self.assertRaises((NotImplementedError, ValueError, IndexError)):
                list(rows(tree(form, 1, [None, bytes(8)]), 0, 1))
        with self.assertRaisesRegex(NotImplementedError, "expected a format whose rows can be read, got 'x'"):
            rows(tree("x", 1, [None, b"a"]), 0, 1)


class Formats(unittest.TestCase):
    def test_widths(self):
        """The bytes of a value, from Arrow's specification."""
        widths = {
            1: "c C", 2: "s S e", 4: "i I f tdD tts ttm tiM d:9,2,32", 16: "tin d:9,2 d:9,2,128",
            8: "l L g tdm ttu ttn tss: tsn:UTC tDs tDn tiD d:9,2,64", 32: "d:9,2,256", 7: "w:7",
            0: "w:0",
        }
        for width, forms in widths.items():
            for form in forms.split():
                self.assertEqual(width_of(form), width, form)
        for form in ("u", "b", "n", "+s", "vu"):
            self.assertIsNone(letters_of(form))
            with self.assertRaisesRegex(ValueError, "expected a format of a fixed width, got"):
                width_of(form)

    def test_parts(self):
        self.assertEqual(decimal_of("d:9,-2"), (9, -2, 128))
        self.assertEqual(decimal_of("d:9,2,256"), (9, 2, 256))
        self.assertEqual(ids_of("+us:5,127"), b"\5\x7f")
        self.assertEqual(ids_of("+ud:"), b"")

    def test_decimals(self):
        """Numbers of both signs; zero has none."""
        made = tree("d:4,1,32", 3, [None, ints(-15, 0, 123)])
        self.assertEqual(list(map(str, rows(made, 0, 3))), ["-1.5", "0.0", "12.3"])
        self.assertEqual(
            rows(tree("d:4,-2", 1, [None, b"\5" + bytes(15)]), 0, 1), [Decimal("5E+2")]
        )

    def test_item_formats(self):
        """The bytes of an item by the buffer protocol's formats; None where it may hold objects."""
        for form, size in (
            ("i", 4), ("<i", 4), ("2i", 8), ("l", 8), ("<l", 4), ("=l", 4), (">q", 8), ("@l", 8),
            ("^l", 8), ("!h", 2),
            ("il", 12), ("<il", 8), ("i<l", 8), ("<i@l", 12), ("n", 8), ("<n", 8), ("e", 2),
            ("?", 1), ("3s", 3),
            ("x", 1), ("w", 4), ("Zf", 8), ("Zd", 16), ("g", 16), ("Zg", 32), ("(2,3)<i", 24),
            ("(2)2h", 8),
            ("T{<i:a:<d:b:}", 12), ("T{T{B:a:}:b:=H:c:}", 3), ("0i", 0), ("", 0), ("10x", 10),
        ):
            self.assertEqual(_plain_size(form), size, form)
        for form in ("O", "P", "&i", "T{O:a:}", "iO", "z", "X{}", "2", "u", "Z"):
            self.assertIsNone(_plain_size(form), form)

    def test_letters(self):
        for form in "?cbBhHiIlLqQnNfd":
            self.assertEqual(letter_of(memoryview(bytes(8)).cast(form)), form)

        def letter(form, size):
            return letter_of(SimpleNamespace(format=form, itemsize=size))

        for form, size in (("@i", 4), ("=i", 4), ("<i", 4), ("=l", 8)):
            self.assertEqual(letter(form, size), form[1:])
        for form, size in ((">i", 4), ("<l", 4), ("<i", 8), ("e", 2), ("ii", 8), ("", 1)):
            self.assertEqual(letter(form, size), "")

    def test_numbers(self):
        self.assertEqual(
            (clamped(-1), clamped(2**64), clamped(2**64 - 1), clamped(5)), (2**64 - 1,) * 3 + (5,)
        )
        self.assertEqual((number(0, "x"), number(2**64 - 2, "x")), (0, 2**64 - 2))
        self.assertEqual(offsets_of([2, 0, 3], False), array("i", [0, 2, 2, 5]))
        self.assertEqual(offsets_of([2], True), array("q", [0, 2]))

    def test_views(self):
        """Up to twelve bytes stand in the view; of more, the first four."""
        self.assertEqual(viewed(b"twelve bytes", 1, 2), b"\x0c\0\0\0twelve bytes")
        self.assertEqual(viewed(b"", 1, 2), bytes(16))
        self.assertEqual(viewed(b"thirteen byte", 1, 2), b"\x0d\0\0\0thir\1\0\0\0\2\0\0\0")


def text_codes(inner):
    """The field of codes of a byte, with a dictionary of this field."""
    return Field("c", "", NULLABLE, None, (), inner)


class Fields(unittest.TestCase):
    def test_of_types(self):
        made = field_of_type(type_of("map<utf8, dictionary<int8, utf8>>"), "x", 1)
        text = Field("u", "", NULLABLE, None, (), None)
        key, value = text._replace(name="key", flags=0), Field("c", "value", 2, None, (), text)
        entries = Field("+s", "entries", 0, None, (key, value), None)
        self.assertEqual(made, Field("+m", "x", 1, None, (entries,), None))
        self.assertEqual(made.type(), type_of("map<utf8, dictionary<int8, utf8>>"))
        self.assertEqual(field_of_type(Type("+m")).children, ())
        # But for keys and entries of maps, each child may be null.
        for name in ("list<int8>", "struct<a: struct<b: int8>>", "fixed_size_list<int8, 2>"):
            child = field_of_type(type_of(name)).children[0]
            for field in (child, *child.children):
                self.assertEqual(field.flags, NULLABLE, name)

    def test_of_nodes(self):
        of = type_of("struct<a: dictionary<int8, utf8>, b: list<int8>>")
        made = column([{"a": "x", "b": [1]}], str(of))
        self.assertEqual(field_of(made._chunks[0].node), field_of_type(of))

    def test_plain(self):
        inner = Plain(1, 0, (None, ints(0, 1), b"x"))
        below = Plain(2, 1, (b"\1", b"\0\0"), (), inner)
        field = field_of_type(type_of("struct<a: dictionary<int8, utf8>>"))
        made = array_of(field, Plain(2, 0, (None,), (below,)))
        self.assertEqual((made.node.length, made.node.offset), (2, 0))
        self.assertEqual((made.node.null_count, made.node.children[0].null_count), (0, 1))
        self.assertEqual(bytes(made.node.children[0].dictionary.buffers[2]), b"x")
        # A dictionary that the field doesn't have is left out.
        self.assertIsNone(array_of(text_codes(None), below).node.dictionary)

    def test_borrowed(self):
        class Given:
            def __init__(self, given):
                self.given = given

            def __arrow_c_array__(self, requested_schema=None):
                return self.given

        source = column([1, 2], "int8")
        self.assertIs(borrowed(source), source._chunks[0])
        self.assertEqual(len(borrowed(Given(source.__arrow_c_array__()))), 2)
        for wrong in (
            None, (), list(source.__arrow_c_array__()), source.__arrow_c_array__() + (1,)
        ):
            with self.assertRaisesRegex(TypeError, "expected a tuple of two capsules"):
                borrowed(Given(wrong))


def numbers(*each):
    return array("Q", each)


class Cuts(unittest.TestCase):
    """Steps over parts of 2, 0 and 3 rows."""

    lengths = numbers(2, 0, 3)

    def test_bounds(self):
        self.assertEqual(_cuts.bounds_of(self.lengths), numbers(0, 2, 2, 5))
        self.assertEqual(_cuts.bounds_of(numbers()), numbers(0))
        with self.assertRaises(OverflowError):
            _cuts.bounds_of(numbers(2**63, 2**63))

    def test_slices(self):
        starts, ends, left = _cuts.slice_cut(self.lengths, 1, 4)
        self.assertEqual(left, numbers(1, 0, 2))
        self.assertEqual((starts[0], ends[0], starts[2], ends[2]), (1, 2, 0, 2))
        for start, end in ((0, 6), (2, 1), (6, 6)):
            self.assertIsNone(_cuts.slice_cut(self.lengths, start, end))

    def test_masks(self):
        # From bit 3 on: 1 0 of part 0, and 1 1 0 of part 2; bits before and behind are set.
        self.assertEqual(
            _cuts.mask_cut(numbers(0b111_011_01_111), 3, self.lengths), numbers(1, 0, 2)
        )

    def test_picks(self):
        null = _cuts.NULL
        self.assertEqual(null, 2**64 - 1)
        own, ends, parts, rows_ = _cuts.picks_cut(numbers(4, null, 0, 2, 4), numbers(0, 2, 2, 5))
        self.assertEqual(own[:4], numbers(0, 2, 0, 2))
        self.assertEqual(ends, numbers(1, 1, 4))
        self.assertEqual(parts, numbers(2, null, 0, 2, 2))
        self.assertEqual(rows_, numbers(0, null, 0, 1, 2))


class Program(unittest.TestCase):
    """The program's calls over a stand-in of the program."""

    def called(self, call, *given):
        with mock.patch.object(program, "_native", SimpleNamespace(
            HAS_PROGRAM=True, program=lambda words, document: (7, repr((words, document)).encode())
        )):
            status, text = call(*given)
        return status, text.decode()

    def test_arguments(self):
        for call, given, words, document in (
            (program.run, (("rows",), memoryview(b"ab")), ["rows"], b"ab"),
            (program.run, (["made", "7"],), ["made", "7"], b""),
            (program.rows, (bytearray(b"ab"),), ["rows"], b"ab"),
            (program.page, (3, 10, b"ab"), ["page", "3", "10"], b"ab"),
            (program.file, (b"ab",), ["file"], b"ab"),
            (program.made, (7,), ["made", "7"], b""),
        ):
            self.assertEqual(self.called(call, *given), (7, repr((words, document))))

    def test_refused(self):
        for words in ("rows", ["rows", 1], [b"rows"]):
            with self.assertRaisesRegex(TypeError, "expected a list of strings"):
                self.called(program.run, words)
        with self.assertRaisesRegex(TypeError, "^document: expected a buffer, got str"):
            self.called(program.run, ["rows"], "ab")
        self.assertEqual(self.called(program.run, ["rows", "a\0"]), (3, ""))

    def test_no_program(self):
        with mock.patch.object(program, "_native", SimpleNamespace(HAS_PROGRAM=False)):
            with self.assertRaisesRegex(NotImplementedError, "expected a build with the program"):
                program.run(["rows"])
        self.assertEqual(program.Answer(1, b"x")._fields, ("status", "text"))


class Alive(unittest.TestCase):
    def test_dropped(self):
        """What `from_buffers` refuses is let go."""
        before, data = _native.alive(), bytearray(ints(5, 1))
        for _ in range(3):
            with self.assertRaises(ValueError):
                from_buffers("utf8", 1, [None, data, b"ab"])
        self.assertEqual(_native.alive(), before)
        data.append(1)


if __name__ == "__main__":
    unittest.main()
