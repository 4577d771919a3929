"""Columns as sequences of rows, and as arrays of numpy and Series of pandas."""

import datetime
import unittest
from array import array as numbers_of

from vortex_select import BrokenStep, Column, Slice, column, from_buffers, select
from vortex_select.columns import column_over

try:
    import numpy
except ImportError:
    numpy = None
try:
    import pandas
except ImportError:
    pandas = None

PEOPLE = [{"id": 5, "name": "ann"}, None, {"id": 7, "name": None}, {"id": None, "name": "cy"}]


def in_two(values, type=None):
    """A column of two arrays."""
    cut = len(values) // 2
    parts = column(values[:cut], type), column(values[cut:], type)
    return column_over([chunk for part in parts for chunk in part._chunks])


class Sequences(unittest.TestCase):
    def test_rows(self):
        for of in (column(PEOPLE), in_two(PEOPLE)):
            self.assertEqual(list(of), PEOPLE)
            self.assertEqual([of[k] for k in range(-4, 4)], PEOPLE + PEOPLE)
            self.assertIn(None, of)

    def test_rows_past_the_end(self):
        for k in (4, -5, 2**70):
            with self.assertRaisesRegex(IndexError, f"row: expected -4 to 3, got {k}"):
                column(PEOPLE)[k]
        with self.assertRaisesRegex(IndexError, "row: expected 0 to -1, got 0"):
            column([], "utf8")[0]
        with self.assertRaises(TypeError):
            column(PEOPLE)[1.5]

    def test_slices_are_those_of_a_list(self):
        for of in (column(PEOPLE), in_two(PEOPLE)):
            for start in (None, -9, -3, 0, 2, 9):
                for end in (None, -9, -1, 0, 3, 9):
                    for step in (None, 1, 2, -1, -3):
                        cut = slice(start, end, step)
                        self.assertEqual(of[cut].to_pylist(), PEOPLE[cut], cut)
                        self.assertEqual(of[cut].type, of.type)

    def test_slices_share_the_memory(self):
        of = column(["a", None, "ccc", "dd"])
        cut = of[1:4]
        again = cut.slice(1, 3)
        for made in (cut, again):
            self.assertEqual(made._chunks[0].node.places[:2], of._chunks[0].node.places[:2])
        self.assertEqual([made._chunks[0].node.offset for made in (cut, again)], [1, 2])
        del of, cut, made
        self.assertEqual(again.to_pylist(), ["ccc", "dd"])

    def test_slices_are_those_of_select(self):
        codes = numbers_of("b", [0, 1, 1, 0])
        columns = [
            column(PEOPLE),
            in_two(PEOPLE),
            column([None] * 4, "null"),
            column([True, None, False, True]),
            column(["a", None, "a text of more bytes", ""], "utf8_view"),
            column([[1], None, [2, 3], []]),
            column([[1], None, [2, 3], []], "list_view<int8>"),
            column([5, "a", "b", 7], "dense_union<id: int64, name: utf8>"),
            from_buffers("dictionary<int8, utf8>", 4, [None, codes], dictionary=column(["x", "y"])),
        ]
        for of in columns:
            for start in range(len(of) + 1):
                for end in range(start, len(of) + 1):
                    wanted = select(of, [Slice(start, end)])
                    self.assertEqual(of.slice(start, end), wanted)
                    self.assertEqual(select(of.slice(start, end)), wanted)

    def test_slices_past_the_rows(self):
        rows = [
            (1, 5, "step 0: BadRange: slice 1..5, but 4 rows", 5, 4),
            (3, 2, "step 0: BadRange: slice 3..2 starts after its end", 3, 2),
            (-1, 2, "step 0: BadRange: slice -1..2 has a negative bound", -1, 0),
            (0, 2**70, f"step 0: BadRange: slice 0..{2**70}, but 4 rows", 2**70, 4),
        ]
        for of in (column([1, 2, 3, 4]), in_two([1, 2, 3, 4])):
            for start, end, text, found, bound in rows:
                for call in (of.slice, lambda *cut: select(of, [Slice(*cut)])):
                    with self.assertRaises(BrokenStep) as why:
                        call(start, end)
                    told = why.exception
                    self.assertEqual((str(told), told.found, told.bound), (text, found, bound))
        for cut in ((1.5, 2), ("1", 2), (None, 2)):
            with self.assertRaises(TypeError):
                column([1, 2]).slice(*cut)

    def test_a_slice_of_strings_ends_within_their_bytes(self):
        offsets = b"\0\0\0\0\t\0\0\0\3\0\0\0"
        of = from_buffers("utf8", 2, [None, offsets, bytes(3)], trusted=True)
        with self.assertRaisesRegex(ValueError, "offsets: expected a last one within the data"):
            of.slice(0, 1)
        self.assertEqual(len(of[1:]), 1)

    def test_equal(self):
        rows = [1, None, 3]
        self.assertEqual(column(rows), in_two(rows))
        self.assertEqual(column(rows), column(rows))
        for other in ([1, None], [1, None, 4], [1, 2, 3]):
            self.assertNotEqual(column(rows), column(other))
        self.assertNotEqual(column(rows), column(rows, "int32"))
        self.assertNotEqual(column(rows), rows)
        with self.assertRaises(TypeError):
            hash(column(rows))

    def test_shown(self):
        rows = [
            (column([1, None]), "Column(int64, 2 rows: 1, None)"),
            (column([], "utf8"), "Column(utf8, 0 rows)"),
            (column(range(12)), "Column(int64, 12 rows: 0, 1, 2, 3, 4, 5, 6, 7, 8, 9, ...)"),
            (in_two(["a", "b"]), "Column(utf8, 2 rows: 'a', 'b')"),
            (bad(), "Column(utf8, 1 rows)"),
        ]
        for of, text in rows:
            self.assertEqual(repr(of), text)
        table = column(["<a>"])._repr_html_()
        self.assertEqual(
            table,
            "<table><tr><th></th><th>utf8</th></tr>"
            "<tr><td>0</td><td>&#x27;&lt;a&gt;&#x27;</td></tr></table><p>1 rows</p>",
        )

    def test_methods(self):
        of = column([1, 2, 3, 4])
        self.assertEqual(of.filter([True, False, False, True]).to_pylist(), [1, 4])
        self.assertEqual(of.filter(column([True, None, False, True])).to_pylist(), [1, 4])
        self.assertEqual(of.take([3, None, 0]).to_pylist(), [4, None, 1])
        self.assertEqual(of.slice(1, 3).to_pylist(), [2, 3])
        self.assertEqual(of.select([Slice(1, 4), Slice(0, 1)]).to_pylist(), [2])


def bad():
    """A column whose string leads outside of its bytes."""
    offsets = b"\t\0\0\0\3\0\0\0"
    return from_buffers("utf8", 1, [None, offsets, bytes(3)], trusted=True)


class Children(unittest.TestCase):
    def test_fields(self):
        for of in (column(PEOPLE), in_two(PEOPLE)):
            self.assertEqual(of.names, ["id", "name"])
            self.assertEqual(of["id"].to_pylist()[0::2], [5, 7])
            self.assertEqual(of["name"].to_pylist()[0], "ann")
            self.assertEqual(of.field(0), of["id"])
            self.assertEqual(of.field(-1), of["name"])
            self.assertEqual([child.type for child in of.children], ["int64", "utf8"])

    def test_fields_of_a_part(self):
        part = select(column(PEOPLE), [Slice(2, 4)])
        self.assertEqual(part["id"].to_pylist(), [7, None])

    def test_fields_that_arent_there(self):
        with self.assertRaisesRegex(KeyError, "expected one of .'id', 'name'., got 'age'"):
            column(PEOPLE)["age"]
        with self.assertRaisesRegex(IndexError, "child: expected -2 to 1, got 2"):
            column(PEOPLE).field(2)
        with self.assertRaisesRegex(KeyError, "expected one of .., got 'id'"):
            column([1])["id"]

    def test_items(self):
        self.assertEqual(column([[1, 2], None, [3]]).children[0].to_pylist(), [1, 2, 3])

    def test_counts(self):
        rows = [
            (column([1, None, 3]), 1),
            (in_two([None, 1, None, None]), 3),
            (column([None, None], "null"), 2),
            (column(PEOPLE), 1),
            (select(column([None] * 9 + [1]), [Slice(3, 10)]), 6),
            (column([], "int8"), 0),
        ]
        for of, count in rows:
            self.assertEqual(of.null_count, count)
        self.assertEqual(column([1, 2, 3], "int32").nbytes, 12)
        self.assertEqual(column(["ab", "c"]).nbytes, 12 + 3)


@unittest.skipIf(numpy is None, "numpy isn't installed")
class Numpy(unittest.TestCase):
    def test_numbers(self):
        for name in ("i1", "u1", "i2", "u2", "i4", "u4", "i8", "u8", "f2", "f4", "f8", "?"):
            array = numpy.array([0, 1, 1, 0, 1], name)
            of = column(array)
            self.assertEqual(of.to_pylist(), array.tolist())
            back = of.to_numpy()
            self.assertEqual((back.dtype, back.tolist()), (array.dtype, array.tolist()))
            self.assertEqual(of[1:4].to_numpy().tolist(), array[1:4].tolist())
            self.assertEqual(column(array[::2]).to_pylist(), array[::2].tolist())
            self.assertEqual(column(array.astype(array.dtype.newbyteorder(">"))), of)

    def test_numbers_are_shared(self):
        of = column([1, 2, 3])
        one, two = of.to_numpy(), of.to_numpy()
        self.assertTrue(numpy.shares_memory(one, two))
        self.assertFalse(one.flags.writeable)

    def test_an_array_is_copied(self):
        array = numpy.array([1, 2])
        of = column(array)
        array[0] = 9
        self.assertEqual(of.to_pylist(), [1, 2])

    def test_nulls_are_masked(self):
        for of in (column([1, None, 3]), in_two([1, None, 3])):
            found = of.to_numpy()
            self.assertEqual(found.tolist(), [1, None, 3])
            self.assertEqual(column(found), of)
            with self.assertRaisesRegex(ValueError, "expected no nulls, got 1: use to_numpy"):
                numpy.asarray(of)

    def test_times(self):
        days = numpy.array(["2026-12-01T05:06:07", "NaT"], "M8[s]")
        of = column(days)
        self.assertEqual((len(of), of.null_count), (2, 1))
        self.assertEqual(of.to_numpy().tolist(), [datetime.datetime(2026, 12, 1, 5, 6, 7), None])
        spans = numpy.array([5, 7], "m8[ms]")
        self.assertEqual(column(spans).to_numpy().tolist(), spans.tolist())

    def test_objects(self):
        for values in (["a", None], [[1], []], [{"a": 1}]):
            found = column(values).to_numpy()
            self.assertEqual((found.dtype, found.tolist()), (object, values))
        self.assertEqual(column(numpy.array(["a", "b"])).to_pylist(), ["a", "b"])

    def test_asarray(self):
        self.assertEqual(numpy.asarray(column([1, 2])).tolist(), [1, 2])
        self.assertEqual(numpy.asarray(column([1, 2]), "f4").dtype, numpy.float32)
        self.assertEqual(numpy.asarray(column(["a"])).tolist(), ["a"])

    def test_two_dimensions(self):
        with self.assertRaisesRegex(TypeError, "values: expected an array of 1 dimension, got 2"):
            column(numpy.zeros((2, 2)))

    def test_no_rows(self):
        for name in ("i4", "?", "M8[s]"):
            of = column(numpy.zeros(0, name))
            self.assertEqual((len(of), len(of.to_numpy())), (0, 0))


@unittest.skipIf(pandas is None, "pandas isn't installed")
class Pandas(unittest.TestCase):
    def test_series(self):
        rows = [
            [1, 2], [1.5, None], ["a", None], [True, False], [{"a": 1}, {"a": 2}],
        ]
        for values in rows:
            of = column(values)
            series = of.to_pandas()
            self.assertEqual(len(series), 2)
            self.assertEqual(Column.from_pandas(series), of)

    def test_missing_values(self):
        series = pandas.Series([1, None], dtype="Int64")
        self.assertEqual(Column.from_pandas(series).to_pylist(), [1, None])


if __name__ == "__main__":
    unittest.main()
