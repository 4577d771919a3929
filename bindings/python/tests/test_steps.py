"""Steps and masks in each form, and windows of them, with rows worked out by hand."""

import ctypes
import pickle
import sys
import types
import unittest
from array import array

from vortex_select import Bits, BrokenStep, Filter, Slice, Take, column, from_buffers, kernels
from vortex_select import plan, select
from vortex_select._buffers import bools_of, view_of, whole_words, words_of
from vortex_select.columns import column_over

# 300 rows, more than bytes with a sign have.
ROWS = column(list(range(1000, 1300)), "int16")
# Number types, and how many bytes each has.
KINDS = {"b": 1, "B": 1, "h": 2, "H": 2, "i": 4, "I": 4, "l": 8, "L": 8, "q": 8, "Q": 8}
TYPES = {
    "int8": "b", "uint8": "B", "int16": "h", "uint16": "H", "int32": "i", "uint32": "I",
    "int64": "q", "uint64": "Q",
}


def left(*steps):
    return select(ROWS, steps).to_pylist()


class Takes(unittest.TestCase):
    def test_lists(self):
        indices = [299, 126, None, 0, 255, 256]
        self.assertEqual(left(Take(indices)), [1299, 1126, None, 1000, 1255, 1256])
        self.assertEqual(left(Take(iter(indices))), [1299, 1126, None, 1000, 1255, 1256])
        self.assertEqual((len(Take(indices)), repr(Take(indices))), (6, "Take of 6"))
        self.assertEqual(left(Take([])), [])
        # A null is the row of no index: not row 0, also where later steps drop it.
        self.assertEqual(select(column([], "int8"), [Take([None])]).to_pylist(), [None])

    def test_out_of_bounds(self):
        for index in (-1, 300, 2**31, 2**32, 2**63 - 1, 2**63, 2**64, 2**64 + 1, -(2**64)):
            with self.assertRaises(BrokenStep) as why:
                left(Slice(0, 300), Take([0, index]))
            self.assertEqual((why.exception.step, why.exception.cause), (1, "OutOfBounds"), index)

    def test_numbers(self):
        for kind, size in KINDS.items():
            self.assertEqual(array(kind).itemsize, size)
            last = 127 if kind == "b" else 255 if kind == "B" else 299
            self.assertEqual(left(Take(array(kind, [last, 1, 0]))), [1000 + last, 1001, 1000], kind)
            if kind.islower():
                with self.assertRaises(BrokenStep):
                    left(Take(array(kind, [-1])))
        self.assertEqual(left(Take(memoryview(array("I", [5, 6, 7, 8]))[::-2])), [1008, 1006])
        self.assertEqual(left(Take(b"\x03\xff")), [1003, 1255])

    def test_columns(self):
        """Columns of each integer type, with an offset, whole and pickled."""
        for name, letter in TYPES.items():
            last = {"int8": 127, "uint8": 255}.get(name, 299)
            numbers = array(letter, [9, 8, 7, 6, 5, 4, 3, 2, last, 0, 1])
            for offset in range(10):
                for valid in (None, b"\xff\xfd"):
                    made = from_buffers(name, 10 - offset, [valid, numbers], offset=offset)
                    wanted = [1000 + number for number in numbers[offset:10]]
                    if valid is not None:
                        wanted[-1] = None
                    step = Take(made)
                    self.assertEqual(left(step), wanted, (name, offset))
                    self.assertEqual(left(pickle.loads(pickle.dumps(step))), wanted, (name, offset))
                    self.assertEqual(len(pickle.loads(pickle.dumps(step))), 10 - offset)

    def test_windows(self):
        """A window of a step is held in bytes of its own, from a whole byte of the validity on."""
        for name, letter in TYPES.items():
            numbers = array(letter, range(40))
            size = numbers.itemsize
            step = Take(from_buffers(name, 37, [b"\xff\x7f\xff\xff\xff", numbers], offset=3))
            values, valid, length, ptype, at = step._window(9, 15)
            # Places 12 to 26 of the numbers, and the bytes of the bits 8 to 26.
            self.assertEqual((values, valid), (numbers[8:27].tobytes(), b"\x7f\xff\xff"))
            self.assertEqual((length, at, len(values)), (15, 4, 19 * size))
            part = Take([])
            part._fill(values, valid, length, ptype, at)
            wanted = [1000 + k for k in range(12, 27)]
            wanted[15 - 12] = None
            self.assertEqual(left(part), wanted)
        step = Take(column(list(range(40)), "int16"))
        self.assertEqual(step._window(8, 4)[:2], (array("h", [8, 9, 10, 11]).tobytes(), b""))
        self.assertEqual(step._window(0, 0), (b"", b"", 0, 5, 0))

    def test_refused(self):
        class Floats:
            def __arrow_c_array__(self, requested_schema=None):
                return column([1.5]).__arrow_c_array__()

        for kind in ("float16", "float32", "float64"):
            with self.assertRaises(BrokenStep) as why:
                left(Take(column([1.0], kind)))
            self.assertEqual(why.exception.cause, "InvalidIndices", kind)
            size = {"float16": 2, "float32": 4, "float64": 8}[kind]
            self.assertEqual(len(Take(column([1.0] * 99, kind))._window(16, 9)[0]), 9 * size)
        with self.assertRaises(BrokenStep):
            left(Take(Floats()))
        for kind, rows in (
            ("utf8", ["a"]), ("bool", [True]), ("date32", [1]), ("dictionary<int8, int8>", [1])
        ):
            with self.assertRaisesRegex(TypeError, "expected a column of integers, got format"):
                Take(column(rows, kind))
        for wrong in ("1", "", [True], [1, False], [1.0], [None, "1"]):
            with self.assertRaises(TypeError, msg=wrong):
                Take(wrong)
        grid = memoryview(bytes(16)).cast("B", (2, 8))
        for wrong in (
            grid, array("d", [1.0]), array("f", [1.0]), memoryview(b"\1").cast("?"),
            memoryview(b"a").cast("c")
        ):
            with self.assertRaisesRegex(TypeError, "expected native integers, got format"):
                Take(wrong)


class Filters(unittest.TestCase):
    # The set rows of 19, which are neither the same from both ends nor in each byte.
    kept = [0, 3, 4, 8, 15, 17, 18]
    data = b"\x19\x81\x06"

    def setUp(self):
        self.mask = [k in self.kept for k in range(19)]

    def test_forms(self):
        source = column(list(range(19)), "int8")
        nulls = [value or None for value in self.mask]
        for given in (
            self.mask, tuple(nulls), memoryview(bytes(self.mask)).cast("?"), Bits(self.data, 19),
            column(nulls, "bool"), column(self.mask, "bool"), (ctypes.c_bool * 19)(*self.mask),
        ):
            step = Filter(given)
            self.assertEqual((len(step), repr(step)), (19, "Filter of 19"))
            for each in (step, pickle.loads(pickle.dumps(step))):
                self.assertEqual(select(source, [each]).to_pylist(), self.kept)

    def test_nulls_under_true(self):
        """A null counts as false, whatever its value is."""
        made = from_buffers("bool", 9, [b"\xfe\x01", b"\xff\x01"])
        self.assertEqual(
            select(column(list(range(9))), [Filter(made)]).to_pylist(), list(range(1, 9))
        )

    def test_offsets(self):
        source = list(range(19))
        for at in range(19):
            wanted = [k for k in self.kept if k >= at]
            steps = Filter(Bits(self.data, 19 - at, at)), Filter(
                from_buffers("bool", 19 - at, [None, self.data], offset=at)
            )
            for step in steps:
                for each in (step, pickle.loads(pickle.dumps(step))):
                    self.assertEqual(select(column(source[at:]), [each]).to_pylist(), wanted, at)

    def test_windows(self):
        valid = b"\xf7\xff\xff"
        step = Filter(from_buffers("bool", 18, [valid, self.data], offset=1))
        self.assertEqual(step._window(9, 8), (b"\x81\x06", b"\xff\xff", 8, 0, 2))
        self.assertEqual(step._window(0, 7), (b"\x19", b"\xf7", 7, 0, 1))
        self.assertEqual(step._window(0, 8), (b"\x19\x81", b"\xf7\xff", 8, 0, 1))

    def test_lengths(self):
        for mask in ([True] * 299, [True] * 301, []):
            with self.assertRaises(BrokenStep) as why:
                left(Filter(mask))
            self.assertEqual(why.exception.cause, "BadMask")

    def test_refused(self):
        for wrong in ([1], [True, 0], ["a"], [2], (True, 1.0)):
            with self.assertRaisesRegex(TypeError, "^mask: expected bools and None, got "):
                Filter(wrong)
        for wrong in (b"ab", array("B", [1]), array("I", [1]), memoryview(b"a")):
            with self.assertRaisesRegex(TypeError, "^mask: expected bools, Bits, or a column of bools, got"):
                Filter(wrong)
        for kind in ("int8", "uint8", "dictionary<int8, bool>"):
            rows = [True] if kind[-5:] == "bool>" else [1]
            with self.assertRaisesRegex(TypeError, "expected a column of bools, got format"):
                Filter(column(rows, kind))


class Slices(unittest.TestCase):
    def test_bounds(self):
        self.assertEqual(left(Slice(298, 300)), [1298, 1299])
        self.assertEqual(left(Slice(0, 0)), [])
        self.assertEqual(repr(Slice(1, 2)), "Slice(1, 2)")
        self.assertEqual((Slice(1, 2).start, Slice(1, 2).end), (1, 2))
        self.assertEqual(Slice(1, 2)._image(), (0, 1, 2, 0, 0, 0, None, None))
        for start, end in (
            (2, 1), (0, 301), (-1, 1), (0, -1), (-2, -1), (0, 2**64), (2**64, 2**64 + 1),
            (-(2**64), 1)
        ):
            with self.assertRaises(BrokenStep) as why:
                left(Slice(start, end))
            self.assertEqual((why.exception.step, why.exception.cause), (0, "BadRange"))
        for wrong in (1.0, "1", None):
            with self.assertRaises(TypeError):
                left(Slice(0, wrong))

    def test_no_steps(self):
        self.assertEqual(len(left()), 300)
        for wrong in ([1], [None], [(0, 1)], [Slice], [Slice(0, 1), "a"]):
            with self.assertRaisesRegex(TypeError, "expected Slice, Filter or Take, got"):
                left(*wrong)

    # Steps over 300 rows, of which the last is invalid, and what its exception has.
    INVALID = (
        ([Slice(2, 301)], "BadRange", 301, 300, "slice 2..301, but 300 rows"),
        ([Slice(3, 2)], "BadRange", 3, 2, "slice 3..2 starts after its end"),
        ([Slice(-1, 2)], "BadRange", -1, 0, "slice -1..2 has a negative bound"),
        ([Slice(0, -5)], "BadRange", -5, 0, "slice 0..-5 has a negative bound"),
        ([Slice(0, 2**70)], "BadRange", 2**70, 300, f"slice 0..{2**70}, but 300 rows"),
        ([Slice(5, 6), Slice(0, 2)], "BadRange", 2, 1, "slice 0..2, but 1 row"),
        ([Filter([True] * 3)], "BadMask", 3, 300, "mask of length 3, but 300 rows"),
        (
            [Slice(0, 8), Filter([True] * 9)], "BadMask", 9, 8,
            "mask of length 9, but 8 rows",
        ),
        ([Take([0, 300])], "OutOfBounds", 300, 300, "index 300, but 300 rows"),
        ([Take([None, -1])], "OutOfBounds", -1, 300, "index -1, but 300 rows"),
        ([Take([0, -(2**40)])], "OutOfBounds", -(2**40), 300, f"index {-(2**40)}, but 300 rows"),
        ([Take([0, 2**63])], "OutOfBounds", 2**63, 300, f"index {2**63}, but 300 rows"),
        ([Take(array("b", [5, -2]))], "OutOfBounds", -2, 300, "index -2, but 300 rows"),
        (
            [Take(column([None, 7, 301], "int16"))], "OutOfBounds", 301, 300,
            "index 301, but 300 rows",
        ),
        (
            [Take([1, 2]), Take([0, 2])], "OutOfBounds", 2, 2,
            "index 2, but 2 rows",
        ),
        (
            [Take(column([1.0]))], "InvalidIndices", None, None,
            "expected integers as indices, got f64",
        ),
    )

    def expect_invalid(self, why, number, cause, found, bound, words):
        self.assertEqual(str(why), f"step {number}: {cause}: {words}")
        self.assertEqual((why.step, why.cause, why.words), (number, cause, words))
        self.assertEqual((why.found, why.bound), (found, bound))

    def test_invalid(self):
        """An invalid step is named with its numbers, by `select` and by `plan`."""
        for steps, *said in self.INVALID:
            for call in (lambda: left(*steps), lambda: plan([100, 0, 200], steps)):
                with self.assertRaises(BrokenStep) as why:
                    call()
                self.expect_invalid(why.exception, len(steps) - 1, *said)

    def test_broken_steps(self):
        """A broken step pickles, and has its number, its cause and its words."""
        made = BrokenStep(3, "BadMask", "words", 5, 8)
        for why in (made, pickle.loads(pickle.dumps(made))):
            self.expect_invalid(why, 3, "BadMask", 5, 8, "words")
        self.expect_invalid(made.moved(4), 7, "BadMask", 5, 8, "words")
        plain = BrokenStep(3, "BadMask")
        self.assertEqual((str(plain), plain.found), ("step 3: BadMask", None))


class Fields(unittest.TestCase):
    """Filters by a field of bools."""

    rows = [
        {"id": 0, "is_in": True}, None, {"id": 2, "is_in": False}, {"id": 3, "is_in": None},
        {"id": 4, "is_in": True}, {"id": 5, "is_in": True},
    ]

    def ids(self, source, *steps):
        return [row and row["id"] for row in select(source, steps).to_pylist()]

    def test_nulls(self):
        """Null structs and null bools count as false, whatever is under the null."""
        people = column(self.rows)
        self.assertEqual(self.ids(people, Filter("is_in")), [0, 4, 5])
        bools = from_buffers("bool", 3, [b"\6", b"\7"])
        made = from_buffers("struct<id: int64, is_in: bool>", 3, [b"\3"], [column([7, 8, 9]), bools])
        self.assertEqual(self.ids(made, Filter("is_in")), [8])
        self.assertEqual(self.ids(column([], "struct<is_in: bool>"), Filter("is_in")), [])

    def test_steps(self):
        """The field is that of the rows that earlier steps select."""
        people = column(self.rows)
        for steps, wanted in (
            ([Slice(1, 5), Filter("is_in")], [4]),
            ([Filter("is_in"), Take([2, 0])], [5, 0]),
            ([Take([4, 4, None, 0]), Filter("is_in")], [4, 4, 0]),
            ([Filter("is_in"), Filter("is_in"), Slice(0, 1)], [0]),
        ):
            self.assertEqual(self.ids(people, *steps), wanted)
        with self.assertRaises(BrokenStep) as why:
            select(people, [Slice(0, 9), Filter("is_in")])
        self.assertEqual((why.exception.step, why.exception.bound), (0, 6))
        with self.assertRaises(BrokenStep) as why:
            select(people, [Filter("is_in"), Take([3])])
        self.assertEqual((why.exception.step, why.exception.bound), (1, 3))

    def test_offsets(self):
        """Structs and bools that begin at any bit."""
        kept = [0, 3, 4, 8, 15, 17, 18]
        bools = from_buffers("bool", 19, [None, b"\x19\x81\x06"])
        ids = column(list(range(19)))
        of = "struct<id: int64, is_in: bool>"
        for at in range(19):
            for valid in (None, b"\xf7\xff\xff"):
                made = from_buffers(of, 19 - at, [valid], [ids, bools], offset=at)
                wanted = [k for k in kept if k >= at and (valid is None or k != 3)]
                self.assertEqual(self.ids(made, Filter("is_in")), wanted, at)

    def test_several_arrays(self):
        """A column of several arrays, and a stream of them."""
        parts = [column(self.rows[:3]), column(self.rows[3:5]), column(self.rows[5:])]
        several = column_over([part._chunks[0] for part in parts])

        class Streamed:
            def __arrow_c_stream__(self, requested_schema=None):
                return several.__arrow_c_stream__(requested_schema)

        class Arrow:
            def __arrow_c_array__(self, requested_schema=None):
                return parts[0].__arrow_c_array__(requested_schema)

        for source in (several, Streamed()):
            self.assertEqual(self.ids(source, Take([5, 0, 2]), Filter("is_in")), [5, 0])
        self.assertEqual(self.ids(Arrow(), Filter("is_in")), [0])

    def test_refused(self):
        people = column(self.rows)
        for source, error, words in (
            (column([1]), TypeError, "expected a column of structs, got int64"),
            (people, KeyError, r"expected one of \['id', 'is_in'\]"),
            (column([{"x": 1}]), TypeError, "expected a field of bools, got int64"),
        ):
            with self.assertRaisesRegex(error, "Filter.'x'.: " + words):
                select(source, [Filter("x")])
        with self.assertRaisesRegex(TypeError, "__arrow_c_stream__, got list"):
            select([1], [Filter("x")])
        for call in (lambda: len(Filter("x")), lambda: plan([3], [Filter("x")])):
            with self.assertRaisesRegex(TypeError, "expected a mask, got the name of a field, 'x'"):
                call()
        self.assertEqual(repr(pickle.loads(pickle.dumps(Filter("x")))), "Filter('x')")


class Masks(unittest.TestCase):
    """Masks of the kernels, and buffers of items of other types."""

    def test_bits(self):
        """Bits of unsigned integers of each width, from each bit on."""
        for kind in "BHILQ":
            items = array(kind, [5, 3])
            bits = 8 * items.itemsize
            wanted = [0, 2, bits, bits + 1]
            for at in (0, 1, 2, 7, bits - 1, bits, bits + 1):
                mask = Bits(items, 2 * bits - at, at)
                found = kernels.positions(mask, 2 * bits - at).tolist()
                self.assertEqual(found, [k - at for k in wanted if k >= at], (kind, at))
        for wrong in (
            array("b", [1]), array("i", [1]), array("d", [1.0]), memoryview(b"a").cast("?")
        ):
            with self.assertRaisesRegex(TypeError, "bits: expected unsigned integers"):
                Bits(wrong, 1)
        with self.assertRaisesRegex(ValueError, "expected 8 from bit 1 on, got 8 in all"):
            Bits(b"a", 8, 1)
        self.assertEqual(len(Bits(b"ab", 15, 1)), 15)
        for name in "length", "at":
            changed = Bits(b"ab", 15, 1)
            setattr(changed, name, -1)
            with self.assertRaisesRegex(ValueError, f"^{name}: expected 0 to"):
                changed.placed()

    def test_words(self):
        """Words of a mask, the first row lowest, with zeros behind the last."""
        self.assertEqual(words_of(b"\x05", 3).tolist(), [5])
        self.assertEqual(words_of([True] * 65, 65).tolist(), [2**64 - 1, 1])
        self.assertEqual(words_of(Bits(b"\xff" * 16, 65, 3), 65).tolist(), [2**64 - 1, 1])
        self.assertEqual(Bits(b"\xff\xff", 0, 5).words().tolist(), [])
        self.assertEqual(Bits(b"\xf0", 2, 3).words().tolist(), [2])
        # The words that hold the bits, and no more: here those of bytes 2 to 10.
        words, at = Bits(bytes(range(100)), 66, 19).placed()
        self.assertEqual((words.tobytes(), at), (bytes([*range(2, 11), *bytes(7)]), 3))
        self.assertEqual(whole_words(b"\1\2").tolist(), [0x201])
        self.assertEqual(whole_words(bytes(8)).tolist(), [0])
        with self.assertRaisesRegex(ValueError, "expected 1 bytes for 8 rows, got 2"):
            words_of(b"ab", 8)
        with self.assertRaisesRegex(ValueError, "expected 2 bools, one a row, got 1"):
            words_of([True], 2)
        with self.assertRaisesRegex(ValueError, "expected 2 bits, one a row, got 1"):
            words_of(Bits(b"a", 1), 2)
        self.assertEqual(words_of(b"\xff", 8).tolist(), [255])

    def test_bools(self):
        self.assertEqual(bools_of([True, False]), b"\1\0")
        self.assertEqual(bools_of((ctypes.c_bool * 2)(True, False)), b"\1\0")
        self.assertIsNone(bools_of(b"ab"))
        with self.assertRaisesRegex(TypeError, "^mask: expected bools, got None$"):
            bools_of([True, None])

    def test_bits_of_bools(self):
        """`filter_bits` and `take_bits` over bits in each form, from bit 1 or 9 on."""
        rows = [True, True, False, True, False, False, True, True, False, True, True, False]
        data, mask = b"\xcb\x06", [True, False, True, True]
        for given in (
            data, memoryview(bytes(rows)).cast("?"), rows, Bits(data, 12), Bits(b"\0" + data, 12, 8)
        ):
            # Bits 1 to 4 are 1, 0, 1, 0, of which the mask keeps the first, third and last.
            kept, count = kernels.filter_bits(given, mask, 4, bits_at=1)
            self.assertEqual((bytes(kept), count), (b"\3", 3))
            taken = kernels.take_bits(given, 3, [2, 1, 0, 1], at=9)
            self.assertEqual(bytes(taken), b"\x0e")
            with self.assertRaisesRegex(ValueError, "from bit 13 on"):
                kernels.take_bits(given, 4, [0], at=13)
        with self.assertRaisesRegex(ValueError, "expected 4 from bit 9 on, got 12 in all"):
            kernels.filter_bits(rows, mask, 4, bits_at=9)
        with self.assertRaisesRegex(ValueError, "expected 8 from bit 9 on, got 16 in all"):
            kernels.filter_bits(data, b"\0", 8, bits_at=9)
        kept, count = kernels.filter_bits(data, b"\xf0\xff", 8, mask_at=4)
        self.assertEqual((bytes(kept), count), (data[:1], 8))

    def test_numbers(self):
        """Numbers of rows and bits are from 0 to 2^64 - 2."""
        for wrong in (-1, 2**64 - 1, 2**64):
            with self.assertRaisesRegex(
                ValueError, f"length: expected 0 to {2**64 - 2}, got {wrong}"
            ):
                Bits(b"a", wrong)
            with self.assertRaisesRegex(ValueError, "at: expected 0 to"):
                Bits(b"a", 1, wrong)
            with self.assertRaisesRegex(ValueError, "rows: expected 0 to"):
                words_of(b"", wrong)

    def test_indices(self):
        """An index that isn't below 2^64 - 1 is out of bounds, in a list of any other."""
        for index in (2**64 - 1, 2**64, -1):
            for indices in ([0, index], (0, index), iter([0, index])):
                with self.assertRaisesRegex(IndexError, "at place 1, but 3 items"):
                    kernels.take(b"abc", indices)
        for wrong in ("1", "", Bits(b"a", 1), [1, True], [True], [1.0], ["1"]):
            with self.assertRaises(TypeError):
                kernels.take(b"abc", wrong)
        for wrong in (
            array("f", [1.0]), memoryview(b"a").cast("c"), memoryview(bytes(4)).cast("B", (2, 2))
        ):
            with self.assertRaisesRegex(TypeError, "indices: expected native integers, got format"):
                kernels.take(b"abc", wrong)
        self.assertEqual(
            bytes(kernels.take(b"abc", memoryview(array("h", [2, 1, 0]))[::-1])), b"abc"
        )


class Items(unittest.TestCase):
    """Formats of items: those that are numbers and bytes alone are taken."""

    def filtered(self, form, size, given):
        """The type of a result over items of a format, which is a view of those in `given`."""
        kept = kernels.filter(given, [False, True])
        self.assertEqual(
            (bytes(kept), memoryview(given).format),
            (bytes(memoryview(given).cast("B")[size:]), form)
        )
        return kept.format

    def test_numbers(self):
        for kind in "bBhHiIlLqQfd":
            data = array(kind, [1, 2])
            self.assertEqual(self.filtered(kind, data.itemsize, data), kind)
        for form, size in (("c", 1), ("?", 1), ("n", 8), ("N", 8)):
            self.assertEqual(
                self.filtered(form, size, memoryview(bytes(2 * size)).cast(form)), form
            )
        for kind, form in ((ctypes.c_int, "<i"), (ctypes.c_double, "<d"), (ctypes.c_uint8, "<B")):
            data = (kind * 2)(1, 2)
            self.assertEqual(self.filtered(form, ctypes.sizeof(kind), data), form[1:])

    def test_other_orders(self):
        """Items in another byte order are bytes, and no indices."""
        data = (ctypes.c_uint32.__ctype_be__ * 2)(1, 2)
        kept = kernels.filter(data, [False, True])
        self.assertEqual((kept.format, bytes(kept)), ("B", b"\0\0\0\2"))
        with self.assertRaisesRegex(TypeError, "expected native integers"):
            kernels.take(b"abc", data)
        with self.assertRaisesRegex(TypeError, "expected native integers"):
            Take(data)

    def test_widths(self):
        for width in (1, 2, 4, 8, 16, 32):
            data = bytes(range(2 * width))
            for given in (data, memoryview(data).cast("c"), memoryview(data).cast("b")):
                kept = kernels.filter(given, [False, True], width)
                self.assertEqual(bytes(kept), data[width:])
                self.assertEqual(kept.format, memoryview(given).format if width == 1 else "B")
        self.assertEqual(kernels.filter(array("I", [1, 2]), [True, False], 4).tolist(), [1])
        with self.assertRaisesRegex(ValueError, "width: expected 4, the items' own, got 8"):
            kernels.filter(array("I", [1, 2]), [True], 8)
        with self.assertRaisesRegex(ValueError, "expected whole items of 2 bytes, got 3 bytes"):
            kernels.filter(b"abc", [True], 2)
        with self.assertRaisesRegex(ValueError, "expected items of .* bytes, got 3"):
            kernels.filter(b"abc", [True], 3)

    def test_long_doubles(self):
        """Items of 16 bytes that aren't native numbers of `memoryview` are bytes."""
        data = (ctypes.c_longdouble * 2)(1.0, 2.0)
        kept = kernels.filter(data, [False, True])
        self.assertEqual((kept.format, bytes(kept)), ("B", bytes(data)[16:]))

    def test_no_buffers(self):
        with self.assertRaisesRegex(TypeError, "values: expected a buffer, got str"):
            kernels.filter("ab", [True])
        with self.assertRaisesRegex(TypeError, "values: expected 1 dimension, got 2"):
            kernels.filter(memoryview(bytes(4)).cast("B", (2, 2)), [True])
        with self.assertRaisesRegex(
            TypeError, "values: expected numbers or bytes, got items of format"
        ):
            kernels.filter((ctypes.py_object * 1)(), [True])

    def test_masked(self):
        """A masked array of numpy is refused, where numpy was imported."""

        class MaskedArray(bytearray):
            pass

        module = types.ModuleType("numpy.ma")
        module.MaskedArray = MaskedArray
        kept = sys.modules.get("numpy.ma")
        sys.modules["numpy.ma"] = module
        try:
            for call in (
                lambda given: view_of(given, "x"), Take,
                lambda given: kernels.take(b"a", given)
            ):
                with self.assertRaisesRegex(
                    TypeError, "expected a plain buffer, got a masked array"
                ):
                    call(MaskedArray(b"a"))
        finally:
            del sys.modules["numpy.ma"]
            if kept is not None:
                sys.modules["numpy.ma"] = kept
        self.assertEqual(bytes(view_of(MaskedArray(b"a"), "x")), b"a")


if __name__ == "__main__":
    unittest.main()
