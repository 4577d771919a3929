"""Compares selection over columns in Arrow's memory with plain Python, and calls it with what lies."""

import ctypes
import os
import random
import struct
import threading
import time
import unittest
from array import array

try:
    import numpy
except ImportError:
    numpy = None

import producer as arrow
from arrow_model import Layout, after, random_row, random_steps, random_type, wrapped
from strict_model import damaged, is_strict
from vortex_select import BrokenStep, Column, Filter, Slice, Take
from vortex_select import check, column, from_buffers, select
from vortex_select import _native, _steps
from vortex_select._arrays import Field, field_of_type
from vortex_select._building import built as built_array
from vortex_select._building import viewed
from vortex_select._types import Type, type_of
from vortex_select.columns import column_over

CALLS = int(os.environ.get("VORTEX_ARROW_CALLS", "3000"))


class Streamed:
    """A column that is handed over as a stream alone."""

    def __init__(self, of):
        self.of = of

    def __arrow_c_stream__(self, requested_schema=None):
        return self.of.__arrow_c_stream__()


def held():
    """How many structs and arrays aren't released yet."""
    return len(arrow.alive), _native.alive()


def built(of, rows):
    """An array of rows, as the producer hands it over."""
    return arrow.made_of(built_array(field_of_type(of), rows).node)


def joined(of, chunks):
    """A column of several arrays."""
    return column_over([wrapped(of, chunk)._chunks[0] for chunk in chunks])


class NoBatches(Streamed):
    """A stream of a type, without a batch."""

    def __arrow_c_stream__(self, requested_schema=None):
        return _native.stream_capsule(self.of._chunks[0], [])


class Random(unittest.TestCase):
    def setUp(self):
        self.before = held()

    def tearDown(self):
        self.assertEqual(held(), self.before)

    def agrees(self, seed, source, rows, steps, said):
        wanted, broken = after(rows, said)
        picks, _ = after(list(range(len(rows))), said)
        is_union = self.type.startswith(("sparse_union", "dense_union"))
        try:
            found = select(source, steps)
        except BrokenStep as why:
            self.assertEqual((why.step, why.cause), broken, seed)
            return
        except ValueError as why:
            self.assertIn("expected no null of a union, got one", str(why), seed)
            self.assertTrue(is_union and None in picks, seed)
            return
        self.assertIsNone(broken, seed)
        self.assertFalse(is_union and None in picks, seed)
        self.assertEqual(len(found), len(wanted), seed)
        self.assertEqual(found.type, self.type, seed)
        self.assertEqual(found.to_pylist(), wanted, seed)
        # Once more, out of the answer.
        self.assertEqual(select(found, [Slice(0, len(wanted))]).to_pylist(), wanted, seed)

    def test_arrays(self):
        for seed in range(CALLS):
            dice = random.Random(seed)
            of = random_type(dice, dice.randrange(4))
            rows = [random_row(dice, of) for _ in range(dice.choice([0, 1, 8, dice.randrange(30)]))]
            is_tested = seed % 2 == 0
            source = wrapped(of, Layout(dice, is_strict=is_tested).array(of, rows))
            self.type = str(of)
            self.assertEqual(source.to_pylist(), rows, seed)
            if is_tested:
                check(source)
            self.agrees(seed, source, rows, *random_steps(dice, len(rows)))

    def test_streams(self):
        for seed in range(CALLS // 5):
            dice = random.Random(-1 - seed)
            of = random_type(dice, dice.randrange(3))
            parts = [
                [random_row(dice, of) for _ in range(dice.randrange(9))]
                for _ in range(1 + dice.randrange(4))
            ]
            rows = [row for part in parts for row in part]
            chunks = [Layout(dice).array(of, part) for part in parts]
            source = Streamed(joined(of, chunks))
            self.type = str(of)
            self.agrees(seed, source, rows, *random_steps(dice, len(rows)))

    def test_built(self):
        for seed in range(CALLS // 10):
            dice = random.Random(seed)
            of = random_type(dice, 3)
            rows = [random_row(dice, of) for _ in range(9)]
            made = column(rows, str(of))
            self.assertEqual((made.to_pylist(), made.type), (rows, str(of)), seed)


class Answers(unittest.TestCase):
    people = [{"id": 5, "tags": ["a"]}, None, {"id": 7, "tags": []}]

    def test_schema(self):
        """Names, flags and metadata are those of the source; nulls of a take show at the top."""
        said = (1).to_bytes(4, "little") + (3).to_bytes(4, "little") + b"key" + (1).to_bytes(4, "little") + b"v"
        of = type_of("struct<id: int64, tags: list<utf8>>")
        for steps, flags in (([Slice(0, 1)], 0), ([Take([0, 0])], 0), ([Take([0, None])], 2)):
            made = built(of, [{"id": 1, "tags": None}])
            source = wrapped(of, made, name="people", flags=0, metadata=said)
            answer = select(source, steps)._field()
            self.assertEqual((answer.name, answer.flags, answer.format), ("people", flags, "+s"))
            self.assertEqual(answer.metadata, said)
            child = answer.children[1]
            self.assertEqual((child.name, child.flags), ("tags", 2))
            self.assertEqual(child.children[0].name, "item")

    def test_flags_of_no_rows(self):
        made = select(column([], "int8"), [Take([None]), Slice(0, 0)])
        self.assertEqual((made._field().flags & 2, made.to_pylist()), (2, []))

    def test_nulls(self):
        """A null that later steps drop refuses nothing."""
        made = select(column([1, 2], "int32"), [Take([0, None, 1]), Filter([True, False, True])])
        self.assertEqual(made.to_pylist(), [1, 2])
        self.assertEqual(select(column([None, None]), [Take([1, None])]).to_pylist(), [None, None])

    def test_broken(self):
        source = column([1, 2, 3], "int32")
        for steps, step, cause in (
            ([Slice(2, 1)], 0, "BadRange"),
            ([Slice(0, 2), Filter([True])], 1, "BadMask"),
            ([Slice(0, 2), Slice(0, 1), Take([1])], 2, "OutOfBounds"),
            ([Take([-1])], 0, "OutOfBounds"),
            ([Take(column([0.0]))], 0, "InvalidIndices"),
        ):
            with self.assertRaises(BrokenStep) as why:
                select(source, steps)
            self.assertEqual((why.exception.step, why.exception.cause), (step, cause))
            with self.assertRaises(BrokenStep):
                select(Streamed(source), steps)

    def test_broken_first(self):
        """A broken step is told before a column that has no meaning."""
        source = wrapped(Type("u"), arrow.made_array(1, 0, 0, [None, array("i", [3, 2]), b"abc"]))
        with self.assertRaises(BrokenStep):
            select(source, [Slice(0, 2)])
        with self.assertRaises(ValueError):
            select(source, [Slice(0, 1)])

    def test_check(self):
        """A row that has no meaning is found where it isn't picked, too."""
        source = wrapped(Type("u"), arrow.made_array(2, 0, 0, [None, array("i", [0, 5, 2]), b"ab"]))
        with self.assertRaisesRegex(ValueError, "offsets"):
            check(source)
        with self.assertRaisesRegex(ValueError, "offsets"):
            select(source, [Take([0])])
        fine = wrapped(Type("u"), arrow.made_array(2, 0, 0, [None, array("i", [5, 1, 2]), b"ab"]))
        self.assertEqual(select(fine, [Take([1])]).to_pylist(), ["b"])
        with self.assertRaisesRegex(ValueError, "offsets"):
            check(fine)

    def test_strict(self):
        """Rules that selection doesn't need, by the text of the format."""
        words, long = array("i", range(8)), viewed(b"0123456789abc", 0, 0)
        entries = Type("+s", (("key", Type("i")), ("value", Type("i"))))
        dense = Type("+ud:0,7", (("a", Type("i")), ("b", Type("i"))))

        def flat(count, valid=None, length=3, offset=0):
            return arrow.made_array(length, count, offset, [valid, words])

        def maps(key_bits, entry_bits=None, offsets=(1, 2, 3)):
            pairs = arrow.made_array(4, -1, 0, [entry_bits], [flat(-1, key_bits, 4), flat(-1, b"\0", 4)])
            return arrow.made_array(2, -1, 0, [b"\1", array("i", offsets)], [pairs])

        def view(data, valid=b"\3"):
            return arrow.made_array(2, -1, 0, [valid, data + bytes(16), b"0123456789abc", array("q", [13])])

        def union(offsets, offset=0):
            rows = [b"\0\7\0\7", array("i", offsets)]
            return arrow.made_array(4 - offset, 0, offset, rows, [flat(0, None, 8), flat(0, None, 8)])

        for of, made, place in (
            (Type("i"), flat(0), None), (Type("i"), flat(1, b"\5"), None), (Type("i"), flat(-1, b"\5"), None),
            (Type("i"), flat(2, b"\5"), "null count"), (Type("i"), flat(0, b"\5"), "null count"),
            (Type("i"), flat(1, b"\xdf", 3, 3), None), (Type("i"), flat(0, b"\xdf", 3, 3), "null count"),
            (Type("i"), flat(0, b"\xdf", 2, 3), None), (Type("n"), arrow.made_array(2, 0, 0, []), "null count"),
            (Type("+m", (("entries", entries),)), maps(b"\x06"), None),
            (Type("+m", (("entries", entries),)), maps(b"\x04"), "entries"),
            (Type("+m", (("entries", entries),)), maps(b"\x02"), "entries"),
            (Type("+m", (("entries", entries),)), maps(None, b"\x0b"), "entries"),
            (Type("+m", (("entries", entries),)), maps(None, b"\x06"), None),
            (Type("vz"), view(long), None), (Type("vz"), view(long[:7] + b"4" + long[8:]), "views"),
            (Type("vz"), view(long[:7] + b"4" + long[8:], b"\2"), "views"),
            (Type("vz"), view(viewed(b"ab", 0, 0)[:15] + b"\1"), "views"),
            (Type("vz"), view(b"\xff" * 16, b"\2"), "views"),
            (dense, union([0, 0, 1, 1]), None), (dense, union([1, 0, 1, 0]), None),
            (dense, union([1, 0, 0, 1]), "offsets"), (dense, union([0, 1, 0, 0]), "offsets"),
            (dense, union([1, 1, 0, 1], 1), None),
        ):
            source = wrapped(of, made)
            if place is None:
                check(source)
            else:
                with self.assertRaisesRegex(ValueError, place + ": "):
                    check(source)

    def test_random_flaws(self):
        """`check` finds what a second reading of the rules finds, and nothing else."""
        found = 0
        for seed in range(CALLS):
            dice = random.Random(-(10**6) - seed)
            of = random_type(dice, dice.randrange(4))
            rows = [random_row(dice, of) for _ in range(dice.choice([1, 8, dice.randrange(30)]))]
            made = damaged(dice, of, Layout(dice, is_strict=True).array(of, rows))
            source, is_sound = wrapped(of, made), is_strict(of, made)
            found += not is_sound
            if is_sound:
                check(source)
            else:
                with self.assertRaises(ValueError, msg=seed):
                    check(source)
        self.assertTrue(CALLS // 10 < found < CALLS - CALLS // 10, found)

    def test_overflow(self):
        source = column(["x" * 2**20])
        with self.assertRaises(OverflowError):
            select(source, [Take(array("B", bytes(2**11)))])
        wide = select(column(["x" * 2**10], "large_utf8"), [Take(array("B", bytes(2**11)))])
        self.assertEqual(len(wide), 2**11)
        with self.assertRaises(OverflowError):
            select(Streamed(source), [Take(array("B", bytes(2**11)))])

    def test_types(self):
        for wrong in (b"ab", [1, 0], 7, memoryview(b"ab")):
            with self.assertRaises(TypeError):
                Filter(wrong)
        for wrong in ("ab", [1.0], [True], array("d", [1.0]), column(["a"])):
            with self.assertRaises(TypeError):
                Take(wrong)
        with self.assertRaises(TypeError):
            select([1, 2], [])
        with self.assertRaises(TypeError):
            select(column([1]), [(0, 1)])
        with self.assertRaises(TypeError):
            Filter(column([1]))
        for wrong in ("int65", "list<utf8", "list<utf8>>", "struct<a>", "", "utf8 "[:4] + ">"):
            with self.assertRaises(ValueError):
                type_of(wrong)

    def test_buffers(self):
        numbers = array("q", range(100))
        source = from_buffers("int64", 90, [None, numbers], offset=10)
        with self.assertRaises(BufferError):
            numbers.append(1)
        self.assertEqual(select(source, [Take([0, 89])]).to_pylist(), [10, 99])
        del source
        numbers.append(1)
        for wrong in (
            ("int64", 101, [None, numbers[:100]]),
            ("utf8", 1, [None, array("i", [0, 4]), b"abc"]),
            ("utf8", 2, [None, array("i", [0, 4]), b"abcd"]),
            ("bool", 9, [None, b"a"]),
            ("int8", 9, [b"a", b"123456789"]),
            ("int8", 1, [b"a"]),
            ("list<int8>", 1, [None, array("i", [0, 1])]),
            ("int64", -1, [None, numbers]),
        ):
            with self.assertRaises(ValueError):
                from_buffers(*wrong)
        items = from_buffers("list<int8>", 1, [None, array("i", [0, 1])], [column([4], "int8")])
        self.assertEqual(select(items, [Take([0, 0])]).to_pylist(), [[4], [4]])

    def test_empty_stream(self):
        none = NoBatches(column([], "utf8"))
        made = select(none, [Slice(0, 0)])
        self.assertEqual((made.to_pylist(), made.type), ([], "utf8"))
        self.assertEqual(select(made, []).to_pylist(), [])


@unittest.skipUnless(numpy, "there is no numpy")
class Numpy(unittest.TestCase):
    def test_in_place(self):
        """numpy's arrays are taken as they stand, and an answer's memory is read as one."""
        numbers = numpy.arange(1000, dtype="int32")
        source = from_buffers("int32", 1000, [None, numbers])
        self.assertEqual(source._chunks[0].node.places[1], numbers.ctypes.data)
        found = select(source, [Filter(numbers % 2 == 1), Take(numpy.array([3, 0], dtype="uint8"))])
        self.assertEqual(found.to_pylist(), [7, 1])
        with self.assertRaises(TypeError):
            Take(numpy.ma.masked_array([1, 2], [True, False]))
        with self.assertRaises(TypeError):
            Take(numpy.array([1.0]))

    def test_strided(self):
        with self.assertRaises((BufferError, ValueError)):
            from_buffers("int32", 2, [None, numpy.arange(4, dtype="int32")[::2]])


class Shared(unittest.TestCase):
    """What views and lists that are views lead to is the source's own memory."""

    def test_views(self):
        data = [b"0123456789abc", b"0123456789abcdef"]
        views = b"".join(viewed(data[k][k:], k, k) for k in (0, 1)) + viewed(b"0123456789ab", 7, 7)
        source = from_buffers("binary_view", 3, [None, views, *data])
        found = select(source, [Take([2, 1, None, 0])])
        self.assertEqual(found.to_pylist(), [b"0123456789ab", data[1][1:], None, data[0]])
        first, second = source._chunks[0].node.places, found._chunks[0].node.places
        self.assertEqual(second[2:5], first[2:5])
        self.assertNotEqual(second[1], first[1])
        with self.assertRaises(ValueError):
            from_buffers("binary_view", 3, [None, views[:47], *data])
        with self.assertRaises(ValueError):
            from_buffers("binary_view", 3, [None])

    def test_list_views(self):
        for name, letter in (("list_view", "i"), ("large_list_view", "q")):
            starts, sizes = array(letter, [2, 0, 1, 3]), array(letter, [1, 3, 2, 0])
            items = column([5, 6, 7], "int8")
            source = from_buffers(f"{name}<int8>", 4, [None, starts, sizes], [items])
            found = select(source, [Take([0, 2, None, 1, 3])])
            self.assertEqual(found.to_pylist(), [[7], [6, 7], None, [5, 6, 7], []])
            below = found._chunks[0].node.children[0]
            self.assertEqual(below.places[1], items._chunks[0].node.places[1])
            with self.assertRaises(ValueError):
                from_buffers(f"{name}<int8>", 4, [None, starts, sizes[:3]], [items])

    def unions(self, source, ids):
        """What holds of both kinds."""
        self.assertEqual(source.to_pylist(), ["a", None, 3])
        found = select(source, [Take([2, 1, 0, 0])])
        self.assertEqual((found.to_pylist(), found.type), ([3, None, "a", "a"], source.type))
        self.assertIn(ids, found.type)
        with self.assertRaisesRegex(ValueError, "expected no null of a union, got one"):
            select(source, [Take([0, None])])
        self.assertEqual(select(source, [Take([0, None]), Slice(0, 1)]).to_pylist(), ["a"])
        # Where a struct is null, nothing is said of its union.
        below = wrapped(Type("+s", (("u", type_of(source.type)),)), arrow.made_array(
            3, 0, 0, [None], [arrow.made_of(source._chunks[0].node)]
        ))
        found = select(below, [Take([2, None, 1])])
        self.assertEqual(found.to_pylist(), [{"u": 3}, None, {"u": None}])
        return select(source, [Take([2, 0, 2])])._chunks[0].node

    def test_sparse_unions(self):
        words, numbers = column(["a", None, "c"]), column([1, 2, 3], "int16")
        names = "[5,9]<a: utf8, b: int16>"
        source = from_buffers(f"sparse_union{names}", 3, [b"\5\5\x09"], [words, numbers])
        found = self.unions(source, "[5,9]")
        self.assertEqual([found.children[k].length for k in (0, 1)], [3, 3])
        for wrong in ("[5]<a: utf8, b: int16>", "[128,1]<a: utf8, b: int16>"):
            with self.assertRaises(ValueError):
                select(from_buffers("sparse_union" + wrong, 1, [b"\5"], [words, numbers]), [])

    def test_dense_unions(self):
        words, numbers = column(["a", "b", None]), column([1, 2, 3], "int16")
        names, offsets = "[5,9]<a: utf8, b: int16>", array("i", [0, 2, 2])
        source = from_buffers(f"dense_union{names}", 3, [b"\5\5\x09", offsets], [words, numbers])
        found = self.unions(source, "[5,9]")
        self.assertEqual([found.children[k].length for k in (0, 1)], [1, 2])

    def test_built_unions(self):
        """A value is in the first column that it fits."""
        made = column([1, "a", None, 300, 2.5], "dense_union<b: int8, a: utf8, i: int64, f: float64>")
        types = made._chunks[0].node.buffers[0]
        self.assertEqual(bytes(types), bytes([0, 1, 0, 2, 3]))
        self.assertEqual(made.to_pylist(), [1, "a", None, 300, 2.5])
        for wrong in (["a", 1.5], [b"a"], [2**15], [[1]], [True]):
            with self.assertRaises(ValueError):
                column(wrong, "sparse_union<a: utf8, b: int16>")


class Release(unittest.TestCase):
    def setUp(self):
        self.before = held()
        words = ["a", "bb", None, "a text that is long"]
        fields = {
            "d": "dictionary<int8, utf8>", "n": "int32", "v": "utf8_view", "l": "list_view<utf8_view>"
        }
        self.rows = [
            {"d": word, "n": k, "v": word, "l": [word, "another long text"]}
            for k, word in enumerate(words)
        ]
        named = ", ".join(f"{name}: {kind}" for name, kind in fields.items())
        self.source = column(self.rows, f"struct<{named}>")

    def tearDown(self):
        self.source = None
        self.assertEqual(held(), self.before)

    def test_early(self):
        """The source goes first, then the answer, and the dictionary last."""
        made = select(self.source, [Take([3, 2, 1, None])])
        again = select(made, [Take([2])])
        self.source = None
        self.assertEqual(made.to_pylist(), [self.rows[3], self.rows[2], self.rows[1], None])
        del made
        self.assertEqual(again.to_pylist(), [self.rows[1]])

    def test_children(self):
        """Children and dictionaries that are taken out outlive what they were in."""
        made = select(self.source, [Slice(0, 3)])
        self.source = None
        first = column_over(made._chunks[0].split()[:1])
        self.assertEqual(first.to_pylist(), ["a", "bb", None])
        values = first._chunks[0].node.dictionary
        del made, first
        self.assertEqual([bytes(values.buffers[2])[:3], values.length], [b"abb", 3])

    def test_consumed(self):
        """A capsule is taken once, and a second time is an error."""
        schema, made = self.source.__arrow_c_array__()
        taken = _native.array_from_capsules(schema, made)
        self.assertEqual(column_over([taken]).to_pylist(), self.rows)
        with self.assertRaisesRegex(ValueError, "released"):
            _native.array_from_capsules(schema, made)
        fresh = self.source.__arrow_c_array__()
        with self.assertRaisesRegex(ValueError, "released"):
            _native.array_from_capsules(schema, fresh[1])

    def test_threads(self):
        """A hundred answers share one dictionary, and go away in eight threads."""
        answers = [select(self.source, [Take([k % 4, None])]) for k in range(100)]
        self.source = None
        wrong = []

        def work():
            while True:
                try:
                    answer = answers.pop()
                except IndexError:
                    return
                for _ in range(20):
                    part = select(answer, [Take([0])])
                    if part.to_pylist()[0] not in self.rows:
                        wrong.append(part)

        threads = [threading.Thread(target=work) for _ in range(8)]
        for thread in threads:
            thread.start()
        for thread in threads:
            thread.join()
        self.assertEqual(wrong, [])


class Hostile(unittest.TestCase):
    """Each call is back within a second, with a status."""

    def refused(self, of, made, steps=(Slice(0, 1),), kind=ValueError):
        start = time.monotonic()
        with self.assertRaises(kind) as why:
            select(wrapped(of, made), list(steps))
        self.assertLess(time.monotonic() - start, 1)
        return str(why.exception)

    def test_lengths(self):
        """Lengths and offsets that no buffer can have; the buffers have a byte each."""
        for form in ("c", "l", "b", "w:1000000000", "u", "Z", "+s", "n", "tin", "vu"):
            buffers = {"u": 3, "Z": 3, "vu": 3, "+s": 1, "n": 0}.get(form, 2)
            for length, offset in ((-1, 0), (2**63 - 1, 1), (2**63 - 1, 2**63 - 1), (1, -1), (1, 2**63 - 1)):
                made = arrow.made_array(length, 0, offset, [None] + [b"x"] * (buffers - 1) if buffers else [])
                self.refused(Type(form), made, [Slice(0, 1)], (ValueError, BrokenStep))

    def test_no_buffers(self):
        for form in ("c", "b", "u", "+l"):
            children = [built(Type("c"), [1])] if form == "+l" else ()
            of = Type(form, (("item", Type("c")),)) if form == "+l" else Type(form)
            buffers = 3 if form == "u" else 2
            self.refused(of, arrow.made_array(2**40, 0, 0, [None] * buffers, children))

    def test_offsets(self):
        for offsets in ((5, 4), (0, -1), (-1, 0), (-5, -4)):
            made = arrow.made_array(1, 0, 0, [None, array("i", offsets), b"abcd"])
            self.refused(Type("u"), made)
        items = Type("+l", (("item", Type("c")),))
        for offsets in ((5, 4), (0, 3), (-1, 0), (0, 2**20)):
            child = built(Type("c"), [1, 2])
            self.refused(items, arrow.made_array(1, 0, 0, [None, array("i", offsets)], [child]))

    def test_wild_lists(self):
        """Lists that say that they have more items than there are: two."""
        for form, buffers in (
            ("+l", [None, array("i", [0, 2**31 - 1])]),
            ("+L", [None, array("q", [0, 2**60 - 1])]),
            ("+L", [None, array("q", [0, 2**63 - 1])]),
            ("+w:999999999", [None]),
            ("+w:2147483647", [None]),
            ("+w:3", [None]),
        ):
            made = arrow.made_array(1, 0, 0, buffers, [built(Type("c"), [1, 2])])
            self.refused(Type(form, (("item", Type("c")),)), made)

    def test_wild_views(self):
        """Views into buffers that aren't there or are too short, and lengths that no buffer has."""
        data = bytes(range(20))

        def made(view, blocks=(data,), lengths=None):
            lengths = array("q", map(len, blocks)) if lengths is None else lengths
            views = struct.pack("<i4sii", *view) + viewed(b"ab", 0, 0)
            return arrow.made_array(2, 0, 0, [None, views, *blocks, lengths])

        for size, which, at in (
            (13, 1, 0), (13, -1, 0), (13, 2**31 - 1, 0), (13, 0, 8), (13, 0, -1), (13, 0, 2**31 - 1),
            (21, 0, 0), (2**31 - 1, 0, 0), (2**31 - 1, 0, 2**31 - 1), (-1, 0, 0), (-(2**31), 0, 0),
        ):
            for form in "vu", "vz":
                self.assertIn("views", self.refused(Type(form), made((size, b"", which, at))))
                with self.assertRaises(ValueError):
                    check(wrapped(Type(form), made((size, b"", which, at))))
                # What isn't picked isn't looked at.
                found = select(wrapped(Type(form), made((size, b"", which, at))), [Take([1])])
                self.assertEqual(found.to_pylist(), ["ab" if form == "vu" else b"ab"])
        self.refused(Type("vz"), made((13, b"", 0, 0), ()))
        found = select(wrapped(Type("vz"), made((13, b"", 0, 7))), [Take([0])])
        self.assertEqual(found.to_pylist(), [data[7:]])
        for length in -1, -(2**63), 2**62, 2**63 - 1:
            # A length is the producer's word, but a buffer that isn't there has none.
            self.refused(Type("vu"), made((13, b"", 0, 0), (None,), array("q", [length])))
        self.refused(Type("vu"), made((13, b"", 0, 0), (data,), array("q", [-(2**63)])))
        self.refused(Type("vu"), made((13, b"", 0, 0), (data,), b"\xff" * 8))
        for count in 0, 1, 2:
            self.refused(Type("vu"), arrow.made_array(0, 0, 0, [None, b"", b""][:count]), ())

    def test_no_lengths(self):
        """Buffers that views lead to, and nothing that tells their lengths."""
        views = viewed(b"0123456789abc", 0, 0)
        self.refused(Type("vz"), arrow.made_array(1, 0, 0, [None, views, b"0123456789abc", None]))
        none = wrapped(Type("vz"), arrow.made_array(1, 0, 0, [None, viewed(b"ab", 0, 0), None]))
        self.assertEqual(select(none, [Take([0, 0])]).to_pylist(), [b"ab", b"ab"])

    def test_wild_list_views(self):
        """Views of lists that pass the two items, or begin before them."""
        for form, letter, last in (("+vl", "i", 2**31 - 1), ("+vL", "q", 2**63 - 1)):
            of = Type(form, (("item", Type("c")),))
            for start, size in (
                (0, 3), (2, 1), (3, 0), (-1, 1), (0, -1), (-1, -1), (last, last), (last, 0), (0, last),
                (1, last), (last, 1), (-last - 1, 0), (-last - 1, -last - 1), (3, -1),
            ):
                lists = array(letter, [start, 0]), array(letter, [size, 2])
                made = arrow.made_array(2, 0, 0, [None, *lists], [built(Type("c"), [1, 2])])
                source = wrapped(of, made)
                for call in (lambda: select(source, [Slice(0, 1)]), lambda: check(source)):
                    with self.assertRaises(ValueError):
                        call()
                self.assertEqual(select(source, [Take([1])]).to_pylist(), [[1, 2]])
                hidden = arrow.made_array(2, 1, 0, [b"\2", *lists], [built(Type("c"), [1, 2])])
                source = wrapped(of, hidden)
                with self.assertRaisesRegex(ValueError, "offsets: expected views within the child"):
                    check(source)
                self.assertEqual(select(source, []).to_pylist(), [None, [1, 2]])

    def test_kept(self):
        """What lists are views of is shared unread, and tested by `check`."""
        bad = arrow.made_array(1, 0, 0, [None, array("i", [5, 4]), b"abcd"])
        made = arrow.made_array(1, 0, 0, [None, array("i", [0]), array("i", [1])], [bad])
        source = wrapped(Type("+vl", (("item", Type("u")),)), made)
        self.assertEqual(len(select(source, [Take([0, 0])])), 2)
        with self.assertRaisesRegex(ValueError, "offsets"):
            check(source)

    def test_many_wild_places(self):
        """A million rows of the last of 128 children, each past it: told as soon as they are read."""
        rows = 10**6
        of = Type("+ud:" + ",".join(map(str, range(128))), tuple((f"c{k}", Type("c")) for k in range(128)))
        for place in -1, 2, 2**31 - 1, -(2**31):
            children = [built(Type("c"), [1, 2]) for _ in range(128)]
            made = arrow.made_array(rows, 0, 0, [b"\x7f" * rows, array("i", [place]) * rows], children)
            source, start = wrapped(of, made), time.monotonic()
            with self.assertRaisesRegex(ValueError, "c127.*length"):
                select(source, [])
            with self.assertRaises(ValueError):
                check(source)
            self.assertLess(time.monotonic() - start, 20)

    def test_wild_unions(self):
        """Ids of no child, places past a child's rows, and formats that list no ids."""
        fields = ("a", Type("c")), ("b", Type("u"))

        def below():
            return [built(Type("c"), [1, 2]), built(Type("u"), ["x", "y"])]

        for number in 2, 6, 127, 128, 255:
            types = bytes([number, 5])
            made = arrow.made_array(2, 0, 0, [types], below())
            self.assertIn("type ids", self.refused(Type("+us:5,7", fields), made))
            made = arrow.made_array(2, 0, 0, [types, array("i", [0, 0])], below())
            self.assertIn("type ids", self.refused(Type("+ud:5,7", fields), made))
        for place in -1, 2, 2**31 - 1, -(2**31):
            made = arrow.made_array(2, 0, 0, [b"\5\7", array("i", [place, 1])], below())
            self.assertIn("length", self.refused(Type("+ud:5,7", fields), made))
        for ids in "0", "0,1,2", "", "0,", ",0", "0,0", "0,128", "0,-1", "0;1", " 0,1", "0,1x", "0," + "9" * 30:
            self.refused(Type("+us:" + ids, fields), arrow.made_array(1, 0, 0, [b"\0"], below()))
        short = [built(Type("c"), [1, 2, 3]), built(Type("u"), ["x", "y"])]
        self.refused(Type("+us:0,1", fields), arrow.made_array(3, 0, 0, [b"\0\0\1"], short), ())
        self.refused(Type("+us:0,1", fields), arrow.made_array(1, 0, 0, [None, b"\0"], below()))

    def test_equal_offsets(self):
        """A million texts of no bytes."""
        offsets = array("i", bytes(4 * (10**6 + 1)))
        made = arrow.made_array(10**6, 0, 0, [None, offsets, b""])
        found = select(wrapped(Type("u"), made), [Slice(0, 10**6), Take(array("i", range(0, 10**6, 999)))])
        self.assertEqual(found.to_pylist(), [""] * len(found))

    def test_deep(self):
        """Columns that are nested deeper than the library goes, by lists and by dictionaries."""
        for levels, is_refused in ((200, True), (64, True), (63, False)):
            for form in "+l", "c":
                made, field = built(Type("c"), [1]), field_of_type(Type("c"))
                for _ in range(levels):
                    if form == "+l":
                        offsets = array("i", [0, 1])
                        made = arrow.made_array(1, 0, 0, [None, offsets], [made])
                        field = Field("+l", "", 2, None, (field,), None)
                    else:
                        made = arrow.made_array(1, 0, 0, [None, b"\0"], (), made)
                        field = Field("c", "", 2, None, (), field)
                source = arrow.Produced(field, made)
                if is_refused:
                    with self.assertRaisesRegex(ValueError, "nested|levels|columns stand"):
                        select(source, [])
                else:
                    self.assertEqual(len(select(source, [])), 1)

    def test_shapes(self):
        """Counts of buffers and children that aren't those of the format."""
        one = Type("+s", (("a", Type("c")),))
        for of, made in (
            (Type("c"), arrow.made_array(1, 0, 0, [None])),
            (Type("c"), arrow.made_array(1, 0, 0, [None, b"a", b"b"])),
            (Type("u"), arrow.made_array(1, 0, 0, [None, b"aaaaaaaa"])),
            (one, arrow.made_array(1, 0, 0, [None])),
            (one, arrow.made_array(1, 0, 0, [None], [built(Type("c"), [1])] * 2)),
            (Type("+l", ()), arrow.made_array(0, 0, 0, [None, None])),
            (Type("c", (), Type("c")), arrow.made_array(1, 0, 0, [None, b"a"])),
            (Type("f", (), Type("c")), arrow.made_array(0, 0, 0, [None, b""], (), built(Type("c"), []))),
            (Type("c"), arrow.made_array(1, 1, 0, [None, b"a"])),
        ):
            self.refused(of, made, ())

    def test_formats(self):
        pair = (("run_ends", Type("i")), ("values", Type("i")))
        for form in ("+r", "x", "", "cc", "c ", "w:", "w:-1", "w:x", "w:9999999999", "w:2147483648", "+w:2147483648",
                     "d:", "d:1", "d:1,2,9", "d:1,2,128x", "d:1,--2", "tdx", "ts", "tsx:", "+w", "+w:x", "+x", "+u:",
                     "+", "t", "+us:1,1", "+us:128", "+us:1,", "+ud:,"):
            made = arrow.made_array(1, 0, 0, [None, b"a" * 64])
            self.assertIn("format", self.refused(Type(form), made))
        ends = [built(Type("i"), [1]), built(Type("i"), [1])]
        self.assertIn("+r", self.refused(Type("+r", pair), arrow.made_array(1, 0, 0, [], ends)))

    def test_wide(self):
        """Widths of up to 2^31 - 1: values and lists of no rows."""
        for form in ("w:2147483647", "w:02147483647", "+w:2147483647"):
            below = (("item", Type("n")),) if form[0] == "+" else ()
            made = arrow.made_array(0, 0, 0, [None] if below else [None, b""], [built(Type("n"), []) for _ in below])
            self.assertEqual(len(select(wrapped(Type(form, below), made), [Slice(0, 0)])), 0)

    def test_unknown(self):
        """Formats that the library may not know: the answer is right, or the format is named."""
        item, pair = (("item", Type("i")),), (("a", Type("i")), ("b", Type("i")))
        one, none = array("i", [1]), array("i", [0])
        for of, buffers, children in (
            (Type("vu"), [None, b"\1\0\0\0a" + bytes(11), array("q", [])], 0),
            (Type("+vl", item), [None, none, one], 1),
            (Type("+us:0,1", pair), [b"\1"], 2),
            (Type("+ud:0,1", pair), [b"\1", none], 2),
            (Type("+w:1", item), [None], 1),
        ):
            below = [built(Type("i"), [1]) for _ in range(children)]
            source = wrapped(of, arrow.made_array(1, 0, 0, buffers, below))
            rows = source.to_pylist()
            try:
                found = select(source, [Take([0, 0])])
            except ValueError as why:
                self.assertIn(f"{of.format}: unknown format", str(why))
            else:
                self.assertEqual(found.to_pylist(), [*rows, *rows])

    def test_place(self):
        """The wrong buffer's column is named, from the top."""
        bad = arrow.made_array(1, 0, 0, [None, array("i", [5, 4]), b"abcd"])
        lists = arrow.made_array(1, 0, 0, [None, array("i", [0, 1])], [bad])
        of = type_of("struct<id: int8, tags: list<utf8>>")
        made = arrow.made_array(1, 0, 0, [None], [built(Type("c"), [1]), lists])
        self.assertIn("tags.item offsets", self.refused(of, made))


if __name__ == "__main__":
    unittest.main()
