"""Selects from stores that are read chunk by chunk, and compares the rows with numpy's indexing.

Needs numpy. The classes of stores need h5py, zarr, PyTables and xarray.
"""

import contextlib
import doctest
import importlib
import io
import os
import random
import tempfile
import threading
import traceback
import tracemalloc
import unittest

import numpy

import vortex_select.chunks
from vortex_select import BrokenStep, Filter, Slice, Take, column
from vortex_select.chunks import batches, select

LISTS = int(os.environ.get("VORTEX_CHUNK_LISTS", "300"))
TYPES = [
    "?", "i1", "u1", "<i2", ">i2", "<u4", ">i4", "<i8", ">u8", "<f2", "<f4", ">f8", "<c8", "<c16",
    "S5", "<U3", "<M8[s]", ">m8[ns]", "V3", [("id", "<i4"), ("at", ">f8")],
]
PLAIN_TYPES = ["?", "i1", "<i2", ">i4", "<u4", "<i8", ">u8", "<f4", ">f8", "S5"]


def made(shape, dtype, dice):
    """An array of random bytes, of which each is a valid item."""
    dtype = numpy.dtype(dtype)
    found = numpy.zeros(shape, dtype)
    if found.size and dtype.itemsize:
        most = 2 if dtype.kind == "b" else 100
        data = numpy.array(dice.choices(range(most), k=found.nbytes), "u1")
        if dtype.kind == "U":
            data.reshape(-1, 4)[:, 1:] = 0
        found = numpy.frombuffer(data.tobytes(), dtype).reshape(shape)
    return found


class Counting:
    """A source that notes which rows are read, and that may fail."""

    def __init__(self, array, chunks, name="chunks"):
        self.array, self.shape, self.dtype = array, array.shape, array.dtype
        setattr(self, name, chunks)
        self.reads, self.fails, self.lock = [], {}, threading.Lock()

    def __getitem__(self, rows):
        with self.lock:
            self.reads.append((rows.start, rows.stop))
        how = self.fails.get(rows.start, lambda rows: rows)
        return how(self.array[rows])


def taken_chunks(rows, chunk_len):
    """The chunks that hold these rows, ascending."""
    return sorted({int(row) // chunk_len for row in rows})


def random_step(dice, count):
    """A step over so many rows, and what it leaves of their numbers; a negative one is a null."""
    kind = dice.randrange(4)
    if kind == 0:
        start = dice.randint(0, count)
        end = dice.randint(start, count)
        return Slice(start, end), lambda rows: rows[start:end]
    if kind == 1:
        mask = numpy.array([dice.random() < dice.choice((0, 0.3, 1)) for _ in range(count)], bool)
        return Filter(mask), lambda rows: rows[mask]
    indices = [dice.randrange(count) for _ in range(dice.randrange(30))] if count else []
    if dice.random() < 0.4:
        indices.sort()
    if kind == 2:
        return Take(numpy.array(indices, "i8")), lambda rows: rows[numpy.array(indices, int)]
    nulls = [None if dice.random() < 0.2 else index for index in indices]
    places = numpy.array([-1 if index is None else index for index in nulls], int)
    # The rows may be empty, so a null isn't looked up.
    return Take(nulls), lambda rows: numpy.array(
        [-1 if place < 0 else rows[place] for place in places], int
    )


def random_steps(dice, count):
    """Steps over so many rows, and the numbers of the rows that they leave, -1 for a null."""
    rows, steps = numpy.arange(count), []
    for _ in range(dice.randrange(4)):
        step, leaves = random_step(dice, len(rows))
        steps.append(step)
        rows = leaves(rows)
    return steps, rows


def same(found, array, rows, test):
    """Expect the rows of an array, with zeros and a mask at those that are -1."""
    test.assertEqual(found.shape, (len(rows), *array.shape[1:]))
    test.assertEqual(found.dtype, array.dtype)
    data, nulls = numpy.ma.getdata(found), rows < 0
    expected = numpy.zeros(found.shape, array.dtype)
    expected[~nulls] = array[rows[~nulls]]
    test.assertEqual(data.tobytes(), expected.tobytes())
    if nulls.any():
        test.assertIsInstance(found, numpy.ma.MaskedArray)
        mask = numpy.ma.getmaskarray(found)
        plain = mask if mask.dtype.names is None else mask[mask.dtype.names[0]]
        test.assertTrue((plain.reshape(len(rows), -1).T == nulls).all())


class Arrays(unittest.TestCase):
    """Sources that count their reads, arrays of numpy and memory maps."""

    def check(self, source, array, dice, chunk_len=None):
        steps, rows = random_steps(dice, len(array))
        own = getattr(source, "reads", [])
        del own[:]
        threads = dice.choice((1, 1, 3))
        same(select(source, steps, threads=threads), array, rows, self)
        if chunk_len is not None:
            self.expect_reads(own, rows, chunk_len, len(array), steps, threads)
        out = numpy.full((len(rows), *array.shape[1:]), 7).astype(array.dtype)
        if array.dtype.itemsize and out.size:
            found = select(source, steps, out=out, threads=threads)
            self.assertTrue(numpy.may_share_memory(found, out))
            same(found, array, rows, self)

    def expect_reads(self, reads, rows, chunk_len, count, steps, threads):
        """Each chunk once, ascending with one thread, no other; of slices whole chunks at once."""
        chunks = taken_chunks(rows[rows >= 0], chunk_len)
        if threads > 1:
            reads = sorted(reads)
        self.assertEqual(reads, sorted(reads))
        found = [row // chunk_len for start, end in reads for row in range(start, end, 1)]
        self.assertEqual(sorted(set(found)), chunks, steps)
        ends = [0, *(end for _, end in reads)]
        self.assertTrue(all(end <= start for end, (start, _) in zip(ends, reads)))
        if not all(isinstance(step, Slice) for step in steps):
            wanted = [(k * chunk_len, min(count, (k + 1) * chunk_len)) for k in chunks]
            self.assertEqual(reads, wanted)

    def test_random_steps(self):
        for seed in range(LISTS):
            with self.subTest(seed=seed):
                dice = random.Random(seed)
                inner = dice.choice([(), (), (3,), (2, 2)])
                count = dice.choice((0, 1, 7, 60, 150, 300))
                array = made((count, *inner), dice.choice(TYPES), dice)
                chunk_len = dice.choice((1, 4, 9, 60, 64, 100))
                chunks = (chunk_len, *(max(1, size) for size in inner))
                source = Counting(array, chunks, dice.choice(("chunks", "chunkshape")))
                self.check(source, array, dice, min(chunk_len, max(1, count)))
                self.check(array, array, dice)

    def test_arrays_that_are_not_contiguous(self):
        dice = random.Random(1)
        for array in numpy.arange(60)[::2], numpy.arange(60).reshape(6, 10).T, numpy.zeros((9, 0)):
            for _ in range(20):
                self.check(array, array, dice)

    def test_memory_maps(self):
        dice = random.Random(2)
        with tempfile.TemporaryDirectory() as folder:
            path = os.path.join(folder, "rows")
            array = numpy.memmap(path, "<i8", "w+", shape=(50, 3))
            array[:] = numpy.arange(150).reshape(50, 3)
            for _ in range(20):
                self.check(array, array, dice)
            found = select(array, [Slice(3, 5)])
            self.assertFalse(numpy.may_share_memory(found, array))

    def test_rows_of_many_bytes(self):
        array = numpy.arange(5 * (1 << 20) + 5, dtype="u1").reshape(5, (1 << 20) + 1)
        found = select(Counting(array, (2, 1)), [Take([4, None, 0, 4])])
        same(found, array, numpy.array([4, -1, 0, 4]), self)
        whole = select(Counting(array, (2, 1)), [Filter([True] * 5), Slice(1, 5)])
        same(whole, array, numpy.arange(1, 5), self)

    def test_few_picks_of_many_chunks(self):
        class Long:
            shape, dtype, chunks, reads = (1 << 62,), numpy.dtype("<u8"), (3,), []

            def __getitem__(self, rows):
                self.reads.append(rows.start)
                return numpy.arange(rows.start, rows.stop, dtype="u8")

        places = [1 << 61, 5, (1 << 62) - 1, 5, 1 << 61]
        self.assertEqual(select(Long(), [Take(places)]).tolist(), places)
        self.assertEqual(Long.reads, [3, (1 << 61) // 3 * 3, ((1 << 62) - 1) // 3 * 3])
        found = select(Long(), [Take([7, None, 1 << 60])])
        self.assertEqual(found.tolist(), [7, None, 1 << 60])

    def test_chunks_of_dask_are_lists_of_lengths(self):
        array = numpy.arange(10)
        for lengths, chunk_len in ((4, 4, 2), 4), ((4, 6), 6), ((10,), 10), ((2, 4, 4), 4):
            source = Counting(array, (lengths,))
            found = select(source, [Take([9, 0, 5])])
            self.assertEqual(found.tolist(), [9, 0, 5])
            chunks = taken_chunks([9, 0, 5], chunk_len)
            self.assertEqual([start // chunk_len for start, _ in source.reads], chunks)

    def test_chunks_that_are_taken_whole_are_read_into_their_place(self):
        array = numpy.arange(40)
        source = Counting(array, (10,))
        mask = numpy.ones(40, bool)
        mask[[3, 35]] = False
        self.assertEqual(select(source, [Filter(mask)]).tolist(), array[mask].tolist())
        self.assertEqual(source.reads, [(0, 10), (10, 20), (20, 30), (30, 40)])

    def test_memory_is_the_output_a_chunk_and_16_bytes_a_pick(self):
        array = numpy.arange(400_000)
        source, dice = Counting(array, (10_000,)), numpy.random.default_rng(6)
        places, mask = dice.permutation(400_000)[:200_000], array % 2 == 1
        for steps, a_pick in (
            ([Take(places)], 16),
            ([Take(numpy.sort(places))], 16),
            ([Slice(0, 400_000), Take(places)], 16),
            ([Slice(1, 400_000), Filter(mask[1:])], 16),
            ([Filter(mask)], 0),
            ([Slice(100_000, 300_000)], 0),
        ):
            tracemalloc.start()
            self.assertEqual(len(select(source, steps)), 200_000)
            _, peak = tracemalloc.get_traced_memory()
            tracemalloc.stop()
            self.assertLess(peak, (8 + a_pick) * 200_000 + 8 * 10_000 + 100_000, steps)

    def test_the_result_is_masked_where_a_take_has_nulls(self):
        array = numpy.arange(4)
        for step, is_masked in (
            (Take([0, None]), True),
            (Take([0, 1]), False),
            (Take([]), False),
            (Take(column([0, None])), True),
            (Filter([True, None, False, False]), False),
        ):
            found = select(array, [step])
            self.assertEqual(isinstance(found, numpy.ma.MaskedArray), is_masked, step)
        found = select(array, [Take([3, None]), Take([0])])
        self.assertEqual((found.tolist(), found.mask.tolist()), ([3], [False]))

    def test_doctests(self):
        found = doctest.testmod(vortex_select.chunks)
        self.assertEqual((found.failed, found.attempted > 5), (0, True))


class Faults(unittest.TestCase):
    """What is refused, and what an error leaves."""

    def fails(self, kind, text, call, *given, **named):
        with self.assertRaises(kind) as caught:
            call(*given, **named)
        self.assertIn(text, str(caught.exception))
        return caught.exception

    def test_steps(self):
        source = Counting(numpy.arange(8), (3,))
        for steps, text in (
            ([Take([2, 9])], "step 0: OutOfBounds: index 9, but 8 rows"),
            ([Take([2, -5])], "step 0: OutOfBounds: index -5, but 8 rows"),
            ([Take(numpy.array([2, 8], "u1"))], "step 0: OutOfBounds: index 8, but 8 rows"),
            ([Take([None, 11, 12])], "step 0: OutOfBounds: index 11, but 8 rows"),
            ([Slice(2, 6), Take([3, 4])], "step 1: OutOfBounds: index 4, but 4 rows"),
            ([Slice(0, 8), Slice(3, 9)], "step 1: BadRange: slice 3..9, but 8 rows"),
            ([Slice(5, 3)], "step 0: BadRange: slice 5..3 starts after its end"),
            ([Filter([True] * 9)], "step 0: BadMask: mask of length 9, but 8 rows"),
            ([Take([1]), Filter([True] * 2)], "step 1: BadMask: mask of length 2, but 1 row"),
            ([Take(column([1.5]))], "step 0: InvalidIndices: expected integers as indices, got f64"),
        ):
            why = self.fails(BrokenStep, text, select, source, steps)
            self.assertEqual(str(why), text)
            self.assertEqual((why.step, why.cause), (int(text[5]), text.split()[2].rstrip(":")))
        self.fails(TypeError, "expected Slice, Filter or Take, got list", select, source, [[1]])
        self.assertEqual(source.reads, [])

    def test_sources(self):
        objects = numpy.array(["a", None], object)
        for source, text in (
            ([1, 2], "expected an object with shape, dtype and slices, got list"),
            (numpy.array(5), "expected at least 1 dimension, got 0"),
            (objects, "expected rows of a fixed width, got dtype object"),
            (numpy.zeros(2, [("a", object)]), "expected rows of a fixed width"),
            (numpy.ma.MaskedArray([1, 2], [0, 1]), "expected plain rows, got a masked array"),
        ):
            self.fails(TypeError, text, select, source, [])
            self.fails(TypeError, text, batches, source, [0], 1)

    def test_outputs(self):
        source = Counting(numpy.arange(12, dtype="<i4").reshape(6, 2), (4, 2))
        steps = [Take([5, 0, 3])]
        read_only = numpy.zeros((3, 2), "<i4")
        read_only.flags.writeable = False
        for out, text in (
            (numpy.zeros((2, 2), "<i4"), "expected shape (3, 2), got (2, 2)"),
            (numpy.zeros(3, "<i4"), "expected shape (3, 2), got (3,)"),
            (numpy.zeros((3, 2), ">i4"), "expected dtype"),
            (numpy.zeros((3, 2), "<i8"), "expected dtype"),
            (numpy.zeros((2, 3), "<i4").T, "contiguous in C's order"),
            (numpy.zeros((3, 4), "<i4")[:, ::2], "contiguous in C's order"),
            (read_only, "can be written"),
        ):
            self.fails(ValueError, text, select, source, steps, out=out)
        for out in [0, 0, 0], numpy.ma.MaskedArray(numpy.zeros((3, 2), "<i4")):
            self.fails(TypeError, "expected an array of numpy", select, source, steps, out=out)
        self.assertEqual(source.reads, [])
        array = numpy.arange(9)
        self.fails(ValueError, "memory of its own", select, array, [Slice(0, 3)], out=array[4:7])

    def test_other_arguments(self):
        array = numpy.arange(4)
        self.fails(ValueError, "threads: expected at least 1, got 0", select, array, [], threads=0)
        self.fails(TypeError, "progress: expected a function", select, array, [], progress="yes")
        self.fails(ValueError, "size: expected at least 1, got 0", batches, array, [1], 0)
        self.fails(ValueError, "ahead: expected at least 1", batches, array, [1], 1, ahead=-1)
        self.fails(BrokenStep, "OutOfBounds: index 4, but 4 rows", batches, array, [0, 4], 1)

    def test_a_read_that_fails_is_the_stores_error(self):
        def raises(_):
            raise OSError("disk on fire")

        rows = [7, 29, 0, 13]
        for threads in 1, 4:
            source = Counting(numpy.arange(30) + 100, (10,))
            source.fails = {10: raises}
            out = numpy.full(4, -1)
            steps = [Take(rows)]
            why = self.fails(OSError, "on fire", select, source, steps, out=out, threads=threads)
            self.assertEqual(why.__notes__, ["in chunk 1 of the source, rows 10 to 20"])
            if threads == 1:
                self.assertEqual(source.reads, [(0, 10), (10, 20)])
                self.assertEqual(out.tolist(), [107, -1, 100, -1])
            # Each row is as it was, or the row that was selected.
            for found, row in zip(out.tolist(), rows):
                self.assertIn(found, (-1, row + 100))

    def test_a_slice_that_fails_leaves_rows_of_the_source_alone(self):
        def raises(_):
            raise OSError("disk on fire")

        array = numpy.arange(1 << 20).reshape(-1, 4)
        source = Counting(array, (1 << 17, 4))
        source.fails = {1 << 17: raises}
        out = numpy.full(array.shape, -1)
        why = self.fails(OSError, "disk on fire", select, source, [Slice(0, len(array))], out=out)
        self.assertIn("in chunk 1 of the source", why.__notes__[0])
        self.assertTrue((out[: 1 << 17] == array[: 1 << 17]).all() and (out[1 << 17 :] == -1).all())

    def test_a_store_that_gives_other_rows(self):
        for how, kind, text in (
            (lambda rows: rows[:-1], ValueError, "chunk 1: expected 10 rows, got (9,)"),
            (lambda rows: rows[:0], ValueError, "chunk 1: expected 10 rows, got (0,)"),
            (lambda rows: [*rows, 7], ValueError, "chunk 1: expected 10 rows, got (11,)"),
            (lambda rows: rows[0], ValueError, "chunk 1: expected 10 rows, got ()"),
            (lambda rows: None, ValueError, "chunk 1: expected 10 rows, got ()"),
            (lambda rows: rows.astype("f4"), TypeError, "chunk 1: expected rows of int64"),
            (lambda rows: rows.astype(">i8"), TypeError, "chunk 1: expected rows of int64"),
            (lambda rows: rows.reshape(10, 1), TypeError, "chunk 1: expected rows of int64"),
            (lambda rows: numpy.ma.MaskedArray(rows), TypeError, "chunk 1: expected plain rows"),
        ):
            for step in Take([12, 29, 5]), Filter([True] * 30), Slice(10, 20):
                for out in None, numpy.zeros(step_count(step), int):
                    source = Counting(numpy.arange(30), (10,))
                    source.fails = {10: how}
                    why = self.fails(kind, text, select, source, [step], out=out)
                    notes = ["in chunk 1 of the source, rows 10 to 20"]
                    self.assertEqual(why.__notes__, notes)

    def test_a_store_that_changes_its_length(self):
        for length in 29, 31:
            source = Counting(numpy.arange(30), (10,))

            def changes(rows):
                source.shape = (length,)
                return rows

            source.fails = {20: changes}
            text = f"source: expected 30 rows as before, got {length}"
            why = self.fails(RuntimeError, text, select, source, [Take([25, 0])])
            self.assertEqual(why.__notes__, ["in chunk 2 of the source, rows 20 to 30"])

    def test_notes_are_in_the_traceback(self):
        source = Counting(numpy.arange(30), (10,))
        source.fails = {0: lambda rows: rows[:3]}
        with self.assertRaises(ValueError) as caught:
            select(source, [Take([1])])
        text = "".join(traceback.format_exception(None, caught.exception, None))
        if hasattr(ValueError, "add_note"):
            self.assertIn("\nin chunk 0 of the source, rows 0 to 10\n", text)


def step_count(step):
    return 10 if isinstance(step, Slice) else len(step)


class Terminal(io.StringIO):
    def isatty(self):
        return True


class Progress(unittest.TestCase):
    def test_a_function_is_told_how_many_rows_are_done(self):
        source, told = Counting(numpy.arange(30), (10,)), []
        steps, told_of = [Take([29, 0, 3, 12])], lambda *given: told.append(given)
        select(source, steps, progress=told_of)
        self.assertEqual(told, [(2, 4), (3, 4), (4, 4)])
        select(source, steps, threads=2, progress=told_of)
        self.assertEqual(told[-1], (4, 4))
        del told[:]
        select(source, [Take([])], progress=told_of)
        self.assertEqual(told, [])

    def test_an_error_of_the_function_is_handed_on(self):
        source = Counting(numpy.arange(30), (10,))

        def stops(done, count):
            raise KeyError(done)

        with self.assertRaises(KeyError):
            select(source, [Take([29, 0])], progress=stops)
        self.assertEqual(source.reads, [(0, 10)])
        for _ in range(20):
            with self.assertRaises(KeyError):
                select(source, [Take(range(30))], threads=3, progress=stops)
            self.assertEqual(threading.active_count(), 1)

    def test_a_bar_is_drawn_on_a_terminal_alone(self):
        source = Counting(numpy.arange(30), (10,))
        for stream, has_bar in (Terminal(), True), (io.StringIO(), False):
            with contextlib.redirect_stderr(stream):
                select(source, [Take([29, 0, 3, 12])], progress=True)
            full = f"\r[{'#' * 20}{'.' * 20}] 2 of 4 rows\r[{'#' * 30}{'.' * 10}] 3 of 4 rows"
            full += f"\r[{'#' * 40}] 4 of 4 rows\n"
            self.assertEqual(stream.getvalue(), full if has_bar else "")


class Batches(unittest.TestCase):
    def test_batches_are_the_rows_at_the_indices(self):
        dice = random.Random(3)
        array = made((50, 3), "<f4", dice)
        for count in 0, 1, 7, 40, 50:
            rows = numpy.array(dice.choices(range(50), k=count), int)
            for size, ahead in (1, None), (7, None), (7, 1), (7, 3), (100, 2):
                source = Counting(array, (8, 3))
                found = list(batches(source, rows, size, ahead=ahead, threads=dice.choice((1, 2))))
                self.assertEqual([len(each) for each in found], lengths(count, size))
                for start, each in zip(range(0, count, size), found):
                    same(each, array, rows[start : start + size], self)
                reads = -(-count // (size * ahead)) if ahead else min(count, 1)
                self.assertLessEqual(len(source.reads), reads * 7)

    def test_chunks_are_read_once_for_all_batches_that_are_ahead(self):
        source = Counting(numpy.arange(50), (8,))
        rows = numpy.random.default_rng(4).permutation(50)
        self.assertEqual(numpy.concatenate(list(batches(source, rows, 6))).tolist(), rows.tolist())
        self.assertEqual(source.reads, [(k, min(50, k + 8)) for k in range(0, 50, 8)])

    def test_nulls(self):
        found = list(batches(numpy.arange(9), [8, None, 1, 2, None], 2, ahead=1))
        self.assertEqual([each.tolist() for each in found], [[8, None], [1, 2], [None]])
        self.assertTrue(all(isinstance(each, numpy.ma.MaskedArray) for each in found))

    def test_nothing_is_read_before_the_first_batch_is_asked_for(self):
        source = Counting(numpy.arange(50), (8,))
        found = batches(source, [3, 4], 1)
        self.assertEqual(source.reads, [])
        self.assertEqual(next(found).tolist(), [3])


def lengths(count, size):
    return [min(size, count - start) for start in range(0, count, size)]


def has(name):
    try:
        importlib.import_module(name)
    except ImportError:
        return False
    return True


class Stores(unittest.TestCase):
    """Stores of a folder that is removed; what a store is, its subclass says."""

    types = PLAIN_TYPES

    def setUp(self):
        if type(self) is Stores:
            self.skipTest("this is the part that all stores have")
        folder = tempfile.TemporaryDirectory()
        self.addCleanup(folder.cleanup)
        self.folder, self.stores = folder.name, 0

    def path(self):
        self.stores += 1
        return os.path.join(self.folder, f"store{self.stores}")

    def store(self, array, chunks, how):
        """Return a store of an array's rows, and how many rows a chunk of it has."""
        raise NotImplementedError

    def test_random_steps(self):
        for seed in range(LISTS // 3):
            with self.subTest(seed=seed):
                dice = random.Random(seed)
                inner = dice.choice([(), (), (3,), (2, 5)])
                array = made((dice.choice((0, 1, 60, 200)), *inner), dice.choice(self.types), dice)
                chunks = tuple(dice.choice((1, 2, 7, 60, 70)) for _ in array.shape)
                self.compare(array, self.store(array, chunks, seed), dice)

    def compare(self, array, source, dice):
        for _ in range(3):
            steps, rows = random_steps(dice, len(array))
            same(select(source, steps, threads=dice.choice((1, 2))), array, rows, self)
        rows = numpy.array(dice.choices(range(len(array)), k=20 if len(array) else 0), int)
        for start, found in zip(range(0, 20, 6), batches(source, rows, 6)):
            same(found, array, rows[start : start + 6], self)
        out = numpy.zeros((len(rows), *array.shape[1:]), array.dtype)
        same(select(source, [Take(rows)], out=out), array, rows, self)


@unittest.skipUnless(has("h5py"), "there is no h5py")
class Hdf5(Stores):
    types = [*PLAIN_TYPES, "<f2", "V3", [("id", "<i4"), ("at", ">f8")]]

    def store(self, array, chunks, how):
        import h5py

        file = h5py.File(self.path(), "w")
        self.addCleanup(file.close)
        sizes = [max(1, size) for size in array.shape]
        chunks = tuple(map(min, chunks, sizes)) if how % 4 else None
        packed = (None, None, "gzip", "lzf")[how % 4]
        rest = (None, *array.shape[1:]) if chunks else None
        how = {"chunks": chunks, "compression": packed, "maxshape": rest}
        return file.create_dataset("rows", data=array, **how)

    def test_array_types_are_rows(self):
        import h5py

        with h5py.File(self.path(), "w") as file:
            source = file.create_dataset("rows", (4,), numpy.dtype(("<i4", (3,))), chunks=(2,))
            source[...] = array = numpy.arange(12, dtype="<i4").reshape(4, 3)
            for steps, rows in ([Take([3, 0])], [3, 0]), ([Slice(1, 3)], [1, 2]):
                same(select(source, steps), array, numpy.array(rows), self)

    def test_texts_of_any_length_are_refused(self):
        import h5py

        with h5py.File(self.path(), "w") as file:
            source = file.create_dataset("rows", data=["a", "bc"])
            with self.assertRaisesRegex(TypeError, "expected rows of a fixed width"):
                select(source, [Take([1])])

    def test_a_damaged_chunk_is_the_stores_error(self):
        import h5py

        path, array = self.path(), numpy.arange(4000)
        with h5py.File(path, "w") as file:
            source = file.create_dataset("rows", data=array, chunks=(1000,), fletcher32=True)
            place = source.id.get_chunk_info(2).byte_offset
        with open(path, "r+b") as file:
            file.seek(place + 40)
            file.write(b"\xff" * 40)
        with h5py.File(path, "r") as file:
            self.assertEqual(select(file["rows"], [Take([3999, 5])]).tolist(), [3999, 5])
            out = numpy.full(3, -1)
            with self.assertRaises(OSError) as caught:
                select(file["rows"], [Take([3999, 2500, 5])], out=out)
            notes = caught.exception.__notes__
            self.assertEqual(notes, ["in chunk 2 of the source, rows 2000 to 3000"])
            self.assertEqual(out.tolist(), [-1, -1, 5])

    def test_a_dataset_that_grows_is_an_error(self):
        import h5py

        with h5py.File(self.path(), "w") as file:
            array, rest = numpy.arange(30), {"chunks": (10,), "maxshape": (None,)}
            source = file.create_dataset("rows", data=array, **rest)
            with self.assertRaisesRegex(RuntimeError, "expected 30 rows as before, got 40"):
                select(source, [Take([25, 0])], progress=lambda *_: source.resize((40,)))


@unittest.skipUnless(has("zarr"), "there is no zarr")
class Zarr(Stores):
    types = [*PLAIN_TYPES, "<M8[s]", "<U3", [("id", "<i4"), ("at", ">f8")]]

    def store(self, array, chunks, how):
        import zarr

        store = zarr.MemoryStore() if how % 2 else zarr.DirectoryStore(self.path())
        packed = {} if how % 3 else {"compressor": None}
        packed.update(shape=array.shape, dtype=array.dtype, chunks=chunks, fill_value=None)
        source = zarr.open(store, "w", **packed)
        source[...] = array
        return source

    def test_objects_are_refused(self):
        import numcodecs
        import zarr

        source = zarr.array(["a", "bc"], dtype=object, object_codec=numcodecs.VLenUTF8())
        with self.assertRaisesRegex(TypeError, "expected rows of a fixed width"):
            select(source, [Take([1])])

    def test_each_chunk_is_read_once(self):
        import zarr

        class Reads(dict):
            def __getitem__(self, key):
                reads.append(key)
                return super().__getitem__(key)

        reads, store = [], Reads()
        source = zarr.create(100, chunks=8, dtype="i4", store=store)
        source[:] = numpy.arange(100)
        for steps in [Take([99, 3, 40, 3, 96])], [Filter(numpy.arange(100) % 40 == 3)]:
            del reads[:]
            rows = select(source, steps)
            chunks = [key for key in reads if key[0] != "."]
            self.assertEqual(chunks, [str(k) for k in taken_chunks(rows, 8)])


@unittest.skipUnless(has("tables"), "there is no PyTables")
class PyTables(Stores):
    types = ["?", "i1", "<i2", "<u4", "<i8", "<f4", "<f8", "S5"]

    def store(self, array, chunks, how):
        import tables

        file = tables.open_file(self.path(), "w")
        self.addCleanup(file.close)
        atom = tables.Atom.from_dtype(array.dtype)
        if how % 3 == 0 or not array.size:
            source = file.create_earray("/", "rows", atom, (0, *array.shape[1:]), chunkshape=chunks)
            source.append(array)
            return source
        if how % 3 == 1:
            return file.create_array("/", "rows", array)
        filters = tables.Filters(complevel=1, complib="zlib")
        return file.create_carray("/", "rows", obj=array, chunkshape=chunks, filters=filters)

    def test_tables_have_records_as_rows(self):
        import tables

        array = numpy.zeros(50, [("id", "<i4"), ("at", "<f8")])
        array["id"] = range(50)
        with tables.open_file(self.path(), "w") as file:
            source = file.create_table("/", "rows", array, chunkshape=8)
            found = select(source, [Take([49, None, 3])])
            same(found, array, numpy.array([49, -1, 3]), self)

    def test_an_array_may_grow_by_another_dimension(self):
        import tables

        array = numpy.arange(80).reshape(20, 4)
        with tables.open_file(self.path(), "w") as file:
            source = file.create_earray("/", "rows", tables.Int64Atom(), (20, 0), chunkshape=(8, 2))
            source.append(array)
            for steps, rows in ([Take([19, 0])], [19, 0]), ([Slice(3, 9)], range(3, 9)):
                same(select(source, steps), array, numpy.array(rows), self)

    def test_numbers_of_the_other_byte_order(self):
        import tables

        array = numpy.arange(40, dtype=">i4")
        with tables.open_file(self.path(), "w") as file:
            source = file.create_carray("/", "rows", obj=array, chunkshape=(8,), byteorder="big")
            self.assertEqual(source.byteorder, "big")
            found = select(source, [Take([39, 0])])
            self.assertEqual((found.tolist(), found.dtype), ([39, 0], source.dtype))
            self.assertEqual(select(source, [Slice(3, 6)]).tolist(), [3, 4, 5])

    def test_lists_are_refused(self):
        import tables

        with tables.open_file(self.path(), "w") as file:
            source = file.create_vlarray("/", "rows", tables.Int32Atom())
            source.append([1, 2])
            source.append([3])
            with self.assertRaises((TypeError, ValueError)):
                select(source, [Take([1])])


@unittest.skipUnless(has("xarray"), "there is no xarray")
class Xarray(Stores):
    def store(self, array, chunks, how):
        import xarray

        return xarray.DataArray(array)


if __name__ == "__main__":
    unittest.main()
