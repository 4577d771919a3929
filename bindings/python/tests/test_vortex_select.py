"""Compares the module with plain loops on random input, and runs the examples of its docs."""

import builtins
import contextlib
import ctypes
import doctest
import inspect
import io
import os
import pathlib
import random
import re
import sys
import threading
import types
import unittest
import warnings
from array import array

import vortex_select
from arrow_model import random_bytes
from vortex_select import _buffers, _plans, _steps, _types, columns, kernels, parts, program

CALLS = int(os.environ.get("VORTEX_CALLS", "3000"))


def bits_of(rows):
    bits = bytearray((len(rows) + 7) // 8)
    for k, row in enumerate(rows):
        bits[k // 8] |= row << k % 8
    return bytes(bits)


def items_of(data, width):
    return [bytes(data[i : i + width]) for i in range(0, len(data), width)]


def random_input(dice, width):
    data = random_bytes(dice, width * dice.choice([0, 1, 63, 64, 65, dice.randrange(400)]))
    given = dice.choice([bytes, bytearray, memoryview, lambda d: memoryview(b"x" + d)[1:]])(data)
    return given, items_of(data, width)


def bools_of(rows):
    return memoryview(bytes(rows)).cast("?")


class Random(unittest.TestCase):
    def setUp(self):
        self.dice = random.Random(20)

    def mask_of(self, rows):
        """The mask of these rows, in one of the forms there are."""
        at = self.dice.randrange(70)
        placed = bits_of([True] * at + rows + [True] * self.dice.randrange(9))
        forms = bits_of(rows), bools_of(rows), rows, vortex_select.Bits(placed, len(rows), at)
        return self.dice.choice(forms)

    def indices_of(self, indices):
        """A list of these indices, in one of the forms there are."""
        most = max([*indices, 0])
        kinds = [kind for kind in "bBhHiIlLqQ" if most < 2 ** (8 * array(kind).itemsize - kind.islower())]
        kind = self.dice.choice(kinds)
        forms = indices, tuple(indices), iter(indices), array(kind, indices)
        return self.dice.choice([*forms, memoryview(array(kind, indices))])

    def test_filter(self):
        for _ in range(CALLS):
            width = self.dice.choice([1, 2, 4, 8, 16, 32])
            values, items = random_input(self.dice, width)
            rows = [self.dice.random() < 0.5 for _ in items]
            kept = [item for item, row in zip(items, rows) if row]
            answer = kernels.filter(values, self.mask_of(rows), width)
            self.assertEqual(items_of(answer, width), kept)
            values = bytearray(values)
            count = kernels.filter_in_place(values, self.mask_of(rows), width)
            self.assertEqual(items_of(values, width)[:count], kept)

    def test_take(self):
        for _ in range(CALLS):
            width = self.dice.choice([1, 2, 4, 8, 16, 32])
            values, items = random_input(self.dice, width)
            indices = [self.dice.randrange(len(items) + 1) for _ in range(self.dice.randrange(9))]
            there = [self.dice.random() < 0.7 for _ in indices]
            first = [k for k, i in enumerate(indices) if there[k] and i >= len(items)]
            if first:
                with self.assertRaisesRegex(IndexError, f"at place {first[0]}, but"):
                    kernels.take(values, self.indices_of(indices), self.mask_of(there), width)
                continue
            taken = [items[i] if t else bytes(width) for i, t in zip(indices, there)]
            listed, valid = self.indices_of(indices), self.mask_of(there)
            answer = kernels.take(values, listed, valid, width)
            self.assertEqual(items_of(answer, width), taken)

    def test_blocks(self):
        """Lists of indices around the sizes at which they are copied block by block."""
        block, values = 1 << 17, array("I", range(251))
        bits = [i % 3 == 0 for i in values]
        for count in (block - 1, block, block + 1, 2 * block + 65):
            indices = [i * 7919 % 251 for i in range(count)]
            there = [i % 5 != 0 for i in range(count)]
            listed = array(self.dice.choice("BHIQhiq"), indices)
            taken = kernels.take(values, listed, there).tolist()
            self.assertEqual(taken, [t * i for i, t in zip(indices, there)])
            taken = kernels.take_bits(bools_of(bits), len(bits), listed, there)
            self.assertEqual(bytes(taken), bits_of([t and bits[i] for i, t in zip(indices, there)]))
            for place in (0, count - 1, min(block, count - 1)):
                wrong = indices[:place] + [len(values)] + indices[place + 1 :]
                with self.assertRaisesRegex(IndexError, f"at place {place}, but"):
                    kernels.take(values, wrong)
                with self.assertRaisesRegex(IndexError, f"at place {place}, but"):
                    kernels.take_bits(bools_of(bits), len(bits), wrong)

    def placed(self, rows):
        at = self.dice.randrange(130)
        before = [self.dice.random() < 0.5 for _ in range(at)]
        return bits_of(before + rows + [True] * self.dice.randrange(9)), at

    def test_bits(self):
        for _ in range(CALLS):
            src = [self.dice.random() < 0.5 for _ in range(self.dice.randrange(300))]
            rows = [self.dice.random() < 0.7 for _ in src]
            (bits, at), (mask, mask_at) = self.placed(src), self.placed(rows)
            kept = [bit for bit, row in zip(src, rows) if row]
            answer = kernels.filter_bits(bits, mask, len(src), at, mask_at)
            self.assertEqual((bytes(answer[0]), answer[1]), (bits_of(kept), len(kept)))
            indices = [self.dice.randrange(len(src) + 1) for _ in range(self.dice.randrange(90))]
            there = [i < len(src) and self.dice.random() < 0.8 for i in indices]
            taken = [t and src[i] for i, t in zip(indices, there)]
            answer = kernels.take_bits(bits, len(src), indices, bits_of(there), at)
            self.assertEqual(bytes(answer), bits_of(taken))

    def test_positions(self):
        for _ in range(CALLS):
            rows = [self.dice.random() < 0.3 for _ in range(self.dice.randrange(300))]
            found = kernels.positions(self.mask_of(rows), len(rows))
            selected = [k for k, row in enumerate(rows) if row]
            self.assertEqual(found.tolist(), selected)
            covered = [k for a, b in kernels.runs(bits_of(rows), len(rows)) for k in range(a, b)]
            self.assertEqual(covered, selected)
            starts = [k for k in selected if k == 0 or not rows[k - 1]]
            runs = kernels.runs(bits_of(rows), len(rows))
            self.assertEqual([a for a, _ in runs], starts)
            p = self.dice.randrange(len(rows) + 1)
            count = kernels.count_before(bits_of(rows), len(rows), p)
            self.assertEqual(count, sum(rows[:p]))
            if selected:
                k = self.dice.randrange(len(selected))
                self.assertEqual(kernels.rank(bits_of(rows), len(rows), k), selected[k])
            with self.assertRaises(IndexError):
                kernels.rank(bits_of(rows), len(rows), len(selected))


class Refused(unittest.TestCase):
    def test_masks(self):
        for mask in b"", b"\x00\x00":
            with self.assertRaises(ValueError):
                kernels.filter(b"abcd", mask)
        with self.assertRaisesRegex(ValueError, "expected clear bits after the 4 rows"):
            kernels.filter(b"abcd", b"\x10")

    def test_bits(self):
        with self.assertRaises(ValueError):
            kernels.filter_bits(b"\x01", b"\xff\xff", 4, bits_at=5)
        with self.assertRaisesRegex(IndexError, "at place 1, but"):
            kernels.take_bits(b"\xff", 7, [6, 7])

    def test_widths(self):
        for width in 0, 3, 64:
            with self.assertRaises(ValueError):
                kernels.filter(b"abcd", b"\x00", width)
        with self.assertRaises(ValueError):
            kernels.filter(b"abc", b"\x00", 2)

    def test_answers_keep_the_type(self):
        for kind in "bBhHiIlLqQfd":
            answer = kernels.filter(array(kind, [1, 2, 3]), b"\x06")
            self.assertEqual((answer.format, answer.tolist()), (kind, [2, 3]))
            answer = kernels.take(array(kind, [1, 2, 3]), [2], [False])
            self.assertEqual((answer.format, answer.tolist()), (kind, [0]))
        longs = (ctypes.c_int * 3)(1, -2, 3)
        self.assertEqual(kernels.filter(longs, b"\x06").tolist(), [-2, 3])

    def test_ctypes_records(self):
        """Their formats don't tell all bytes: a bit field or a union may hide an object."""
        for records in (Pair * 2)(Pair(1, 2), Pair(3, 4)), Pair(), (Pair * 2 * 1)(), (Either * 2)(), Hidden():
            for call in kernels.filter, kernels.filter_in_place:
                with self.assertRaises(TypeError):
                    call(records, b"\x02")


class Pair(ctypes.Structure):
    _fields_ = [("a", ctypes.c_int), ("b", ctypes.c_int)]


class Hidden(ctypes.Structure):
    """Two words of which the first may be an object behind bit fields."""

    _fields_ = [("low", ctypes.c_uint64, 32), ("high", ctypes.c_uint64, 32), ("b", ctypes.c_uint64)]


class Swapped(ctypes.BigEndianStructure):
    _fields_ = [("a", ctypes.c_uint64)]


class Owning(ctypes.Structure):
    _fields_ = [("a", ctypes.py_object), ("b", ctypes.c_uint64)]


class Either(ctypes.Union):
    _fields_ = [("a", ctypes.py_object), ("b", ctypes.c_uint64)]


class MaskedArray(bytearray):
    """A stand-in of numpy's, which hands out its data and leaves out its mask."""


class Hostile(unittest.TestCase):
    """What an answer in silence would be wrong of, or what would break memory."""

    def refused(self, kind, call, *given):
        with self.assertRaises(kind):
            call(*given)

    def test_items_with_references(self):
        objects = [(t * 2)() for t in (ctypes.py_object, Owning, Either, ctypes.c_char_p)]
        objects += [(ctypes.POINTER(ctypes.c_int) * 2)(), (ctypes.CFUNCTYPE(None) * 2)()]
        objects += [(ctypes.c_void_p * 2)(), (ctypes.c_wchar_p * 2)()]
        for values in objects:
            for call in kernels.filter, kernels.filter_in_place:
                self.refused(TypeError, call, values, b"\x01")
            self.refused(TypeError, kernels.take, values, [0])
            self.refused(TypeError, kernels.take, b"ab", values)

    def test_indices_of_another_type(self):
        values = array("Q", range(9))
        eights = [array("d", [1.0]), (ctypes.c_double * 1)(), (ctypes.c_char * 8)()]
        eights += [bools_of([True, False]), memoryview(bytes(16)).cast("B", (2, 8))]
        eights += ["1", b"1".decode(), [1.0], ["1"], [None], [True], 1, None, vortex_select.Bits(b"a", 8)]
        for indices in eights:
            self.refused(TypeError, kernels.take, values, indices)
            self.refused(TypeError, kernels.take_bits, b"\xff", 8, indices)

    def test_bytes_are_indices_of_a_byte(self):
        self.assertEqual(bytes(kernels.take(b"abcdefghi", bytes(8))), b"aaaaaaaa")
        self.assertEqual(bytes(kernels.take(b"abcdefghi", bytearray([8, 0]))), b"ia")

    def test_indices_out_of_bounds(self):
        for index in -1, 3, 2**31, 2**32, 2**63, 2**64 - 1, 2**64, 2**64 + 1, -(2**64), 10**40:
            with self.assertRaisesRegex(IndexError, "at place 1, but"):
                kernels.take(b"abc", [0, index])
            with self.assertRaisesRegex(IndexError, "at place 1, but"):
                kernels.take_bits(b"\xff", 3, [0, index])
            taken = kernels.take(b"abc", [2, index], valid=[True, False])
            self.assertEqual(bytes(taken), b"c\0")
        for kind in "bhilq":
            with self.assertRaisesRegex(IndexError, "at place 1, but"):
                kernels.take(bytes(70000), array(kind, [0, -1]))

    def test_numbers_past_64_bits(self):
        for number in 2**64, 2**64 + 1, -1, 2**65 + 2:
            self.refused(IndexError, kernels.rank, b"\x0f", 4, number)
            self.refused(IndexError, kernels.count_before, b"\x0f", 4, number)
            self.refused(ValueError, kernels.positions, b"\x0f", number + 4)
            self.refused(ValueError, kernels.filter_bits, b"\x0f", b"\x0f", 4, number)
            self.refused(ValueError, kernels.filter_bits, b"\x0f", b"\x0f", number)
            self.refused(ValueError, kernels.take_bits, b"\x0f", number, [0])
            self.refused(ValueError, vortex_select.Bits, b"a", number)
            self.refused(ValueError, kernels.filter, b"abcd", b"\x0f", number)
        for number in 1.0, "1", None:
            self.refused(TypeError, kernels.rank, b"\x0f", 4, number)

    def test_masks_of_another_type(self):
        masks = [2, [1, 0, 1], [True, 0, True], ["a"], "abc", None, {True}, array("I", [1]), [2, 2, 2]]
        masks += [array("b", [1]), array("d", [1.0]), iter([True, False, True])]
        for mask in masks:
            self.refused(TypeError, kernels.filter, b"abc", mask)
            if mask is not None:
                self.refused(TypeError, kernels.take, b"abc", [0, 1, 2], mask)
            self.refused(TypeError, kernels.positions, mask, 3)
        for mask in [True], bools_of([True] * 4), vortex_select.Bits(b"\xff", 4):
            self.refused(ValueError, kernels.filter, b"abc", mask)
        kept = kernels.filter(b"abc", [True, False, True])
        self.assertEqual(bytes(kept), b"ac")

    def test_masked_arrays(self):
        module = types.ModuleType("numpy.ma")
        module.MaskedArray = MaskedArray
        sys.modules["numpy.ma"] = module
        self.addCleanup(sys.modules.pop, "numpy.ma")
        masked = MaskedArray(b"\1\0\1")
        self.refused(TypeError, kernels.filter, masked, [True] * 3)
        self.refused(TypeError, kernels.filter_in_place, masked, [True] * 3)
        self.refused(TypeError, kernels.take, b"abc", masked)
        self.refused(TypeError, kernels.filter, bytes(24), masked)

    def test_memory_that_is_no_list(self):
        self.refused(BufferError, kernels.filter_in_place, b"abc", [True] * 3)
        self.refused(BufferError, kernels.filter_in_place, memoryview(b"abc"), [True] * 3)
        self.refused(BufferError, kernels.filter, memoryview(b"abcdef")[::2], [True] * 3)
        self.refused(BufferError, kernels.filter_in_place, memoryview(bytearray(6))[::2], [True] * 3)
        self.refused(TypeError, kernels.filter, memoryview(bytes(4)).cast("B", (2, 2)), [True] * 4)
        self.refused(ValueError, kernels.filter, array("I", [1, 2]), [True], 8)
        odd = memoryview(bytearray(9))[1:]
        self.refused(ValueError, kernels.filter_in_place, odd, [True], 8)
        strided = memoryview(array("Q", [0, 1, 2, 3]))[::-2]
        self.assertEqual(bytes(kernels.take(b"abcd", strided)), b"db")

    def test_lists_that_overlap(self):
        memory = bytearray(b"\x03abcdefg")
        self.assertEqual(kernels.filter_in_place(memory, memoryview(memory)[:1]), 2)
        self.assertEqual(memory[:2], b"\x03a")
        memory = array("Q", [2, 0, 1])
        self.assertEqual(kernels.take(memory, memory).tolist(), [1, 2, 0])

    def test_lists_without_items(self):
        self.assertEqual(bytes(kernels.filter(b"", b"")), b"")
        self.assertEqual(bytes(kernels.filter(array("d"), [])), b"")
        self.assertEqual(kernels.filter_in_place(bytearray(), b""), 0)
        self.assertEqual(bytes(kernels.take(b"", [])), b"")
        self.refused(IndexError, kernels.take, b"", [0])
        self.assertEqual(kernels.positions(b"", 0).tolist(), [])
        self.assertEqual(kernels.runs([], 0), [])
        self.assertEqual(kernels.filter_bits(b"", b"", 0), (b"", 0))

    def test_a_thread_that_writes_the_indices(self):
        values, indices = bytes(1000), array("Q", bytes(8 * 100_000))
        is_done = threading.Event()

        def write():
            while not is_done.is_set():
                for index in 2**63, 0:
                    indices[5000] = indices[99_999] = index

        writer = threading.Thread(target=write)
        writer.start()
        try:
            for _ in range(50):
                for call in (kernels.take, values, indices), (kernels.take_bits, values, 8000, indices):
                    try:
                        call[0](*call[1:])
                    except IndexError as fault:
                        self.assertRegex(str(fault), "^index [0-9]+ at place (5000|99999), but (1000|8000) items$")
        finally:
            is_done.set()
            writer.join()


class Made(unittest.TestCase):
    def test_names(self):
        for name in vortex_select.__all__:
            self.assertTrue(getattr(vortex_select, name).__doc__, name)

    def test_version(self):
        parts = vortex_select.__version__.split(".")
        version = sum(int(part) * 1000 ** (2 - k) for k, part in enumerate(parts))
        self.assertEqual(vortex_select._native.version(), version)
        root = pathlib.Path(__file__).resolve().parents[2]
        crates = "rust/vortex-select/Cargo.toml", "rust/vortex-select-sys/Cargo.toml"
        for file in ("python/pyproject.toml", *crates):
            self.assertIn(f'\nversion = "{vortex_select.__version__}"\n', (root / file).read_text())


EXAMPLES = pathlib.Path(__file__).resolve().parents[3] / "examples"
HAS_PROGRAM = vortex_select._native.HAS_PROGRAM


@unittest.skipUnless(HAS_PROGRAM, "the library of the program isn't linked")
class Program(unittest.TestCase):
    def held(self, example, kind, other):
        held = example.with_suffix(kind)
        return held.read_bytes() if held.exists() else other

    def test_examples(self):
        documents = EXAMPLES.glob("*.json")
        examples = [path for path in documents if not path.with_suffix(".to").exists()]
        self.assertGreater(len(examples), 90)
        for example in examples:
            words = self.held(example, ".words", b"rows").decode("utf-8", "surrogateescape").split()
            if any("\udcff" in word for word in words):
                continue  # no text: the C check has such words
            status = int(self.held(example, ".status", b"0"))
            answer = program.run(words, example.read_bytes())
            self.assertEqual(answer, (status, self.held(example, ".out", b"")), example)

    def test_hostile(self):
        for document in b"", b"\xff", b"[" * 100_000, b" " * 16_777_216:
            self.assertEqual(program.rows(document), (2, b""))
        self.assertEqual(program.rows(bytearray(16_777_217)), (7, b""))
        for words in [], [""], ["rows", ""], ["rows\0"], ["made", "4294967296"], ["p\u00e4ge"]:
            self.assertEqual(program.run(words, b"{}"), (3, b""))
        self.assertEqual(program.made(7), program.run(["made", "7"]))
        self.assertEqual(program.file(memoryview(b"{}")).status, 2)
        self.assertEqual(program.page(0, 1, b"{}").status, 2)


class Names(unittest.TestCase):
    """What the package has under which name."""

    # The names that moved, by the modules that have them now.
    MOVED = {
        kernels: "count_before filter filter_bits filter_in_place positions rank runs take take_bits",
        program: "Answer file made page rows run",
    }

    def test_star(self):
        """`import *` shadows no builtin, and has each name of the package."""
        found = {}
        exec("from vortex_select import *", found)
        del found["__builtins__"]
        self.assertEqual(set(found) & set(vars(builtins)), set())
        self.assertEqual(
            sorted(found),
            ["Bits", "BrokenStep", "Column", "Filter", "FilterEach", "Plan", "Slice", "Take", "check",
             "column", "from_buffers", "kernels", "plan", "program", "put_together", "select"],
        )

    def test_old_names(self):
        """The old names are the same functions, and warn of their new names."""
        for module, names in self.MOVED.items():
            self.assertEqual(sorted(module.__all__), names.split())
            for name in names.split():
                with self.assertWarns(DeprecationWarning) as why:
                    found = getattr(vortex_select, name)
                self.assertIs(found, getattr(module, name))
                new = f"{module.__name__}.{name}"
                said = f"vortex_select.{name} is deprecated: use {new}"
                self.assertEqual((str(why.warning), why.filename), (said, __file__))

    def test_no_name(self):
        with self.assertRaisesRegex(AttributeError, "'vortex_select' has no attribute 'sort'"):
            vortex_select.sort
        with warnings.catch_warnings():
            warnings.simplefilter("error")
            self.assertIs(vortex_select.kernels.filter, kernels.filter)

    def test_docstrings(self):
        """Each public function and class has a docstring, and each argument of it a line there."""
        for module in (columns, kernels, parts, program, _plans, _steps, _buffers):
            for name in getattr(module, "__all__", vortex_select.__all__):
                found = getattr(module, name, None)
                if not isinstance(found, types.FunctionType) or found.__module__ != module.__name__:
                    continue
                for argument in inspect.signature(found).parameters:
                    said = f"{argument}: "
                    is_told = said in (found.__doc__ or "") or "other arguments" in found.__doc__
                    self.assertTrue(is_told, f"{module.__name__}.{name}: {argument}")

    def test_readme(self):
        """The program of the package's page prints what is below it."""
        page = pathlib.Path(__file__).parent.parent / "README.md"
        form = r"```python\n([\s\S]*?)```\n\n((?:    .*\n)+)"
        given, below = re.search(form, page.read_text()).groups()
        with contextlib.redirect_stdout(io.StringIO()) as printed:
            exec(given, {})
        self.assertEqual(printed.getvalue(), re.sub("(?m)^    ", "", below))

    def test_example(self):
        path = pathlib.Path(__file__).parent.parent / "examples" / "people.py"
        with contextlib.redirect_stdout(io.StringIO()) as printed:
            exec(path.read_text(), {})
        wanted = "['ann', None]\nstep 0: OutOfBounds: index 9, but 2 rows\n"
        self.assertEqual(printed.getvalue(), wanted)


# Modules whose examples are run, and those that need the program.
EXAMPLES = vortex_select, columns, kernels, parts, _buffers, _plans, _steps, _types
GLOBALS = {"column": columns.column, "select": columns.select}


def load_tests(_loader, tests, _pattern):
    for module in (*EXAMPLES, program) if HAS_PROGRAM else EXAMPLES:
        tests.addTests(doctest.DocTestSuite(module, extraglobs=GLOBALS))
    return tests


if __name__ == "__main__":
    unittest.main()
