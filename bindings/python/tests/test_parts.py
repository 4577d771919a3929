"""Compares parts, planned and put together, with selection over the whole column."""

import os
import pickle
import random
import signal
import tempfile
import time
import unittest
from array import array

import producer
import vortex_select.parts
from arrow_model import Layout, after, random_row, random_steps, random_type, wrapped
from vortex_select import BrokenStep, Filter, FilterEach, Slice, Take
from vortex_select import _joining, column, from_buffers, plan, put_together, select
from vortex_select._arrays import Plain, field_of_type
from vortex_select._building import built
from vortex_select._sources import chosen, column_of, source_of
from vortex_select._types import Type, type_of
from vortex_select.columns import column_over
from vortex_select.parts import DamagedPart, LostPart, Processes
from vortex_select.parts import load, read_column, select_parts, write_column, write_parts

PLANS = int(os.environ.get("VORTEX_PLANS", "2000"))
PARTS = [[5, None, 7], [], [8], [9, 10, None, 12]]
LENGTHS = [3, 0, 1, 4]


def file_column(count, is_large=False):
    """A column of one list of so many nulls."""
    letter, form = ("q", "+L") if is_large else ("i", "+l")
    of = field_of_type(Type(form, (("item", Type("n")),)))
    items = Plain(count, count, ())
    return column_of(of, Plain(1, 0, (None, array(letter, [0, count]).tobytes()), (items,)))


def answers(asked, parts):
    """What the parts return by a plan."""
    return [select(part, asked.steps_of(k)) for k, part in enumerate(parts)]


def flags_of(column):
    return source_of(column).field.flags


class Random(unittest.TestCase):
    def cut(self, dice, of):
        """Rows, and columns of parts that they are cut into."""
        lengths = [dice.choice([0, 1, dice.randrange(12)]) for _ in range(dice.randrange(1, 8))]
        rows = [random_row(dice, of) for _ in range(sum(lengths))]
        parts, at = [], 0
        for length in lengths:
            parts.append(wrapped(of, Layout(dice).array(of, rows[at : at + length])))
            at += length
        return rows, lengths, parts

    def answered(self, dice, asked, parts):
        """The parts' answers, some of which came from another process."""
        for k, part in enumerate(parts):
            steps = asked.steps_of(k)
            if dice.random() < 0.3:
                part, steps = pickle.loads(pickle.dumps((part, steps)))
            answer = select(part, steps)
            self.assertEqual(len(answer), asked.len_of(k))
            yield pickle.loads(pickle.dumps(answer)) if dice.random() < 0.3 else answer

    def agrees(self, seed, counts):
        dice = random.Random(seed)
        of = random_type(dice, dice.randrange(4))
        rows, lengths, parts = self.cut(dice, of)
        steps, said = random_steps(dice, len(rows))
        whole = wrapped(of, Layout(dice).array(of, rows))
        try:
            wanted, broken = select(whole, steps), None
        except BrokenStep as why:
            broken = why.step, why.cause
        except ValueError as why:
            self.assertIn("expected no null of a union, got one", str(why), seed)
            counts["refused"] += 1
            return
        try:
            asked = plan(lengths, steps)
        except BrokenStep as why:
            self.assertEqual((why.step, why.cause), broken, seed)
            counts["broken"] += 1
            return
        self.assertIsNone(broken, seed)
        self.assertEqual(wanted.to_pylist(), after(rows, said)[0], seed)
        try:
            found = put_together(asked, list(self.answered(dice, asked, parts)))
        except ValueError as why:
            self.assertIn("different dictionaries", str(why), seed)
            counts["refused"] += 1
            return
        self.assertEqual(found.type, wanted.type, seed)
        self.assertEqual(flags_of(found), flags_of(wanted), seed)
        self.assertEqual(found.to_pylist(), wanted.to_pylist(), seed)
        counts["alike"] += 1

    def test_plans(self):
        counts = {"alike": 0, "broken": 0, "refused": 0}
        for seed in range(PLANS):
            self.agrees(seed, counts)
        self.assertGreater(counts["alike"], PLANS * 3 // 4, counts)
        self.assertGreater(counts["broken"], 0, counts)
        self.assertLess(counts["refused"], PLANS // 10, counts)


def odd(rows):
    """A mask of the rows that are odd."""
    return [row is not None and row % 2 == 1 for row in rows.to_pylist()]


class Plans(unittest.TestCase):
    def columns(self, type="int64"):
        return [column(rows, type) for rows in PARTS]

    def test_null_goes_to_no_part(self):
        asked = plan([3, 0, 1, 4], [Take([7, None, 0, 3, 0])])
        self.assertEqual([asked.len_of(k) for k in range(4)], [2, 0, 1, 1])
        self.assertEqual(asked.order, [(3, 0), None, (0, 0), (2, 0), (0, 1)])

    def test_nullable_also_where_no_null_is(self):
        of = field_of_type(type_of("int64"), flags=0)
        parts = [column_over([built(of, rows)]) for rows in ([1, 2], [3])]
        null = Take([2, None])
        for steps, flags in (([Take([2, 0])], 0), ([null], 2), ([null, Slice(0, 1)], 2)):
            asked = plan([2, 1], steps)
            found = put_together(asked, answers(asked, parts))
            self.assertEqual(flags_of(found), flags)

    def test_parts_hold_masks(self):
        parts = self.columns()
        kept = [sum(odd(part)) for part in parts]
        steps = [FilterEach(kept, odd), Slice(1, 3), Take([1, 0])]
        asked = plan(list(map(len, parts)), steps)
        selected = vortex_select.parts._selected
        found = [selected(part, asked.steps_of(k)) for k, part in enumerate(parts)]
        self.assertEqual(put_together(asked, found).to_pylist(), [9, 7])
        with self.assertRaises(BrokenStep) as caught:
            plan([3, 0, 1, 4], [Slice(0, 8), FilterEach([4, 0, 0, 0], odd)])
        self.assertEqual((caught.exception.step, caught.exception.cause), (1, "BadMask"))
        with self.assertRaises(ValueError):
            plan([3, 0, 1, 4], [Take([0]), FilterEach(kept, odd)])

    def test_refusals(self):
        asked = plan([3, 0, 1, 4], [Slice(0, 4)])
        found = answers(asked, self.columns())
        self.assertEqual(put_together(asked, found).to_pylist(), [5, None, 7, 8])
        with self.assertRaisesRegex(ValueError, "part 2: expected 1 rows, got 0"):
            put_together(asked, [*found[:2], found[1], found[3]])
        unlike = "part 2: expected int64, as part 0 has, got int32"
        with self.assertRaisesRegex(ValueError, unlike):
            put_together(asked, [*found[:2], column([8], "int32"), found[3]])
        with self.assertRaisesRegex(ValueError, "expected a column of each of 4 parts, got 3"):
            put_together(asked, found[:3])
        words = "part 0: expected an object with __arrow_c_array__, got list"
        with self.assertRaisesRegex(TypeError, words):
            put_together(asked, [[5, None, 7], *found[1:]])
        with self.assertRaises(OverflowError):
            plan([2**63, 2**63])

    def test_views_keep_what_they_view(self):
        """The result has the bytes that are viewed, and no others."""
        texts = ["a", "just 12 long", "some more than 12", None, "", "and once more so"]
        whole = column(texts, "utf8_view")
        steps = [Take([5, None, 2, 5, 1])]
        asked = plan([3, 3], steps)
        parts = [column(texts[:3], "utf8_view"), column(texts[3:], "utf8_view")]
        found = put_together(asked, answers(asked, parts))
        self.assertEqual(found.to_pylist(), select(whole, steps).to_pylist())
        plain = source_of(put_together(plan([3, 3]), parts)).plain()
        self.assertEqual(len(plain.buffers), 4)
        viewed = sum(len(text) for text in texts if text and len(text) > 12)
        self.assertEqual(len(plain.buffers[2]), viewed)
        self.assertEqual(plain.buffers[3], viewed.to_bytes(8, "little"))

    def test_views_fill_several_buffers(self):
        """The bound of 2 GiB is lowered, so that few bytes need several buffers."""
        texts = ["%d: more than twelve" % k for k in range(7)]
        size, before = len(texts[0]), _joining.MOST_VIEWED
        for most, counts in ((2 * size + 1, [2, 2, 2, 1]), (2 * size, [1] * 7), (8 * size, [7])):
            _joining.MOST_VIEWED = most
            try:
                parts = [column(texts[:3], "utf8_view"), column(texts[3:], "utf8_view")]
                found = put_together(plan([3, 4]), parts)
                plain = source_of(found).plain()
            finally:
                _joining.MOST_VIEWED = before
            self.assertEqual(found.to_pylist(), texts)
            lengths = [len(data) for data in plain.buffers[2:-1]]
            self.assertEqual(lengths, [n * size for n in counts])
        self.assertEqual(before, 2**31)

    def test_causes(self):
        """A broken step has its cause, before a take and after it."""
        for steps, told in (
            ([Slice(0, 5)], (0, "BadRange")),
            ([Slice(3, 2)], (0, "BadRange")),
            ([Slice(1, 4), Slice(0, 4)], (1, "BadRange")),
            ([Filter([True] * 3)], (0, "BadMask")),
            ([Slice(1, 4), Filter([True] * 4)], (1, "BadMask")),
            ([FilterEach([1], odd)], (0, "BadMask")),
            ([FilterEach([1, 2, 0], odd)], (0, "BadMask")),
            ([Slice(1, 4), Take([3])], (1, "OutOfBounds")),
            ([Take([0]), Filter([True] * 2)], (1, "BadMask")),
            ([Slice(1, 4), Take([0]), Slice(0, 2)], (2, "BadRange")),
        ):
            with self.assertRaises(BrokenStep) as caught:
                plan([3, 1], steps)
            self.assertEqual((caught.exception.step, caught.exception.cause), told)

    def test_lengths_of_buffers(self):
        """Each buffer is as long as its rows need, to the byte."""
        for rows, size in ((0, 0), (1, 1), (7, 1), (8, 1), (9, 2), (16, 2), (17, 3)):
            parts = [column([True] * (rows // 2), "bool"), column([None] * (rows % 2), "bool")]
            parts.append(parts[0])
            found = put_together(plan(list(map(len, parts))), parts)
            valid, values = source_of(found).plain().buffers
            self.assertEqual(valid and len(valid), size if rows % 2 else None)
            self.assertEqual(len(values), size)
        for type, rows, sizes in (
            ("int16", [1, 2, 3], [6]),
            ("decimal256(40, 0)", [1, 2, 3], [96]),
            ("fixed_size_binary(3)", [b"abc"] * 3, [9]),
            ("utf8", ["a", "", "bc"], [16, 3]),
            ("large_binary", [b"a", b"", b"bc"], [32, 3]),
            ("utf8_view", ["a", "", "b" * 13], [48, 13, 8]),
            ("list<int8>", [[1], [], [2, 3]], [16]),
            ("large_list<int8>", [[1], [], [2, 3]], [32]),
            ("list_view<int8>", [[1], [], [2, 3]], [12, 12]),
            ("large_list_view<int8>", [[1], [], [2, 3]], [24, 24]),
            ("map<int8, int8>", [[(1, 2)], [], []], [16]),
            ("dictionary<int32, utf8>", ["a", "a", "b"], [12]),
        ):
            plain = source_of(put_together(plan([3]), [column(rows, type)])).plain()
            self.assertEqual([len(data) for data in plain.buffers[1:]], sizes, type)
            self.assertIsNone(plain.buffers[0], type)
        for form, sizes in (("sparse", [3]), ("dense", [3, 12])):
            rows = column([1, True, 2], form + "_union<a: bool, b: int8>")
            plain = source_of(put_together(plan([3]), [rows])).plain()
            self.assertEqual([len(data) for data in plain.buffers], sizes, form)

    def test_long_views(self):
        """Views of more than 2^24 bytes, and of bytes behind so many."""
        texts = ["%d" % k * (2**24 + k) for k in range(3)] + ["once more than 12"]
        parts = [column(texts[:2], "utf8_view"), column(texts[2:], "utf8_view")]
        found = put_together(plan([2, 2]), parts).to_pylist()
        self.assertEqual(list(map(len, found)), list(map(len, texts)))
        self.assertTrue(found == texts)
        again = pickle.loads(pickle.dumps(put_together(plan([2, 2]), parts)))
        self.assertTrue(again.to_pylist() == texts)

    def test_counts_of_nulls(self):
        """A count is known where there is no validity, and else is to be counted."""
        for rows, type, wanted in (
            ([1, 2], "int8", 0),
            ([1, None], "int8", -1),
            ([None, None], "null", 2),
            ([1, 1], "sparse_union<a: int8>", 0),
            ([1, 1], "dense_union<a: int8>", 0),
        ):
            found = put_together(plan([2, 2]), [column(rows, type)] * 2)
            self.assertEqual(source_of(found).plain().null_count, wanted * (2 if wanted > 0 else 1))
            self.assertEqual(found.to_pylist(), rows * 2)

    def test_dictionaries(self):
        """Equal dictionaries are put together, also if they are not the same memory."""
        one = column(["a", "b", "a"], "dictionary<int8, utf8>")
        same = column(["a", "b"], "dictionary<int8, utf8>")
        for parts in ([one, same], [one, one], [one, select(one, [Slice(1, 3)])]):
            wanted = [row for part in parts for row in part.to_pylist()]
            found = put_together(plan(list(map(len, parts))), parts)
            self.assertEqual((found.type, found.to_pylist()), (one.type, wanted))
        for rows in (["b", "a"], ["a"], ["a", "b", "c"], ["a", "c"]):
            other = column(rows, "dictionary<int8, utf8>")
            with self.assertRaisesRegex(ValueError, "different dictionaries"):
                put_together(plan([3, len(rows)]), [one, other])
        # No value is read of a part that has no row.
        empty = column([], "dictionary<int8, utf8>")
        self.assertEqual(put_together(plan([3, 0]), [one, empty]).to_pylist(), ["a", "b", "a"])
        self.assertEqual(put_together(plan([0]), [empty]).to_pylist(), [])

    def test_dictionaries_in_the_same_memory(self):
        """Other rows of the same buffers are another dictionary."""
        codes, offsets = array("b", [0, 1]), array("i", [0, 1, 2, 3])
        of, buffers = "dictionary<int8, utf8>", [None, offsets, b"abc"]
        made = []
        for at, length in ((0, 2), (0, 2), (1, 2), (0, 3)):
            values = from_buffers("utf8", length, buffers, offset=at)
            made.append(from_buffers(of, 2, [None, codes], [], values))
        found = put_together(plan([2, 2]), made[:2])
        self.assertEqual(found.to_pylist(), ["a", "b"] * 2)
        for other in made[2:]:
            with self.assertRaisesRegex(ValueError, "different dictionaries"):
                put_together(plan([2, 2]), [made[0], other])

    def test_dictionaries_of_floats(self):
        """Not-a-number is itself, and the two zeros are different."""
        of = "dictionary<int8, float64>"
        nan = [column([float("nan")], of) for _ in range(2)]
        self.assertEqual(str(put_together(plan([1, 1]), nan).to_pylist()), "[nan, nan]")
        with self.assertRaisesRegex(ValueError, "different dictionaries"):
            put_together(plan([1, 1]), [column([0.0], of), column([-0.0], of)])

    def test_nested_dictionaries(self):
        of = "dictionary<int8, dictionary<int8, utf8>>"
        one, same, other = (column(rows, of) for rows in (["a", "b"], ["a", "b"], ["b", "a"]))
        self.assertEqual(put_together(plan([2, 2]), [one, same]).to_pylist(), ["a", "b"] * 2)
        with self.assertRaisesRegex(ValueError, "different dictionaries"):
            put_together(plan([2, 2]), [one, other])

    def test_offsets_of_two_gigabytes(self):
        """Lists over nulls have many items and no bytes."""
        lists = [file_column(2**30 + k) for k in (0, 0)]
        with self.assertRaisesRegex(OverflowError, r"offsets up to 2\^31 - 1"):
            put_together(plan([1, 1]), lists)
        lists = [file_column(2**30 - k) for k in (0, 1)]
        self.assertEqual(len(put_together(plan([1, 1]), lists)), 2)
        lists = [file_column(2**40, True) for _ in range(2)]
        self.assertEqual(len(put_together(plan([1, 1]), lists)), 2)

    def test_formats_that_are_not_known(self):
        """A column that is encoded by runs is refused, also as a child."""
        items = built(field_of_type(type_of("int32")), [1])
        ends = [producer.made_of(items.node)] * 2
        pair = (("run_ends", Type("i")), ("values", Type("i")))
        of, made = Type("+r", pair), producer.made_array(1, 0, 0, [], ends)
        below = Type("+s", (("a", of),)), producer.made_array(1, 0, 0, [None], [made])
        for found in (wrapped(of, made), wrapped(*below)):
            with self.assertRaisesRegex(ValueError, r"\+r: unknown format"):
                put_together(plan([1]), [found])
            with tempfile.TemporaryDirectory() as folder:
                with self.assertRaisesRegex(ValueError, r"\+r: unknown format"):
                    write_column(os.path.join(folder, "column"), found)
                self.assertEqual(os.listdir(folder), [])

    def test_no_result(self):
        with self.assertRaisesRegex(ValueError, "expected a column of at least one part"):
            put_together(plan([0, 0]), [None, None])
        with self.assertRaisesRegex(TypeError, "part 1: expected an object with __arrow_c_array__"):
            put_together(plan([0, 2]), [column([], "int8"), None])

    def test_answers_may_be_left_out(self):
        asked = plan([3, 0, 1, 4], [Slice(3, 4)])
        self.assertEqual(put_together(asked, [None, None, column([8]), None]).to_pylist(), [8])


def none_but_last(rows):
    """A mask of one row, for a column of one."""
    return [True]


def mapped_by(path):
    """A function that loads as `load` does, but is another one."""
    return load(path)


def no_pickle(_):
    return lambda: None


def process_of(_):
    time.sleep(0.05)
    return os.getpid()


def fails(number):
    return 1 // number


def once(path):
    """Loads a part, but ends its process where no one did so before."""
    mark = path + ".mark"
    if os.path.exists(mark):
        os.remove(mark)
        os.kill(os.getpid(), signal.SIGKILL)
    return load(path)


def never(path):
    """Ends its process."""
    os.kill(os.getpid(), signal.SIGKILL)


def ends_noted(path):
    """Ends its process, whose id it adds to a file."""
    with open(path, "a") as file:
        file.write(f"{os.getpid()}\n")
    os.kill(os.getpid(), signal.SIGKILL)


def waits_or_fails(path):
    """Fails without a path. With one it makes a file, but not before two minutes are over."""
    if path is None:
        raise ValueError("it fails")
    time.sleep(120)
    open(path, "w").close()


class Backends(unittest.TestCase):
    STEPS = [Filter([True, True, False, True, True, True, True, True]), Take([5, 0, None, 1, 6])]
    WANTED = [None, 5, None, None, 12]

    def setUp(self):
        self.folder = tempfile.TemporaryDirectory()
        self.addCleanup(self.folder.cleanup)
        self.paths = []
        for k, rows in enumerate(PARTS):
            self.paths.append(os.path.join(self.folder.name, f"part{k}"))
            write_column(self.paths[-1], column(rows, "int64"))

    def test_map(self):
        self.assertEqual(select_parts(map, self.paths, self.STEPS).to_pylist(), self.WANTED)
        found = select_parts(map, self.paths, self.STEPS, lengths=LENGTHS)
        self.assertEqual(found.to_pylist(), self.WANTED)

    def test_tasks(self):
        """The number of tasks of each round, and which of them ask for rows."""
        rounds = []

        def counted(function, tasks):
            rounds.append([task.steps is not None for task in tasks])
            return map(function, tasks)

        one, broken = [Slice(3, 4)], [*self.STEPS, Slice(2, 6)]
        asked, heads = [False, False, True, False], [False] * 4
        for steps, more, wanted in (
            (one, {}, [heads, [True]]),
            (one, {"trusted": True}, [heads, [True]]),
            (one, {"lengths": LENGTHS}, [asked]),
            (one, {"lengths": LENGTHS, "trusted": True}, [[True]]),
            ([], {"lengths": LENGTHS, "trusted": True}, [[True] * 3]),
            ([Slice(4, 4)], {"lengths": LENGTHS, "trusted": True}, [[True]]),
            (broken, {}, [heads]),
            (broken, {"lengths": LENGTHS}, [heads]),
            (broken, {"lengths": LENGTHS, "trusted": True}, []),
        ):
            rounds.clear()
            try:
                select_parts(counted, self.paths, steps, **more)
                self.assertIsNot(steps, broken)
            except BrokenStep as why:
                self.assertEqual((steps, why.step, why.cause), (broken, 2, "BadRange"))
            self.assertEqual(rounds, wanted, more)

    def test_answers_in_files(self):
        folder, lengths = os.path.join(self.folder.name, "answers"), [3, 0, 1, 4]
        with self.assertRaises(FileNotFoundError):
            write_parts(map, self.paths, [], folder)
        os.mkdir(folder)
        with Processes(2) as pool:
            for backend in (map, pool):
                written = write_parts(backend, self.paths, self.STEPS, folder)
                self.assertEqual(written.column().to_pylist(), self.WANTED)
                absent = [path is None for path in written.paths]
                self.assertEqual(absent, [False, True, True, False])
        written = write_parts(map, self.paths, [Slice(1, 5)], folder, lengths=lengths)
        names = [path and os.path.basename(path) for path in written.paths]
        self.assertEqual(names, ["part0", None, "part2", "part3"])
        rows = [row for path in written.paths if path for row in read_column(path).to_pylist()]
        self.assertEqual([rows, written.column().to_pylist()], [[None, 7, 8, 9]] * 2)
        again = select_parts(map, list(filter(None, written.paths)), [Take([3, 0])])
        self.assertEqual(again.to_pylist(), [9, None])
        nothing = write_parts(map, self.paths, [Slice(4, 4)], folder)
        self.assertEqual(nothing.column().to_pylist(), [])
        with self.assertRaises(BrokenStep):
            write_parts(map, self.paths, [Slice(2, 9)], folder, lengths=lengths)
        os.remove(self.paths[3])
        with self.assertRaisesRegex(DamagedPart, "part3: FileNotFoundError"):
            write_parts(map, self.paths, [], folder, lengths=lengths)
        self.assertEqual(sorted(os.listdir(folder)), ["part0", "part2", "part3"])

    def test_processes(self):
        with Processes(2) as pool:
            self.assertEqual(select_parts(pool, self.paths, self.STEPS).to_pylist(), self.WANTED)
            for path in (self.paths[0], self.paths[3]):
                open(path + ".mark", "w").close()
            found = select_parts(pool, self.paths, self.STEPS, load=once, lengths=LENGTHS)
            self.assertEqual(found.to_pylist(), self.WANTED)
            self.assertFalse(any(name.endswith(".mark") for name in os.listdir(self.folder.name)))
            with self.assertRaisesRegex(LostPart, "part 2: 3 processes ended"):
                one, more = [Slice(3, 4)], {"lengths": LENGTHS, "trusted": True}
                select_parts(pool, self.paths, one, load=never, **more)

    def refused(self, words, steps=(), lengths=LENGTHS, parts=None, backend=map):
        with self.assertRaisesRegex(DamagedPart, words):
            select_parts(backend, parts or self.paths, steps, lengths=lengths)

    def test_damaged(self):
        """Each part is asked in turn for a row, and the damaged one is named in any case."""
        with open(self.paths[3], "r+b") as file:
            file.truncate(os.path.getsize(self.paths[3]) - 1)
        for row in (0, 3, 5):
            self.refused("part .*part3: ValueError: the file has", [Slice(row, row + 1)])
        with Processes(2) as pool:
            self.refused("part .*part3: ValueError: the file has", [Slice(3, 4)], backend=pool)
        with open(self.paths[3], "wb") as file:
            file.write(b"no column")
        self.refused("part .*part3: ValueError: expected a file of write_column, got other", [Slice(3, 4)])
        os.remove(self.paths[3])
        self.refused("part .*part3: FileNotFoundError", [Slice(3, 4)])
        self.refused("part .*part09: FileNotFoundError", parts=[self.paths[0] + "9"], lengths=[1])
        self.refused("part of type int: TypeError", parts=[7], lengths=[1])

    def test_lengths(self):
        """Of parts of 2, 3 and 1 rows, said to be others, a wrong row would come out."""
        parts = [column(rows, "int64") for rows in ([10, 20], [30, 40, 50], [60])]
        words = "part of type Column: ValueError: expected 2 rows, got 3"
        for steps in ([Take([4])], [Slice(0, 1)], [Slice(0, 9)], []):
            self.refused(words, steps, [2, 2, 1], parts)
        with Processes(2) as pool:
            self.refused(words, [Take([4])], [2, 2, 1], parts, pool)
        self.assertEqual(select_parts(map, parts, [Take([4])]).to_pylist(), [50])
        self.assertEqual(select_parts(map, parts, [Take([4])], lengths=[2, 3, 1]).to_pylist(), [50])
        found = select_parts(map, parts, [Take([4])], lengths=[2, 2, 1], trusted=True)
        self.assertEqual(found.to_pylist(), [60])
        for lengths in ([2, 3], [2, 3, 1, 0]):
            with self.assertRaisesRegex(ValueError, f"of each of 3 parts, got {len(lengths)}"):
                select_parts(map, parts, [], lengths=lengths)

    def test_types(self):
        """A part of another type is refused, also if none of its rows is asked for."""
        nullable, plain = column([7], "int64"), self.not_null([7])
        for other, words in (
            (column([7], "int32"), "int32"),
            (plain, "int64 not null"),
            (column([{"a": 7}], "struct<a: int64>"), "struct<a: int64>"),
        ):
            parts = [*self.paths, other]
            words = f"of type Column: expected type int64, as part .*part0 has, got {words}$"
            self.refused(words, [Slice(0, 1)], [*LENGTHS, 1], parts)
            self.refused(words, [Slice(0, 1)], None, parts)
            self.refused(words, [], None, parts)
        found = select_parts(map, [*self.paths, nullable], [Slice(7, 9)])
        self.assertEqual(found.to_pylist(), [12, 7])
        parts, lengths = [*self.paths, plain], [*LENGTHS, 1]
        found = select_parts(map, parts, [Slice(0, 1)], lengths=lengths, trusted=True)
        self.assertEqual(found.to_pylist(), [5])

    @staticmethod
    def not_null(rows):
        source = source_of(column(rows, "int64"))
        return column_of(source.field._replace(flags=0), source.plain())

    def test_nested_types(self):
        """Types that have one text differ in what is nullable, in names, or in a dictionary."""
        one = column([{"a": 7}], "struct<a: int64>")
        source = source_of(one)
        field = source.field
        child = field.children[0]
        for other, words in (
            (child._replace(flags=0), r"got struct<a: int64> \(not null: \.a\)$"),
            (child._replace(name="b"), "got struct<b: int64>$"),
        ):
            other = column_of(field._replace(children=(other,)), source.plain())
            with self.assertRaisesRegex(DamagedPart, words):
                select_parts(map, [one, other], [Slice(0, 1)])
        codes = [column(["x"], f"dictionary<int8, {values}>") for values in ("utf8", "large_utf8")]
        with self.assertRaisesRegex(DamagedPart, "got dictionary<int8, large_utf8>$"):
            select_parts(map, codes, [Slice(0, 1)])
        noted = column_of(field._replace(metadata=bytes(4), name="top"), source.plain())
        self.assertEqual(select_parts(map, [one, noted]).to_pylist(), [{"a": 7}] * 2)

    def test_each_parts_masks(self):
        """Counts of masks are verified at each part that has rows, unless they are trusted."""
        steps = [FilterEach([2, 0, 0, 1], odd), Slice(0, 2)]
        self.assertEqual(select_parts(map, self.paths, steps).to_pylist(), [5, 7])
        # The mask of the last part keeps no row that the slice leaves, so it decides nothing else.
        for kept, words in (
            ([2, 0, 1, 1], "part2: ValueError: mask: expected one that keeps 1 rows, got 0"),
            ([2, 0, 0, 0], "part3: ValueError: mask: expected one that keeps 0 rows, got 1"),
            ([2, 0, 0, 3], "part3: ValueError: mask: expected one that keeps 3 rows, got 1"),
            ([0, 0, 0, 1], "part0: ValueError: mask: expected one that keeps 0 rows, got 2"),
        ):
            for lengths in (None, LENGTHS):
                self.refused(words, [FilterEach(kept, odd), Slice(0, 1)], lengths)
        steps = [FilterEach([0, 0, 0, 1], odd)]
        found = select_parts(map, self.paths, steps, lengths=LENGTHS, trusted=True)
        self.assertEqual(found.to_pylist(), [9])
        # Rows that are dropped before have no mask.
        steps = [Slice(7, 8), FilterEach([0, 0, 0, 1], none_but_last)]
        self.assertEqual(select_parts(map, self.paths, steps).to_pylist(), [12])

    def test_masks_that_fit_no_rows(self):
        with self.assertRaisesRegex(DamagedPart, "part0: unlike its description: step 0: BadMask: mask of length"):
            select_parts(map, self.paths, [FilterEach([1, 0, 0, 1], none_but_last)])

    def test_masks_and_files(self):
        """A part that is asked for its mask alone writes no file."""
        folder = os.path.join(self.folder.name, "masks")
        os.mkdir(folder)
        steps = [FilterEach([2, 0, 0, 1], odd), Slice(0, 2)]
        written = write_parts(map, self.paths, steps, folder)
        self.assertEqual(os.listdir(folder), ["part0"])
        self.assertEqual(written.column().to_pylist(), [5, 7])

    def test_columns(self):
        rows = [{"id": 5, "name": "a"}, None, {"id": None, "name": None}]
        people = column(rows, "struct<id: int32, name: utf8>")
        path = os.path.join(self.folder.name, "people")
        write_column(path, people)
        names = [row and {"name": row["name"]} for row in rows]
        both = [row and {"name": row["name"], "id": row["id"]} for row in rows]
        for parts in ([path, people], [people, path], [select(people, [])] * 2):
            found = select_parts(map, parts, [Slice(2, 5)], ["name"])
            self.assertEqual(found.to_pylist(), names[2:] + names[:2])
            self.assertEqual(select_parts(map, parts, [], ["name", "id"]).to_pylist(), both * 2)
        found = select_parts(map, [path], [], ["id"], load=mapped_by)
        self.assertEqual(found.type, "struct<id: int32>")
        whole = column([rows[0]], "struct<id: int32, name: utf8>")
        self.assertEqual(select_parts(map, [whole], [], ["id"]).to_pylist(), [{"id": 5}])
        # A struct with an offset, with and without a validity.
        names = column(["a", "b", "c", "d"], "utf8")
        for valid, wanted in ((None, ["b", "c"]), (b"\x0b", ["b", None])):
            of = from_buffers("struct<id: utf8, name: utf8>", 2, [valid], [names] * 2, offset=1)
            wanted = [name and {"name": name} for name in wanted]
            self.assertEqual(select_parts(map, [of], [], ["name"]).to_pylist(), wanted)
        for valid, count in ((None, 0), (b"\x0b", -1)):
            for at in (0, 1):
                of = from_buffers("struct<a: utf8, b: utf8>", 2, [valid], [names] * 2, offset=at)
                (array,) = chosen(of, ["b"])._chunks
                self.assertEqual(array.node.null_count, count)
        numbers = column(range(64), "int8")
        for length in (56, 58):
            two, valid = "struct<id: int8, name: int8>", b"\xff" * 8
            of = from_buffers(two, length, [valid], [numbers] * 2, offset=3)
            found = select_parts(map, [of], [], ["id"]).to_pylist()
            self.assertEqual(found, [{"id": k} for k in range(3, 3 + length)])
        with self.assertRaisesRegex(DamagedPart, "columns: expected some of .*, got 'age'"):
            select_parts(map, [path], [], ["age"])
        with self.assertRaisesRegex(DamagedPart, "columns: expected a column of structs, got int64"):
            select_parts(map, [column([1], "int64")], [], ["age"])
        # What isn't read may be of other types.
        other = column([{"id": 7.5, "name": "z"}], "struct<id: float64, name: utf8>")
        found = select_parts(map, [path, other], [Slice(3, 4)], ["name"])
        self.assertEqual(found.to_pylist(), [{"name": "z"}])
        with self.assertRaisesRegex(DamagedPart, "id: float64"):
            select_parts(map, [path, other], [Slice(0, 1)], ["id"])

    def test_trusted_files(self):
        """A part's checksums are tested where its rows are asked for, unless it is trusted."""
        with open(self.paths[3], "r+b") as file:
            file.seek(-64, os.SEEK_END)
            file.write(b"\x63")
        words = "part3: ValueError: buffer 1 of the file: expected checksum"
        with self.assertRaisesRegex(DamagedPart, words):
            select_parts(map, self.paths, [Slice(4, 5)], lengths=LENGTHS)
        found = select_parts(map, self.paths, [Slice(4, 5)], lengths=LENGTHS, trusted=True)
        self.assertEqual(found.to_pylist(), [99])

    def test_refusals(self):
        with self.assertRaisesRegex(ValueError, "expected at least one part, got none"):
            select_parts(map, [])
        with self.assertRaisesRegex(ValueError, "expected at least one part, got none"):
            write_parts(map, [], [], self.folder.name)
        with self.assertRaisesRegex(TypeError, "steps: expected Slice, Filter, Take or FilterEach, got int"):
            select_parts(map, self.paths, [3])
        for words in ({"count": 0}, {"count": 2, "tries": 0}):
            with self.assertRaisesRegex(ValueError, "at least one"):
                Processes(**words)

    def test_faults_pickle(self):
        """A fault that a worker found is the same where it is raised."""
        for fault, words, told in (
            (
                BrokenStep(2, "BadMask"), "step 2: BadMask",
                {"step": 2, "cause": "BadMask", "words": "", "found": None, "bound": None},
            ),
            (
                BrokenStep(0, "OutOfBounds", "index 9, but 8 rows", 9, 8),
                "step 0: OutOfBounds: index 9, but 8 rows",
                {"step": 0, "cause": "OutOfBounds", "words": "index 9, but 8 rows", "found": 9,
                 "bound": 8},
            ),
            (DamagedPart("x", "why"), "part x: why", {"part": "x", "why": "why"}),
            (LostPart(3, 2), "part 3: 2 processes ended", {"number": 3, "tries": 2}),
        ):
            copy = pickle.loads(pickle.dumps(fault))
            self.assertEqual((type(copy), vars(copy)), (type(fault), told))
            self.assertEqual((copy.args, str(copy)), (fault.args, str(fault)))
            if not isinstance(fault, BrokenStep):
                self.assertEqual(fault.args, tuple(told.values()))
            self.assertIn(words, str(copy))

    def need_gone(self, processes):
        """Fail unless processes have ended and were waited for."""
        for process in processes:
            with self.assertRaises(ProcessLookupError):
                os.kill(process, 0)

    def test_no_process_is_left(self):
        """Idle and busy processes are ended, and those that ended are waited for."""
        path = os.path.join(self.folder.name, "processes")
        with Processes(2) as pool:
            processes = set(pool.map(process_of, range(4)))
            with self.assertRaises(LostPart):
                pool.map(ends_noted, [path])
            with open(path) as file:
                lost = set(map(int, file))
            self.assertEqual(len(lost), 3)
            self.need_gone(processes | lost)
            processes = set(pool.map(process_of, range(4)))
        self.need_gone(processes)

    def test_fault_ends_busy_processes(self):
        """If a task fails, the tasks that run aren't waited for."""
        path = os.path.join(self.folder.name, "late")
        with Processes(2) as pool:
            with self.assertRaisesRegex(ValueError, "it fails"):
                pool.map(waits_or_fails, [path, None])
            self.assertEqual((pool._idle, pool._busy), ([], {}))
        self.assertFalse(os.path.exists(path))

    def test_so_many_processes(self):
        """At most so many processes run, and fewer if there are fewer parts."""
        with Processes(2) as pool:
            processes = set(pool.map(process_of, range(9)))
            self.assertLessEqual(len(processes), 2)
            self.assertNotIn(os.getpid(), processes)
            self.assertEqual(pool.map(process_of, []), [])
        with Processes(3) as pool:
            self.assertEqual(len(set(pool.map(process_of, [0]))), 1)
            self.assertEqual(len(pool._idle), 1)
            with self.assertRaisesRegex(ZeroDivisionError, "division"):
                pool.map(fails, [0])
            self.assertEqual(len(pool._idle), 0)
            with self.assertRaisesRegex(RuntimeError, "doesn't pickle"):
                pool.map(no_pickle, [0])


if __name__ == "__main__":
    unittest.main()
