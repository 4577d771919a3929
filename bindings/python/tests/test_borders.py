"""What must not end in a memory fault, a lost row or a leak, each in its smallest form.

What may fault runs in a process of its own, whose end is the test.
"""

import ctypes
import gc
import os
import pickle
import random
import signal
import struct
import subprocess
import sys
import textwrap
import threading
import time
import unittest
from array import array

import producer
from vortex_select import BrokenStep, Column, Filter, Slice, Take, _native
from vortex_select import check, column, filter, from_buffers, select, take
from vortex_select._arrays import Field
from vortex_select._building import viewed
from vortex_select.parts import read_column, select_parts, write_column

SECONDS = float(os.environ.get("VORTEX_BORDER_SECONDS", "2"))


def ran(program, wanted=0):
    """Run a program in a process of its own; return what it prints."""
    words = [sys.executable, "-B", "-X", "faulthandler", "-c", textwrap.dedent(program)]
    done = subprocess.run(words, stdout=subprocess.PIPE, stderr=subprocess.PIPE, timeout=100)
    if done.returncode != wanted:
        raise AssertionError(f"ended with {done.returncode}: {done.stderr.decode()[-2000:]}")
    return done.stdout.decode()


class Endings(unittest.TestCase):
    """Columns that are used while the interpreter ends."""

    def test_cycle(self):
        """A column in a reference cycle, used by a destructor."""
        program = """
            import gc
            from vortex_select import Take, column, select
            class Holder:
                def __init__(self):
                    self.me, self.words = self, column(["a", "a string of many bytes"] * 9)
                def __del__(self):
                    print(len(select(self.words, [Take([1, 0, None])]).to_pylist()))
            for _ in range(20):
                Holder()
            gc.collect()
            Holder()
        """
        self.assertEqual(ran(program), "3\n" * 21)

    def test_atexit(self):
        program = """
            import atexit
            from vortex_select import Take, column, from_buffers, select
            words = column(["a", "b"], "dictionary<int8, utf8>")
            bytes_ = from_buffers("int8", 2, [None, bytearray(b"ab")])
            atexit.register(lambda: print(select(words, [Take([1])]).to_pylist(), len(bytes_)))
        """
        self.assertEqual(ran(program), "['b'] 2\n")

    def test_daemon_threads(self):
        """Daemon threads are in the middle of calls when the interpreter ends."""
        program = """
            import threading, time
            from array import array
            from vortex_select import Take, column, select, take
            words = column(["a", "b"] * 50_000)
            places = array("I", range(100_000))
            def work():
                while True:
                    select(words, [Take(places)])
                    take(places, places)
            for _ in range(8):
                threading.Thread(target=work, daemon=True).start()
            time.sleep(0.3)
            print("ended")
        """
        for _ in range(5):
            self.assertEqual(ran(program), "ended\n")

    def test_column_of_a_module(self):
        """What a module holds goes away late, and so do capsules that nobody took."""
        program = """
            import sys
            from vortex_select import column
            sys.kept = column([{"a": [1, 2]}])
            sys.taken = sys.kept.__arrow_c_array__(), sys.kept.__arrow_c_stream__()
            print(len(sys.kept))
        """
        self.assertEqual(ran(program), "1\n")

    def test_subinterpreter(self):
        """Another interpreter of the process is refused at the import."""
        program = """
            import vortex_select
            try:
                import _xxsubinterpreters as interpreters
            except ImportError:
                print("refused")
            else:
                number = interpreters.create()
                code = "try:\\n import vortex_select\\nexcept ImportError:\\n pass"
                interpreters.run_string(number, code + "\\nelse:\\n raise SystemExit(1)")
                print("refused")
                del number
                print(vortex_select.column([1]).to_pylist())
        """
        self.assertIn("refused\n", ran(program))


class Bytes(unittest.TestCase):
    """Each byte of a result is written: it holds nothing of the memory that it was given."""

    program = """
        import hashlib, random, sys
        from arrow_model import Layout, random_row, random_steps, random_type, wrapped
        from vortex_select import BrokenStep, Take, column, select
        def parts(node):
            yield from node.buffers
            for below in [*node.children, *filter(None, [node.dictionary])]:
                yield from parts(below)
        count, digest = 0, hashlib.sha256()
        for seed in range(300):
            dice = random.Random(seed)
            of = random_type(dice, dice.randrange(3))
            rows = [random_row(dice, of) for _ in range(dice.randrange(30))]
            steps, _ = random_steps(dice, len(rows))
            try:
                found = select(wrapped(of, Layout(dice).array(of, rows)), steps)
            except (BrokenStep, ValueError):
                continue
            for data in parts(found._chunks[0].node):
                digest.update(b"none" if data is None else data)
                count += data is not None
        print(count, digest.hexdigest())
    """

    def test_perturbed(self):
        """The same results over memory that was filled with two different bytes."""
        told = []
        for filled in ("85", "170"):
            words = [sys.executable, "-B", "-c", textwrap.dedent(self.program)]
            env = dict(os.environ, MALLOC_PERTURB_=filled)
            done = subprocess.run(words, stdout=subprocess.PIPE, env=env, timeout=100, check=True)
            told.append(done.stdout.decode())
        self.assertEqual(told[0], told[1])
        self.assertGreater(int(told[0].split()[0]), 300)

    def test_zeros_under_nulls(self):
        old = [bytes([k % 255 + 1]) * 4096 for k in range(200)]
        del old
        for kind, size in (("int64", 8), ("bool", 2), ("decimal128(9, 2)", 16), ("utf8_view", 16)):
            value = {"bool": True, "utf8_view": "a string of many bytes"}.get(kind)
            source = column([value] * 3 if value else [None, None, None], kind)
            found = select(source, [Take([None] * 16)])
            self.assertEqual(bytes(found._chunks[0].node.buffers[1]), bytes(16 * size if size > 2 else 2))
        found = select(column([1, 2, 3], "int64"), [Take([1, None, 2])])
        values = bytes(found._chunks[0].node.buffers[1])
        self.assertEqual(values, struct.pack("<qqq", 2, 0, 3))


class Exceptions(unittest.TestCase):
    def test_pending(self):
        """A column and a capsule that go away with an exception leave it as it is, and no leak."""

        def failing():
            held = from_buffers("int8", 2, [None, bytearray(b"ab")])
            capsules = held.__arrow_c_array__()
            raise KeyError(len(capsules) + len(select(held, [Slice(0, 1)])))

        gc.collect()
        before = _native.alive()
        for _ in range(100):
            with self.assertRaises(KeyError) as why:
                failing()
            self.assertEqual(why.exception.args, (3,))
            del why
        gc.collect()
        self.assertEqual(_native.alive(), before)

    def test_destructor_that_fails(self):
        """Memory whose owner's destructor fails is let go while an exception is pending."""

        class Owner(bytearray):
            def __del__(self):
                raise RuntimeError("a destructor")

        def failing():
            held = from_buffers("int8", 2, [None, Owner(b"ab")])
            raise KeyError(len(held))

        with open(os.devnull, "w") as nowhere:
            stderr, sys.stderr = sys.stderr, nowhere
            hook, sys.unraisablehook = sys.unraisablehook, lambda _: None
            try:
                for _ in range(20):
                    self.assertRaises(KeyError, failing)
            finally:
                sys.stderr, sys.unraisablehook = stderr, hook

    def test_signals(self):
        """A handler that raises during a select over a stream loses no row without an exception."""

        class Stop(Exception):
            pass

        def handler(*_):
            raise Stop

        class Streamed:
            def __init__(self, of):
                self.of = of

            def __arrow_c_stream__(self, requested_schema=None):
                return self.of.__arrow_c_stream__()

        parts = [column(list(range(k, k + 500))) for k in range(0, 20_000, 500)]
        made = [part._chunks[0] for part in parts]
        from vortex_select.columns import column_over

        source, wanted = Streamed(column_over(made)), list(range(20_000))
        old = signal.signal(signal.SIGALRM, handler)
        dice, raised, end = random.Random(5), 0, time.monotonic() + SECONDS
        try:
            while time.monotonic() < end:
                try:
                    signal.setitimer(signal.ITIMER_REAL, dice.uniform(0.00005, 0.003))
                    found = select(source, [Slice(0, 20_000)])
                    signal.setitimer(signal.ITIMER_REAL, 0)
                except Stop:
                    raised += 1
                    continue
                self.assertEqual(len(found), 20_000)
            self.assertEqual(found.to_pylist() if raised == 0 else wanted, wanted)
        finally:
            signal.setitimer(signal.ITIMER_REAL, 0)
            signal.signal(signal.SIGALRM, old)


class Handing:
    """An object that hands over what it is given."""

    def __init__(self, given):
        self.given = given

    def __arrow_c_array__(self, requested_schema=None):
        return self.given


class Consumed(unittest.TestCase):
    """Capsules whose structs were taken out, and objects that hand over something else."""

    def test_everywhere(self):
        for source in (column([True, False]), column([1, 0], "int8")):
            spent = source.__arrow_c_array__()
            select(Handing(spent), [])
            calls = [
                lambda: select(Handing(spent), []),
                lambda: check(Handing(spent)),
                lambda: Filter(Handing(spent)),
                lambda: Take(Handing(spent)),
                lambda: write_column(os.path.join("no", "such", "folder"), Handing(spent)),
                lambda: select_parts(map, [Handing(spent)], [], lengths=[2]),
            ]
            for call in calls:
                with self.assertRaises((ValueError, Exception)) as why:
                    call()
                self.assertIn("released", str(why.exception))

    def test_streams(self):
        capsule = column([1]).__arrow_c_stream__()

        class Spent:
            def __arrow_c_stream__(self, requested_schema=None):
                return capsule

        self.assertEqual(select(Spent(), []).to_pylist(), [1])
        with self.assertRaisesRegex(ValueError, "released"):
            select(Spent(), [])

    def test_other_objects(self):
        schema, made = column([1]).__arrow_c_array__()
        for given in (None, (), (schema,), (made, schema), (schema, schema), [schema, made], (1, 2)):
            with self.assertRaises(TypeError):
                select(Handing(given), [])

    def test_released_inside(self):
        """A child that is released, of a struct that isn't."""
        of = Field("+s", "", 2, None, (Field("c", "a", 2, None, (), None),), None)
        made = producer.Made(1, 0, 0, [None], [producer.Made(1, 0, 0, [None, b"a"])])
        schema, struct_ = producer.schema_struct(of), producer.array_struct(made)
        producer.release(struct_.children[0].contents)
        given = producer.capsule(schema), producer.capsule(struct_)
        with self.assertRaises(ValueError):
            select(Handing(given), [])


class Number(int):
    """An int that lies about itself."""

    def __lt__(self, other):
        return False

    __le__ = __gt__ = __ge__ = __eq__ = __ne__ = __lt__
    __hash__ = int.__hash__

    def __index__(self):
        return 3

    def __int__(self):
        return 3

    def __add__(self, other):
        return 3

    __radd__ = __mul__ = __rmul__ = __floordiv__ = __mod__ = __neg__ = __add__


class Twice(list):
    """A list that gives other items the second time."""

    def __init__(self, *each):
        super().__init__(each[0])
        self.each = list(each)

    def __iter__(self):
        return iter(self.each.pop(0) if len(self.each) > 1 else self.each[0])

    def __getitem__(self, k):
        return list(self)[k]


I4, I8 = "i", "q"


def outside():
    """Types, buffers and children that lead outside of each other: each is refused."""
    two, words = column([1, 2], "int8"), column(["a", "b"])
    view = struct.pack("<i4sii", 20, b"0123", 0, 0)
    yield "utf8", 1, [None, array(I4, [0, 2**31 - 1]), b"ab"], ()
    yield "utf8", 1, [None, array(I4, [5, 1]), b"ab"], ()
    yield "utf8", 2, [None, array(I4, [0, 2**30, 2]), b"ab"], ()
    yield "utf8", 1, [None, array(I4, [-2, -1]), b"ab"], ()
    yield "large_utf8", 1, [None, array(I8, [0, 2**62]), b"ab"], ()
    yield "utf8_view", 1, [None, view, b"0123456789"], ()
    yield "utf8_view", 1, [None, struct.pack("<i4sii", 20, b"0123", 7, 0), bytes(20)], ()
    yield "utf8_view", 1, [None, struct.pack("<i4sii", -1, b"0123", 0, 0), bytes(20)], ()
    yield "utf8_view", 1, [None, struct.pack("<i4sii", 20, b"0123", 0, -4), bytes(99)], ()
    yield "list<int8>", 1, [None, array(I4, [0, 2**31 - 1])], (two,)
    yield "list<int8>", 1, [None, array(I4, [0, 3])], (two,)
    yield "list<int8>", 2, [None, array(I4, [0, 2**20, 1])], (two,)
    yield "large_list<utf8>", 1, [None, array(I8, [0, 2**40])], (words,)
    yield "list_view<int8>", 1, [None, array(I4, [2**30]), array(I4, [1])], (two,)
    yield "list_view<int8>", 1, [None, array(I4, [0]), array(I4, [2**30])], (two,)
    yield "list_view<int8>", 1, [None, array(I4, [-1]), array(I4, [1])], (two,)
    yield "fixed_size_list<int8, 3>", 1, [None], (two,)
    yield "fixed_size_list<int8, 999999999>", 1, [None], (two,)
    yield "struct<a: int8>", 4, [None], (two,)
    yield "dense_union[0,1]<a: int8, b: utf8>", 1, [b"\0", array(I4, [2**30])], (two, words)
    yield "dense_union[0,1]<a: int8, b: utf8>", 1, [b"\7", array(I4, [0])], (two, words)
    yield "sparse_union[0,1]<a: int8, b: utf8>", 3, [b"\0\0\0"], (two, words)
    yield "sparse_union[0,1]<a: int8, b: utf8>", 1, [b"\5"], (two, words)


class Buffers(unittest.TestCase):
    def used(self, made):
        """Read a column in each way: what comes is rows or a `ValueError`, never a fault."""
        calls = [
            made.to_pylist,
            lambda: pickle.loads(pickle.dumps(made)),
            lambda: check(made),
            lambda: select(made, [Slice(0, len(made))]),
            lambda: select(made, [Take([len(made) - 1, None, 0])]).to_pylist(),
            lambda: Column.to_pylist(select(made, [Take([0] * 5)])),
        ]
        for call in calls:
            try:
                call()
            except (ValueError, OverflowError):
                pass

    def test_outside(self):
        for given in outside():
            with self.assertRaises(ValueError, msg=given[0]):
                from_buffers(*given)
            try:
                made = from_buffers(*given, trusted=True)
            except ValueError:
                continue
            self.used(made)

    def test_codes(self):
        values = column(["a", "b"])
        for codes, kind in ((b"\2", "uint8"), (b"\xff", "int8"), (array("q", [2**62]), "int64")):
            with self.assertRaises(ValueError):
                from_buffers(f"dictionary<{kind}, utf8>", 1, [None, codes], (), values)
            made = from_buffers(f"dictionary<{kind}, utf8>", 1, [None, codes], (), values, trusted=True)
            with self.assertRaises(ValueError):
                made.to_pylist()
            with self.assertRaises(ValueError):
                select(made, [Take([0])])
            self.used(made)
        hidden = from_buffers("dictionary<int8, utf8>", 2, [b"\2", b"\x7f\1"], (), values)
        self.assertEqual(hidden.to_pylist(), [None, "b"])

    def test_numbers(self):
        data = array("q", range(8))
        for wrong in (2**64 + 5, -(2**64), -1, 2**63, 2**60):
            with self.assertRaises((ValueError, OverflowError)):
                from_buffers("int64", wrong, [None, data])
            with self.assertRaises((ValueError, OverflowError)):
                from_buffers("int64", 1, [None, data], offset=wrong)
        with self.assertRaises(ValueError):
            from_buffers("int64", Number(1000), [None, data])
        with self.assertRaises(ValueError):
            from_buffers("int64", 1, [None, data], offset=Number(1000))
        self.assertEqual(len(from_buffers("int64", Number(5), [None, data])), 5)
        for call in (filter, take):
            with self.assertRaises(ValueError):
                call(b"abcdefgh", [0], width=Number(32))

    def test_lists_that_change(self):
        short, long = b"\0", bytes(8)
        for each in (([None, long], [None, short]), ([None, short], [None, long])):
            with self.subTest(each=each):
                try:
                    made = from_buffers("int64", 1, Twice(*each))
                except ValueError:
                    continue
                self.assertEqual(made.to_pylist(), [0])
        two, hundred = column([1, 2], "int8"), column(list(range(100)), "int8")
        made = from_buffers("struct<a: int8>", 2, [None], Twice([hundred], [two], []))
        self.assertEqual(len(made), 2)
        with self.assertRaises(ValueError):
            from_buffers("struct<a: int8>", 100, [None], Twice([two], [hundred]))

    def test_child_that_runs_code(self):
        class Liar(Column):
            @property
            def type(self):
                raise SystemError("code ran")

            def _single(self):
                return b"not an array"

            def __len__(self):
                return 2**40

        liar = Liar.__new__(Liar)
        liar._chunks = column([1, 2], "int8")._chunks
        made = from_buffers("struct<a: int8>", 2, [None], [liar])
        self.assertEqual(made.to_pylist(), [{"a": 1}, {"a": 2}])
        with self.assertRaises(ValueError):
            from_buffers("struct<a: int64>", 4, [None], [column([1])])
        for wrong in (None, 7, "a", [1], column([1]).__arrow_c_array__()):
            with self.assertRaises(TypeError):
                from_buffers("struct<a: int64>", 1, [None], [wrong])

    def test_memory_that_changes(self):
        """Offsets, sizes and views that are overwritten later lead nowhere else."""
        offsets = array(I4, [0, 1, 2])
        words = from_buffers("utf8", 2, [None, offsets, b"ab"])
        offsets[1] = offsets[2] = 2**31 - 1
        self.assertEqual(words.to_pylist(), ["a", "b"])
        self.assertEqual(select(words, [Take([1])]).to_pylist(), ["b"])
        views = bytearray(viewed(b"0123456789abc", 0, 0))
        made = from_buffers("binary_view", 1, [None, views, b"0123456789abc"])
        views[:16] = struct.pack("<i4sii", 2**31 - 1, b"0123", 9, 2**30)
        self.assertEqual(made.to_pylist(), [b"0123456789abc"])
        codes = bytearray(b"\0\1")
        made = from_buffers("dictionary<int8, utf8>", 2, [None, codes], (), column(["a", "b"]))
        codes[:] = b"\x7f\x80"
        for call in (made.to_pylist, lambda: select(made, [Take([1])]), lambda: check(made)):
            self.assertRaises(ValueError, call)

    def test_deep_types(self):
        before = _native.alive()
        for levels in (65, 240, 5000):
            with self.assertRaises(ValueError):
                column([None], "list<" * levels + "int8" + ">" * levels)
        gc.collect()
        self.assertEqual(_native.alive(), before)

    def test_random(self):
        """Buffers of random lengths and contents, for random types and lengths."""
        dice, end = random.Random(int(os.environ.get("VORTEX_SEED", "7"))), time.monotonic() + SECONDS
        types = ["int8", "bool", "utf8", "large_binary", "utf8_view", "list<int8>", "large_list<int8>",
                 "list_view<int8>", "large_list_view<int8>", "fixed_size_list<int8, 2>", "struct<a: int8>",
                 "sparse_union[0,1]<a: int8, b: utf8>", "dense_union[0,1]<a: int8, b: utf8>",
                 "fixed_size_binary(3)", "decimal128(9, 2)", "interval[nanoseconds]", "null",
                 "map<int8, int8>", "dictionary<int8, utf8>"]
        below = {"int8": column([1, 2, 3, None], "int8"), "utf8": column(["a", None, "ccc", ""])}
        pairs = column([[(1, 2)], [], [(3, None)]], "map<int8, int8>")
        entries = pairs._chunks[0].split()[0]
        from vortex_select.columns import column_over

        made_some = 0
        while time.monotonic() < end:
            kind = dice.choice(types)
            buffers = [
                dice.choice([None, dice.randbytes(dice.randrange(40)) if sys.version_info >= (3, 9)
                             else bytes(dice.randrange(256) for _ in range(dice.randrange(40))),
                             array(I4, [dice.randrange(-2, 6) for _ in range(6)]), bytes(64)])
                for _ in range(dice.randrange(4))
            ]
            children = []
            if kind[:3] == "map":
                children = [column_over([entries])]
            elif "<" in kind and kind[:4] != "dict":
                children = [below[name] for name in ("int8", "utf8") if name in kind]
            inner = below["utf8"] if kind[:4] == "dict" else None
            length, offset = dice.randrange(7), dice.randrange(3)
            try:
                made = from_buffers(kind, length, buffers, children, inner, offset, dice.random() < 0.7)
            except (ValueError, TypeError):
                continue
            made_some += 1
            if length:
                self.used(made)
        self.assertGreater(made_some, 0)


class Threads(unittest.TestCase):
    def test_exports(self):
        """Threads export, select from, read and drop one column at once."""
        rows = [{"d": word, "v": word * 9, "l": [word]} for word in ("a", "bb", "ccc")]
        of = "struct<d: dictionary<int8, utf8>, v: utf8_view, l: list_view<utf8_view>>"
        source, wrong, end = column(rows, of), [], time.monotonic() + SECONDS

        def work(k):
            while time.monotonic() < end:
                spent = source.__arrow_c_array__()
                found = select(Handing(spent) if k % 2 else source, [Take([2, 0])])
                if found.to_pylist() != [rows[2], rows[0]]:
                    wrong.append(found)
                del spent

        threads = [threading.Thread(target=work, args=(k,)) for k in range(6)]
        for thread in threads:
            thread.start()
        for thread in threads:
            thread.join()
        self.assertEqual(wrong, [])
        self.assertEqual(source.to_pylist(), rows)


def wild_numbers(dice, kind, most):
    """Numbers that mostly ascend, and sometimes don't, or are negative."""
    numbers = sorted(dice.randrange(most) for _ in range(40))
    if dice.random() < 0.3:
        numbers[dice.randrange(13)] = dice.choice([-1, most, 5])
    return array(kind, numbers)


def wild_views(dice):
    view = struct.Struct("<i4sii").pack
    return b"".join(
        view(dice.choice([-1, 3, 12, 13, 40]), bytes(4), dice.randrange(3), dice.randrange(-5, 100))
        for _ in range(40)
    )


def wild_buffers(dice, form):
    """The buffers behind the validity, each as long as the interface takes it to be."""
    if form in ("u", "z", "U", "+l", "+L"):
        numbers = wild_numbers(dice, I8 if form in ("U", "+L") else I4, 12)
        return [numbers] if form[0] == "+" else [numbers, bytes(4096)]
    if form == "vu":
        return [wild_views(dice), bytes(100), array(I8, [100])]
    if form == "+vl":
        return [wild_numbers(dice, I4, 9), wild_numbers(dice, I4, 5)]
    return [] if form in ("+s", "+w:2", "n") else [bytes(dice.randrange(256) for _ in range(640))]


def wild(dice, depth):
    """A field and an array that may contradict each other, but for the lengths of buffers."""
    form = dice.choice(FORMS if depth else FORMS[:6])
    below = [wild(dice, depth - 1) for _ in range(dice.choice([0, 1, 1, 2]) if form[0] == "+" else 0)]
    valid = None if dice.random() < 0.5 else bytes(dice.randrange(256) for _ in range(8))
    if form[:2] == "+u":
        ids = bytes(dice.choice([0, 0, 1, 5]) for _ in range(40))
        data = [ids] + ([wild_numbers(dice, I4, 9)] if form[2] == "d" else [])
    else:
        data = [] if form == "n" else [valid, *wild_buffers(dice, form)]
    if data and dice.random() < 0.1:
        data[dice.randrange(len(data))] = None
    inner = wild(dice, 0) if form in ("c", "l") and depth and dice.random() < 0.5 else None
    field = Field(form, "x", 2, None, tuple(one for one, _ in below), inner and inner[0])
    rows = dice.randrange(-1, 9), dice.choice([0, -1, 1]), dice.choice([0, 0, -1, 3])
    return field, producer.Made(*rows, data, [one for _, one in below], inner and inner[1])


FORMS = "c l b u U n z vu +l +L +vl +s +w:2 +us:0 +ud:0,1 w:3 d:9,2 x".split()


class Capsules(unittest.TestCase):
    """Random arrays of a producer that lies of all but the lengths of its buffers."""

    def used(self, source):
        try:
            whole = select(source, [])
        except (ValueError, OverflowError, BrokenStep):
            return 0
        for call in (whole.to_pylist, lambda: check(whole), lambda: pickle.dumps(whole)):
            try:
                call()
            except (ValueError, OverflowError):
                pass
        return 1

    def test_random(self):
        dice, end = random.Random(int(os.environ.get("VORTEX_SEED", "11"))), time.monotonic() + SECONDS
        before, made_some = len(producer.alive), 0
        while time.monotonic() < end:
            made_some += self.used(producer.Produced(*wild(dice, 2)))
        gc.collect()
        self.assertGreater(made_some, 0)
        self.assertEqual(len(producer.alive), before)


if __name__ == "__main__":
    unittest.main()
