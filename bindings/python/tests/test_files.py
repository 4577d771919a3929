"""Files of columns: what is written and read, what is refused, and how a file is replaced."""

import json
import os
import pickle
import resource
import struct
import tempfile
import threading
import unittest
from array import array
from pathlib import Path

import file_model
from file_model import field, file_of, put_back, taken_apart
from vortex_select import Slice, check, column, select
from vortex_select._arrays import Plain
from vortex_select._sources import column_of, source_of
from vortex_select.columns import column_over
from vortex_select.parts import DamagedPart, read_column, select_parts, write_column


class Files(unittest.TestCase):
    def setUp(self):
        folder = tempfile.TemporaryDirectory()
        self.addCleanup(folder.cleanup)
        self.folder = folder.name
        self.path = os.path.join(folder.name, "column")

    def put(self, data):
        Path(self.path).write_bytes(data)

    def refused(self, words, data=None, **more):
        if data is not None:
            self.put(data)
        with self.assertRaisesRegex(ValueError, words):
            read_column(self.path, **more)


class Written(Files):
    def test_each_type(self):
        for type, rows in file_model.EACH:
            with self.subTest(type):
                write_column(self.path, column(rows, type))
                for trusted in (False, True):
                    found = read_column(self.path, trusted=trusted)
                    check(found)
                    self.assertEqual((found.type, len(found)), (type, len(rows)))
                    self.assertEqual(found.to_pylist(), rows)
                self.assertEqual(select(found, [Slice(1, 2)]).to_pylist(), rows[1:2])
                copy = pickle.loads(pickle.dumps(found))
                self.assertEqual((copy.type, copy.to_pylist()), (type, rows))
                for row in rows:
                    write_column(self.path, column([row], type))
                    self.assertEqual(read_column(self.path).to_pylist(), [row])

    def test_counts_of_nulls(self):
        """A count that isn't 0 is told, or -1 where the validity says it."""
        for type, rows, wanted in (
            ("int8", [1, 2], 0),
            ("int8", [1, None], -1),
            ("utf8_view", ["a", None], -1),
            ("struct<>", [{}, None], -1),
            ("struct<>", [{}, {}], 0),
            ("null", [None, None], 2),
            ("sparse_union<a: int8>", [1, None], 0),
            ("dense_union<a: int8>", [1, None], 0),
        ):
            write_column(self.path, column(rows, type))
            (array,) = source_of(read_column(self.path)).arrays
            self.assertEqual(array.node.null_count, wanted, type)

    def test_no_rows(self):
        for type, _ in file_model.EACH:
            with self.subTest(type):
                write_column(self.path, column([], type))
                found = read_column(self.path)
                self.assertEqual((found.type, found.to_pylist()), (type, []))

    def test_what_a_type_says(self):
        """Names, flags and metadata are kept, at each level."""
        of = "struct<a: dictionary<int8, utf8>, b: int8>"
        source = source_of(column([{"a": "x", "b": None}], of))
        pairs = struct.pack("<ii1si2si0si3s", 2, 1, b"k", 2, b"vv", 0, b"", 3, b"end")
        first, second = source.field.children
        first = first._replace(flags=3, metadata=pairs)
        second = second._replace(name="é", metadata=struct.pack("<i", 0))
        top = source.field._replace(name="top", flags=0, metadata=pairs)
        wanted = top._replace(children=(first, second))
        write_column(self.path, column_of(wanted, source.plain()))
        self.assertEqual(source_of(read_column(self.path)).field, wanted)

    def test_several_arrays(self):
        """A column of several arrays, and an array with an offset, are written as one."""
        whole = column(["a", None, "c", "d"], "utf8")
        write_column(self.path, select(whole, [Slice(1, 3)]))
        self.assertEqual(read_column(self.path).to_pylist(), [None, "c"])
        columns = [whole, column([], "utf8"), column(["e"], "utf8")]
        several = column_over([array for each in columns for array in source_of(each).arrays])
        write_column(self.path, several)
        self.assertEqual(read_column(self.path).to_pylist(), ["a", None, "c", "d", "e"])
        found = select_parts(map, [several, self.path], [Slice(2, 7)])
        self.assertEqual(found.to_pylist(), ["c", "d", "e", "a", None])

    def test_bytes_of_a_file(self):
        """The format of docs/PARTS.md, from a writer and for a reader of its own."""
        write_column(self.path, column([5, None], "int32"))
        head, body = taken_apart(Path(self.path).read_bytes())
        of, node, places, size = head
        self.assertEqual(of, field("i"))
        self.assertEqual((node, size), ([2, [0, 1], [], None], 128))
        self.assertEqual([place[:2] for place in places], [[0, 1], [64, 8]])
        self.assertEqual((body[:1], body[64:72]), (b"\x01", struct.pack("<ii", 5, 0)))
        self.assertEqual((len(body), os.path.getsize(self.path) % 64), (128, 0))
        here = Path(__file__).resolve().parent
        page = (here / "../../../docs/PARTS.md").resolve().read_text()
        text = Path(self.path).read_bytes()[24 : -len(body)].decode()
        self.assertEqual(page.split("```json\n")[1].split("```")[0].strip(), text.strip(" "))
        self.put(file_of(field("s"), [2, [None, 0], [], None], [struct.pack("<hh", 7, -8)]))
        found = read_column(self.path)
        self.assertEqual((found.type, found.to_pylist()), ("int16", [7, -8]))

    def test_other_objects(self):
        class Other:
            def __arrow_c_array__(self, requested_schema=None):
                return column([1, None], "int8").__arrow_c_array__()

        write_column(Path(self.path), Other())
        self.assertEqual(read_column(os.fsencode(self.path)).to_pylist(), [1, None])
        write_column(os.fsencode(self.path), column([2]))
        self.assertEqual(read_column(Path(self.path)).to_pylist(), [2])
        self.assertEqual(os.listdir(self.folder), ["column"])
        words = "expected an object with __arrow_c_array__, got list"
        with self.assertRaisesRegex(TypeError, words):
            write_column(self.path, [1])


class Replaced(Files):
    """A file is there whole, and a column of the file before keeps its rows."""

    def test_under_a_reader(self):
        write_column(self.path, column(["old"] * 5000))
        old = read_column(self.path)
        write_column(self.path, column(["new"]))
        self.assertEqual(old.to_pylist(), ["old"] * 5000)
        self.assertEqual(read_column(self.path).to_pylist(), ["new"])
        os.remove(self.path)
        self.assertEqual(old.to_pylist(), ["old"] * 5000)

    def test_writing_fails(self):
        write_column(self.path, column([1]))
        bound = resource.getrlimit(resource.RLIMIT_FSIZE)
        resource.setrlimit(resource.RLIMIT_FSIZE, (1000, bound[1]))
        try:
            with self.assertRaises(OSError):
                write_column(self.path, column(["x" * 5000]))
        finally:
            resource.setrlimit(resource.RLIMIT_FSIZE, bound)
        self.assertEqual(os.listdir(self.folder), ["column"])
        self.assertEqual(read_column(self.path).to_pylist(), [1])

    def test_name_that_is_a_folder(self):
        os.mkdir(self.path)
        with self.assertRaises(OSError):
            write_column(self.path, column([1]))
        self.assertEqual(os.listdir(self.folder), ["column"])
        with self.assertRaises(OSError):
            write_column(os.path.join(self.folder, "none", "column"), column([1]))
        self.assertEqual(os.listdir(self.folder), ["column"])

    def test_many_writers(self):
        """Each read sees the whole file of one of the writers."""
        columns = [column([k] * (500 * k + 1)) for k in range(4)]
        write_column(self.path, columns[0])

        def write(one):
            for _ in range(20):
                write_column(self.path, one)

        threads = [threading.Thread(target=write, args=(one,)) for one in columns]
        for thread in threads:
            thread.start()
        for _ in range(50):
            rows = read_column(self.path).to_pylist()
            self.assertEqual(rows, [rows[0]] * (500 * rows[0] + 1))
        for thread in threads:
            thread.join()
        self.assertEqual(os.listdir(self.folder), ["column"])


class Columns(Files):
    ROWS = [{"a": 1, "b": "x"}, None, {"a": None, "b": None}]

    def setUp(self):
        super().setUp()
        write_column(self.path, column(self.ROWS, "struct<a: int8, b: utf8>"))

    def test_columns(self):
        for names in (["a"], ["b"], ["b", "a"], [], ["a", "a"]):
            found = read_column(self.path, names)
            wanted = [row and {name: row[name] for name in names} for row in self.ROWS]
            self.assertEqual(found.to_pylist(), wanted)
        self.assertEqual(read_column(self.path, ["b", "a"]).type, "struct<b: utf8, a: int8>")
        self.refused("columns: expected some of .*, got 'c'", columns=["a", "c"])
        write_column(self.path, column([[1]], "list<int8>"))
        for names in (["item"], []):
            self.refused("columns: expected a column of structs, got list<int8>", columns=names)

    def test_other_columns_are_not_read(self):
        """Damage in one column is no fault of the others. The validity is that of all."""
        data = Path(self.path).read_bytes()
        head, body = taken_apart(data)
        start = len(data) - len(body)
        struct_valid, a_valid, a_values, b_valid, b_offsets, b_data = (at for at, _, _ in head[2])
        for damaged, good in (
            (a_values, ["b"]),
            (a_valid, ["b"]),
            (b_data, ["a"]),
            (b_offsets, ["a"]),
            (b_valid, ["a"]),
            (struct_valid, None),
        ):
            changed = bytearray(data)
            changed[start + damaged] ^= 1
            self.put(changed)
            self.refused("buffer [0-5] of the file: expected checksum [0-9]+, got another")
            for names in (["a"], ["b"]):
                if names == good:
                    rows = [row and {name: row[name] for name in names} for row in self.ROWS]
                    self.assertEqual(read_column(self.path, names).to_pylist(), rows)
                else:
                    self.refused("expected checksum", columns=names)

    def test_trusted(self):
        data = bytearray(Path(self.path).read_bytes())
        head, body = taken_apart(bytes(data))
        data[len(data) - len(body) + head[2][2][0]] = 9
        self.put(data)
        self.refused("expected checksum")
        rows = [{"a": 9, "b": "x"}, None, {"a": None, "b": None}]
        self.assertEqual(read_column(self.path, trusted=True).to_pylist(), rows)


class Hostile(Files):
    """What a file says is tested before its bytes are read."""

    def test_files(self):
        write_column(self.path, column([1, 2], "int8"))
        good = Path(self.path).read_bytes()
        for words, data in (
            ("expected a file of write_column, got an empty file", b""),
            ("expected a file of write_column, got other bytes", b"x" * 100),
            ("expected a file of write_column, got other bytes", good[:23]),
            ("expected version 2 of the format, got version 1", b"VXPART1\n" + good[8:]),
            ("the file has 100 bytes, but its head ends at 128", good[:100]),
            ("head: expected checksum [0-9]+, got another", good[:40] + b"}" + good[41:]),
            ("the file has 191 bytes, expected 192", good[:-1]),
            ("the file has 193 bytes, expected 192", good + b"\0"),
            ("head: expected checksum [0-9]+, got another", good[:16] + bytes(8) + good[24:]),
        ):
            for trusted in (False, True):
                self.refused(words, data, trusted=trusted)
        self.assertEqual(len(good), 192)
        os.remove(self.path)
        with self.assertRaises(FileNotFoundError):
            read_column(self.path)
        with self.assertRaises(OSError):
            read_column(self.folder)

    def test_texts(self):
        """Heads that aren't the JSON that is expected."""
        for words, text in (
            ("", b"{"),
            ("", b"\xff\xfe"),
            ("head: expected fewer nested lists", b"[" * 100_000),
            ("head: expected fewer nested lists", b'{"a":' * 100_000),
            ("expected a number of at most 19 digits, got 20", b"[1" + b"0" * 19 + b"]"),
            ("expected a number of at most 19 digits, got 1000000", b"[" + b"7" * 1_000_000 + b"]"),
            ("expected whole numbers, got 1.5", b"[1.5]"),
            ("expected whole numbers, got 1e9", b"[1e9]"),
            ("expected whole numbers, got NaN", b"[NaN]"),
            ("the head: expected a list of 4, got a dict of 0", b"{}"),
            ("the head: expected a list of 4, got 7", b"7"),
            ("the head: expected a list of 4, got a list of 3", b"[1,2,3]"),
        ):
            for trusted in (False, True):
                self.refused(words, put_back(text, b""), trusted=trusted)

    def test_a_head_that_is_not_padded(self):
        write_column(self.path, column([1], "int8"))
        data = Path(self.path).read_bytes()
        head, body = taken_apart(data)
        text = json.dumps(head).encode()
        self.assertNotEqual((24 + len(text)) % 64, 0)
        begin = file_model.MAGIC + struct.pack("<QQ", len(text), file_model.zlib.crc32(text))
        self.refused("body: expected a start that is a multiple of 64, got", begin + text + body)

    def changed(self, type, rows, change, words, trusted=(False, True)):
        """Write a column, change the values of its head, and expect a fault with these words."""
        write_column(self.path, column(rows, type))
        head, body = taken_apart(Path(self.path).read_bytes())
        change(head)
        for each in trusted:
            with self.subTest(f"{type}: {words}"):
                self.refused(words, put_back(head, body), trusted=each)

    def at(self, *path):
        """Return a function that puts a value at a path of a head, which is the last one."""
        *path, last, value = path

        def change(head):
            for step in path:
                head = head[step]
            head[last] = value

        return change

    def test_kinds(self):
        for path, words in (
            ((0,), "a field: expected a list of 6"),
            ((0, 0), "a format: expected a string without NUL"),
            ((0, 1), "a name: expected a string without NUL"),
            ((0, 2), "flags: expected a number from 0 to 7"),
            ((0, 3), "metadata: expected a string without NUL"),
            ((0, 4), "children of format 'i': expected a list of 0"),
            ((0, 5), "a field: expected a list of 6"),
            ((1,), "an array: expected a list of 4"),
            ((1, 0), "a length: expected a number from 0 to 1152921504606846975"),
            ((1, 1), "buffers of format 'i': expected a list of 2"),
            ((1, 1, 1), "buffers of format 'i': expected a number from 0 to 1"),
            ((1, 2), "children of an array of format 'i': expected a list of 0"),
            ((2,), "the buffers: expected a list"),
            ((2, 0), "a buffer: expected a list of 3"),
            ((2, 0, 0), "a place: expected a number"),
            ((2, 0, 1), "a size: expected a number"),
            ((2, 0, 2), "a checksum: expected a number from 0 to 4294967295"),
            ((3,), "the length of the body: expected a number"),
        ):
            for value in (True, {}, {"a": 1}, "\0") + ([[]], [1, 2, 3, 4, 5]) * (path != (2,)):
                self.changed("int32", [5, None], self.at(*path, value), words, (False,))
        for path in ((0, 2), (1, 0), (1, 1, 1), (2, 0, 0), (2, 0, 1), (2, 0, 2), (3,)):
            for value in (-1, 2**60, 2**63 - 1, None):
                change, words = self.at(*path, value), "expected a number from 0"
                self.changed("int32", [5, None], change, words, (False,))

    def test_nodes(self):
        one = [5, None]
        for type, rows, path, value, words in (
            ("int32", one, (0, 0), "foo", "unknown format 'foo'"),
            ("int32", one, (0, 0), "+r", "unknown format"),
            ("int32", one, (0, 0), "d:5", "unknown format"),
            ("int32", one, (0, 0), "d:5,2,96", "unknown format"),
            ("int32", one, (0, 0), "w:-1", "unknown format"),
            ("int32", one, (0, 0), "w:2147483648", "unknown format"),
            ("int32", one, (0, 0), "tsx:", "unknown format"),
            ("int32", one, (0, 0), "ts", "unknown format"),
            ("int32", one, (0, 0), "i\n", "unknown format"),
            ("int32", one, (0, 0), "l", "values of format 'l': expected 16 bytes, got 8"),
            ("int32", one, (0, 0), "w:5", "values of format 'w:5': expected 10 bytes, got 8"),
            ("int32", one, (0, 0), "u", "buffers of format 'u': expected a list of 3"),
            ("int32", one, (0, 1), "\ud800", "expected a string that UTF-8 can encode"),
            ("int32", one, (0, 3), "abc", "fromhex"),
            ("int32", one, (0, 3), "", "metadata: expected strings within its 0 bytes, got more"),
            ("int32", one, (0, 3), "00000080",
             "metadata: expected strings within its 4 bytes, got more"),
            ("int32", one, (0, 3), "01000000ffffffff", "metadata: expected strings within its"),
            ("int32", one, (0, 3), "010000000100000061", "metadata: expected strings within its"),
            ("int32", one, (0, 3), "0000000000", "metadata: expected 4 bytes, got 5"),
            ("int32", one, (0, 5), field("i"), "expected a dictionary if the type"),
            ("float32", [1.5], (0, 5), field("i"), "codes that are integers, got format 'f'"),
            ("int32", one, (1, 0), 3, "values of format 'i': expected 12 bytes, got 8"),
            ("int32", one, (1, 0), 9, "validity of format 'i': expected 2 bytes, got 1"),
            ("int32", one, (1, 1), [0, None], "buffers of format 'i': expected a number"),
            ("int32", one, (1, 1), [0, 2], "expected a number from 0 to 1, got 2"),
            ("int32", one, (1, 1), [0, 1, 1], "expected a list of 2, got a list of 3"),
            ("int32", one, (1, 3), [1, [], [], None], "expected a dictionary if the type"),
            ("int32", one, (2, 1, 0), 1, "at a multiple of 64 within 128, got 8 bytes at 1"),
            ("int32", one, (2, 1, 0), 128,
             "expected a buffer at a multiple of 64 within 128, got 8 bytes at 128"),
            ("int32", one, (2, 1, 1), 65,
             "expected a buffer at a multiple of 64 within 128, got 65 bytes at 64"),
            ("int32", one, (2, 1, 1), 7, "values of format 'i': expected 8 bytes, got 7"),
            ("int32", one, (3,), 129, "expected"),
            ("utf8", ["ab"], (1, 0), 2, "offsets of format 'u': expected 12 bytes, got 8"),
            ("utf8", ["ab"], (1, 1), [None, None, 1], "expected a number"),
            ("list<int8>", [[1, 2]], (1, 2, 0, 0), 1,
             "offsets: expected a last one from 0 to 1, got 2"),
            ("list<int8>", [[1, 2]], (0, 4), [], "expected a list of 1, got a list of 0"),
            ("large_list<int8>", [[1, 2]], (1, 2, 0, 0), 1,
             "expected a last one from 0 to 1, got 2"),
            ("map<int8, int8>", [[(1, 2)]], (1, 2, 0, 0), 0,
             "expected a last one from 0 to 0, got 1"),
            ("list<int8>", [[1, 2]], (1, 2), [], "expected a list of 1, got a list of 0"),
            ("list_view<int8>", [[1]], (1, 0), 2, "'[+]vl': expected 8 bytes, got 4"),
            ("utf8_view", ["a"], (1, 0), 2, "views of format 'vu': expected 32 bytes, got 16"),
            ("bool", [True], (1, 0), 9, "values of format 'b': expected 2 bytes, got 1"),
            ("large_utf8", ["a"], (1, 0), 2, "offsets of format 'U': expected 24 bytes, got 16"),
            ("large_list<int8>", [[1]], (1, 0), 2, "'[+]L': expected 24 bytes, got 16"),
            ("large_list_view<int8>", [[1]], (1, 0), 2, "expected 16 bytes, got 8"),
            ("sparse_union<a: int8>", [1], (1, 0), 2, "type ids of .*: expected 2 bytes, got 1"),
            ("dense_union<a: int8>", [1], (1, 0), 2, "type ids of .*: expected 2 bytes, got 1"),
            ("utf8_view", ["a" * 20], (1, 1), [None, 0], "expected at least 3, got 2"),
            ("utf8_view", ["a" * 20], (1, 1), [None, 0, 2], "lengths of the data buffers"),
            ("utf8_view", ["a" * 20], (1, 1), [None, 0, 1, 1, 2], "lengths of the data buffers"),
            ("struct<a: int8>", [{"a": 1}], (1, 0), 2, "child: expected at least 2 rows, got 1"),
            ("fixed_size_list<int8, 2>", [[1, 2]], (0, 0), "+w:3",
             "child: expected at least 3 rows, got 2"),
            ("sparse_union<a: int8>", [1], (1, 2, 0, 0), 0,
             "child: expected at least 1 rows, got 0"),
            ("sparse_union<a: int8>", [1], (0, 0), "+us:0,1", "expected a list of 2, got"),
            ("sparse_union<a: int8>", [1], (0, 0), "+us:128", "expected type ids from 0 to 127"),
            ("sparse_union<a: int8>", [1], (0, 0), "+us:x", "expected type ids from 0 to 127"),
            ("sparse_union<a: int8>", [1], (0, 0), "+us:1,", "expected type ids from 0 to 127"),
            ("sparse_union<a: int8>", [1], (0, 0), "+us:1,1", "expected each type id once"),
            ("sparse_union<a: int8>", [1], (1, 1, 0), None, "expected a number"),
            ("map<int8, int8>", [[(1, 2)]], (0, 4, 0, 0), "+l", "expected a list of 1"),
            ("map<int8, int8>", [[(1, 2)]], (0, 4, 0), field("i"),
             "map: expected a child that is a struct"),
            ("map<int8, int8>", [[(1, 2)]], (0, 4, 0, 4), [field("c")],
             "map: expected a child that is a struct"),
            ("dictionary<int8, utf8>", ["a"], (0, 5), None, "expected a dictionary if the type"),
            ("dictionary<int8, utf8>", ["a"], (1, 3), None, "expected a dictionary if the type"),
            ("dictionary<int8, utf8>", ["a"], (1, 3, 0), 2, "offsets of format 'u'"),
        ):
            self.changed(type, rows, self.at(*path, value), words)
        for type, rows, form, size in (
            ("utf8", ["a"], "u", 4),
            ("binary", [b"a"], "z", 4),
            ("large_utf8", ["a"], "U", 8),
            ("large_binary", [b"a"], "Z", 8),
            ("list<int8>", [[1]], "[+]l", 4),
            ("large_list<int8>", [[1]], "[+]L", 8),
            ("map<int8, int8>", [[(1, 2)]], "[+]m", 4),
        ):
            words = f"offsets of format '{form}': expected {10 * size} bytes, got {2 * size}"
            self.changed(type, rows, self.at(1, 0, 9), words)
            words = f"offsets of format '{form}': expected {2 * size} bytes, got {2 * size - 1}"
            self.changed(type, rows, self.at(2, 0, 1, 2 * size - 1), words)
        for form in ("list_view", "large_list_view"):
            change = self.at(2, 1, 1, 1)
            self.changed(f"{form}<int8>", [[1]], change, "sizes of format '[+]v.': expected . byt")
        words = "offsets of .*: expected 4 bytes, got 3"
        self.changed("dense_union<a: int8>", [1], self.at(2, 1, 1, 3), words)
        for type, rows, path, value, words in (
            ("utf8", ["ab"], (2, 1, 1), 1, "offsets: expected a last one from 0 to 1, got 2"),
            ("large_utf8", ["ab"], (2, 1, 1), 1, "offsets: expected a last one from 0 to 1, got 2"),
            ("binary", [b"", b"abc"], (2, 1, 1), 2,
             "offsets: expected a last one from 0 to 2, got 3"),
            ("large_binary", [b"", b"abc"], (2, 1, 1), 2, "expected a last one from 0 to 2, got 3"),
            ("utf8_view", ["a" * 20], (2, 1, 1), 19, "lengths of the data buffers"),
        ):
            self.changed(type, rows, self.at(*path, value), words, (True,))
            self.changed(type, rows, self.at(*path, value), "expected checksum", (False,))

    def test_contents(self):
        """Bytes that the checksums fit, but that aren't a column, are refused by `check`."""
        offsets, one = struct.pack("<iii", 0, 5, 3), struct.pack("<i", 1)
        view, child = struct.pack("<i4sii", 20, b"aaaa", 0, 0), [field("c")]

        def items(buffer):
            return [[1, [None, buffer], [], None]]

        for of, node, buffers, words in (
            (field("u"), [2, [None, 0, 1], [], None], [offsets, b"abcde"], "offsets"),
            (field("vu"), [1, [None, 0, 1], [], None], [view, b""], "view"),
            (field("+us:3", children=child), [1, [0], items(1), None], [b"\5", b"x"], "id"),
            (field("+vl", children=child), [1, [None, 0, 1], items(2), None], [one, one, b"x"], ""),
        ):
            self.refused(words, file_of(of, node, buffers))

    def test_contents_of_trusted_files(self):
        """A read that leads outside of the buffers fails, also if the file is trusted."""
        offsets, child = struct.pack("<ii", 3, 1), [field("c")]
        items = [5, [None, 0], [], None]
        for of, node, buffers, words in (
            (
                field("u"),
                [1, [None, 0, 1], [], None],
                [offsets, b"abcde"],
                "offsets: expected offsets that ascend within the child or data, got others",
            ),
            (
                field("+l", children=child),
                [1, [None, 1], [items], None],
                [b"abcde", offsets],
                "offsets: expected offsets that ascend within the child or data, got others",
            ),
            (
                field("vu"),
                [1, [None, 1, 0, 2], [], None],
                [b"x" * 20, struct.pack("<i4sii", 20, b"xxxx", 1, 0), struct.pack("<q", 20)],
                "views: expected views within the data buffers, got one outside of them",
            ),
            (
                field("vu"),
                [1, [None, 1, 0, 2], [], None],
                [b"x" * 20, struct.pack("<i4sii", 20, b"xxxx", 0, 1), struct.pack("<q", 20)],
                "views: expected views within the data buffers, got one outside of them",
            ),
            (
                field("+ud:3", children=child),
                [1, [1, 2], [items], None],
                [b"abcde", b"\5", bytes(4)],
                "type id: expected one of .3., got 5",
            ),
            (
                field("+ud:3", children=child),
                [1, [1, 2], [items], None],
                [b"abcde", b"\3", struct.pack("<i", 5)],
                "rows of a child: expected a range within 5, got 5 to 6",
            ),
        ):
            self.put(file_of(of, node, buffers))
            self.refused("", trusted=False)
            found = read_column(self.path, trusted=True)
            with self.assertRaisesRegex(ValueError, words):
                pickle.dumps(found)

    def test_widths(self):
        """Eight rows need as many bytes as a row has bits."""
        for bits, forms in (
            (8, "c C"),
            (16, "s S e"),
            (32, "i I f tdD tts ttm tiM"),
            (64, "l L g tdm ttu ttn tDs tDm tDu tDn tss: tsm:UTC tsu:a:b tsn: tiD"),
            (128, "tin d:5,1 d:5,-1,128 w:16"),
            (24, "w:3"),
            (32, "d:5,1,32"),
            (64, "d:5,1,64"),
            (256, "d:5,1,256"),
            (1, "b"),
        ):
            for form in forms.split():
                for short in (0, 1):
                    node = [8, [None, 0], [], None]
                    data = file_of(field(form), node, [bytes(bits - short)])
                    if short:
                        words = f"'{form}': expected {bits} bytes, got {bits - 1}"
                        self.refused("values of format " + words, data)
                    else:
                        self.put(data)
                        self.assertEqual(len(read_column(self.path)), 8, form)

    def test_offsets_below_zero(self):
        for form, letter in (("u", "i"), ("U", "q")):
            offsets = struct.pack("<2" + letter, 0, -1)
            data = file_of(field(form), [1, [None, 0, 1], [], None], [offsets, b"abc"])
            for trusted in (False, True):
                self.refused("offsets: expected a last one from 0 to 3, got -1", data, trusted=trusted)

    def test_type_ids(self):
        """The greatest type id is 127."""
        node = [1, [0], [[1, [None, 1], [], None]], None]
        self.put(file_of(field("+us:127", children=[field("c", "a")]), node, [b"\x7f", b"\5"]))
        found = read_column(self.path)
        self.assertEqual((found.type, found.to_pylist()), ("sparse_union[127]<a: int8>", [5]))

    def test_longer_buffers(self):
        """Bytes behind what the rows need have no meaning."""
        offsets = struct.pack("<iiii", 0, 1, 3, 99)
        self.put(file_of(field("u"), [2, [0, 1, 2], [], None], [b"\xff\xff", offsets, b"abcdef"]))
        self.assertEqual(read_column(self.path).to_pylist(), ["a", "bc"])
        self.put(file_of(field("s"), [1, [None, 0], [], None], [struct.pack("<hh", 7, 8)]))
        self.assertEqual(read_column(self.path).to_pylist(), [7])
        child = field("c", "item")
        items = [3, [None, 1], [], None]
        node = [1, [None, 0], [items], None]
        self.put(file_of(field("+l", children=[child]), node, [offsets[:12], b"xyz"]))
        self.assertEqual(read_column(self.path).to_pylist(), [[120]])

    def test_depth(self):
        """Columns of 64 levels are read, and of more refused."""
        for levels, form in ((64, "+w:1"), (65, "+w:1")):
            of, node = field("c"), [1, [None, 0], [], None]
            for _ in range(levels - 1):
                of, node = field(form, children=[of]), [1, [None], [node], None]
            self.put(file_of(of, node, [b"\7"]))
            if levels == 64:
                self.assertEqual(len(read_column(self.path)), 1)
            else:
                for trusted in (False, True):
                    self.refused("at most 65536 nodes and 64 levels", trusted=trusted)
        of, node = field("c"), [0, [None, 0], [], None]
        for _ in range(64):
            of, node = field("c", dictionary=of), [0, [None, 0], [], node]
        self.refused("at most 65536 nodes and 64 levels", file_of(of, node, [b""]))

    def test_width(self):
        for count in (65_535, 65_536):
            of, node = field("n"), [0, [], [], None]
            top, rows = field("+s", children=[of] * count), [0, [None], [node] * count, None]
            data = file_of(top, rows, [])
            if count == 65_536:
                self.refused("at most 65536 nodes", data)
            else:
                self.put(data)
                self.assertEqual(read_column(self.path, []).type, "struct<>")

    def test_rows_without_bytes(self):
        """Few bytes may not say that they have more rows than there is memory for."""
        for form, own in (("n", ()), ("+s", [None]), ("w:0", [None, 0])):
            buffers = [b""] * (form == "w:0")
            for count in (2**24 + 1, 2**32, 2**59, 2**60 - 1):
                data = file_of(field(form), [count, list(own), [], None], buffers)
                for trusted in (False, True):
                    words = f"0 bytes: expected at most 16777216 rows, got {count}"
                    self.refused(words, data, trusted=trusted)
                for steps in ([], [Slice(0, 1)]):
                    with self.assertRaisesRegex(DamagedPart, f"rows, got {count}"):
                        select_parts(map, [self.path], steps)
            self.put(file_of(field(form), [2**24, list(own), [], None], buffers))
            found = select_parts(map, [self.path], [Slice(2**24 - 1, 2**24)])
            self.assertEqual(len(found), 1)

    def test_rows_without_bytes_below_others(self):
        """A body of 2^21 + 64 bytes may have 2^24 + 512 rows, also in children and dictionaries."""
        bools, count = field("b", "b"), 2**24 + 8
        of, bits = field("+s", children=[field("n", "a"), bools]), bytes(count // 8)
        values = [count, [None, 0], [], None]
        for more, is_read in ((0, True), (504, True), (505, False)):
            node = [count, [None], [[count + more, [], [], None], values], None]
            data = file_of(of, node, [bits])
            if is_read:
                self.put(data)
                found = select(read_column(self.path, trusted=True), [Slice(count - 1, count)])
                self.assertEqual(found.to_pylist(), [{"a": None, "b": False}])
            else:
                self.refused("at most 16777728 rows, got 16777729", data, trusted=True)
        node = [1, [None, 0], [], [2**24 + 1, [], [], None]]
        data = file_of(field("c", dictionary=field("n")), node, [b"\0"])
        self.refused("rows, got 16777217", data)
        of, node = field("+w:2", children=[field("n")]), [2**23 + 1, [None], [], None]
        node[2] = [[2**24 + 2, [], [], None]]
        self.refused("rows, got 16777218", file_of(of, node, []))

    def test_writing_more_rows_than_can_be_read(self):
        rows, of = 2**24, source_of(column([None], "null")).field
        write_column(self.path, column_of(of, Plain(rows, rows, ())))
        self.assertEqual(len(read_column(self.path)), rows)
        with self.assertRaisesRegex(ValueError, "at most 16777216 rows, got 16777217"):
            write_column(self.path, column_of(of, Plain(rows + 1, rows + 1, ())))
        self.assertEqual(len(read_column(self.path)), rows)

    def test_writing_what_can_not_be_read(self):
        source = source_of(column([1], "int8"))
        with self.assertRaisesRegex(ValueError, "flags: expected a number from 0 to 7, got 8"):
            write_column(self.path, column_of(source.field._replace(flags=8), source.plain()))
        self.assertEqual(os.listdir(self.folder), [])


class Npy(Files):
    def setUp(self):
        super().setUp()
        self.path += ".npy"

    def load(self, said, data, version=(1, 0)):
        from vortex_select.parts import load

        encoding = "utf-8" if version == (3, 0) else "latin-1"
        text = said if isinstance(said, bytes) else said.encode(encoding)
        size = struct.pack("<H" if version == (1, 0) else "<I", len(text))
        self.put(b"\x93NUMPY" + bytes(version) + size + text + data)
        return load(self.path)

    @staticmethod
    def said(descr="'<i4'", order="False", shape="(3,)"):
        text = f"{{'descr': {descr}, 'fortran_order': {order}, 'shape': {shape}, }}"
        return text.ljust(117) + "\n"

    def test_types(self):
        for descr, type, letter in (
            ("|i1", "int8", "b"),
            ("<i2", "int16", "h"),
            ("<i4", "int32", "i"),
            ("<i8", "int64", "q"),
            ("|u1", "uint8", "B"),
            ("<u2", "uint16", "H"),
            ("<u4", "uint32", "I"),
            ("<u8", "uint64", "Q"),
            ("<f4", "float32", "f"),
            ("<f8", "float64", "d"),
        ):
            found = self.load(self.said(repr(descr)), array(letter, [7, 0, 5]).tobytes())
            self.assertEqual((found.type, found.to_pylist()), (type, [7, 0, 5]))
        found = self.load(self.said("'<f2'"), struct.pack("<eee", 1.5, 0, -2))
        self.assertEqual((found.type, found.to_pylist()), ("float16", [1.5, 0, -2]))

    def test_versions(self):
        data = array("i", [7, 8, 9]).tobytes()
        for version in ((1, 0), (2, 0), (3, 0)):
            for order in ("False", "True"):
                found = self.load(self.said(order=order), data, version)
                self.assertEqual(found.to_pylist(), [7, 8, 9])
            wide = self.load(self.said().strip().ljust(4095) + "\n", data, version)
            self.assertEqual(wide.to_pylist(), [7, 8, 9])
        self.assertEqual(self.load(self.said(shape="(0,)"), b"").to_pylist(), [])
        self.assertEqual(self.load(self.said(), data + b"and more").to_pylist(), [7, 8, 9])

    def test_refusals(self):
        data = array("i", [7, 8, 9]).tobytes()
        for words, said, version in (
            ("big-endian", self.said("'>i4'"), (1, 0)),
            ("got <c8", self.said("'<c8'"), (1, 0)),
            (r"got \|b1", self.said("'|b1'"), (1, 0)),
            ("got 4", self.said("4"), (1, 0)),
            ("got .*'a', '<i4'", self.said("[('a', '<i4')]"), (1, 0)),
            (r"one dimension, got shape \(3, 1\)", self.said(shape="(3, 1)"), (1, 0)),
            (r"one dimension, got shape \(\)", self.said(shape="()"), (1, 0)),
            ("one dimension, got shape 3", self.said(shape="3"), (1, 0)),
            (r"one dimension, got shape \(-3,\)", self.said(shape="(-3,)"), (1, 0)),
            (r"one dimension, got shape \(True,\)", self.said(shape="(True,)"), (1, 0)),
            ("expected 16 bytes of numbers, got 12", self.said(shape="(4,)"), (1, 0)),
            ("expected 4000000000 bytes of numbers, got 12", self.said(shape="(1000000000,)"), (1, 0)),
            ("a fortran_order that is a bool", self.said(order="0"), (1, 0)),
            ("expected a header of descr", "{'descr': '<i4', 'shape': (3,)}", (1, 0)),
            ("expected a header of descr", "[1]", (1, 0)),
            ("expected a header of descr", "7", (1, 0)),
            ("expected a header of descr", "{'descr', 'fortran_order', 'shape'}", (1, 0)),
            ("expected a header of descr", "['descr', 'fortran_order', 'shape']", (1, 0)),
            ("expected a header of descr", self.said().strip()[:-1] + "'more': 1}", (1, 0)),
            ("expected a literal, got a SyntaxError", "{", (1, 0)),
            ("expected a literal, got a SyntaxError", "", (1, 0)),
            ("expected a literal, got a ValueError", "open('x')", (1, 0)),
            ("expected a literal, got a TypeError", "{[]: 1}", (1, 0)),
            ("expected a literal, got", "(" * 4000, (1, 0)),
            ("expected a literal, got", "-" * 4000 + "1", (1, 0)),
            ("expected a literal, got", "1" + "+1" * 2000, (1, 0)),
            ("at most 4096 bytes, got 4097", self.said().strip().ljust(4096) + "\n", (1, 0)),
            ("at most 4096 bytes, got 2000000", "(" * 2_000_000, (2, 0)),
            ("version 1.0, 2.0 or 3.0, got 4.0", self.said(), (4, 0)),
            ("version 1.0, 2.0 or 3.0, got 1.1", self.said(), (1, 1)),
            ("codec", b"\xff\xff", (3, 0)),
        ):
            with self.subTest(words), self.assertRaisesRegex(ValueError, words):
                self.load(said, data, version)

    def test_cut(self):
        data = array("i", [7, 8, 9]).tobytes()
        self.load(self.said(), data)
        whole = Path(self.path).read_bytes()
        from vortex_select.parts import load

        for end in range(len(whole)):
            self.put(whole[:end])
            with self.assertRaises(ValueError, msg=end):
                load(self.path)
        self.put(whole[:100])
        with self.assertRaisesRegex(ValueError, "has 100 bytes, but its header ends at 128"):
            load(self.path)
        self.put(b"\x94" + whole[1:])
        with self.assertRaisesRegex(ValueError, "expected an .npy file, got other bytes"):
            load(self.path)


if __name__ == "__main__":
    unittest.main()
