"""Damages files of columns in every place: each is refused by a `ValueError`, or is a column.

A column that comes out is read whole. That of a trusted file may have other rows, but no read of it
may leave its memory. Each sweep runs in a process of its own, so a memory fault fails a test.

VORTEX_DAMAGE says how many damages are left out for each one that is made: 40 without it, and at 0
all are made.
"""

import contextlib
import copy
import json
import os
import pickle
import struct
import subprocess
import sys
import tempfile
import unittest
from functools import partial
from pathlib import Path

from file_model import EACH, put_back, taken_apart
from vortex_select import check, column
from vortex_select._sources import column_of, source_of
from vortex_select.parts import DamagedPart, read_column, select_parts, write_column

LEFT_OUT = int(os.environ.get("VORTEX_DAMAGE", "40"))
# Rows of a hostile length that need no bytes, such as those of a column of nulls, aren't listed.
MOST_ROWS = 100_000


def columns():
    """Return three columns that have all types between them. One has metadata."""
    rows = [(type, values[:3] + [None] * (3 - len(values))) for type, values in EACH]
    flat = [(type, values) for type, values in rows if "<" not in type and "view" not in type]
    nested = [(type, values) for type, values in rows if "<" in type and "union" not in type]
    other = [(type, values) for type, values in EACH if "view" in type or "union" in type]
    other = [(type, (values * 2)[:2]) for type, values in other]
    made = [struct_of(*zip(*some)) for some in (flat, nested, other)]
    source = source_of(made[2])
    pairs = struct.pack("<ii1si2s", 1, 1, b"k", 2, b"vv")
    return [*made[:2], column_of(source.field._replace(metadata=pairs), source.plain())]


def struct_of(types, values):
    named = ", ".join(f"f{k}: {type}" for k, type in enumerate(types))
    rows = [{f"f{k}": value for k, value in enumerate(row)} for row in zip(*values)]
    return column(rows, f"struct<{named}>")


# Damages: each yields functions that make a file, of a file that is whole.


def flips(data):
    """Change each byte."""
    for place in range(len(data)):
        for bits in (1, 0x80, 0xFF):
            yield partial(flipped, data, place, bits)


def flipped(data, place, bits):
    return data[:place] + bytes([data[place] ^ bits]) + data[place + 1 :]


def cuts(data):
    """Cut the file at each length, and put bytes behind it."""
    for end in range(len(data)):
        yield partial(data.__getitem__, slice(end))
    for more in (1, 64, 4096):
        yield partial(data.__add__, bytes(more))


def places_in(value, path=()):
    """Return the paths of all values of a head."""
    yield path
    if isinstance(value, list):
        for k, each in enumerate(value):
            yield from places_in(each, (*path, k))


def at(value, path):
    for step in path:
        value = value[step]
    return value


def replaced(head, path, value):
    """Return a copy of a head, with a value at a path."""
    if not path:
        return value
    changed = copy.deepcopy(head)
    at(changed, path[:-1])[path[-1]] = value
    return changed


HUGE = [2**31 - 1, 2**31, 2**32, 2**59, 2**60 - 1, 2**60, 2**63 - 1, 2**63, 2**64, 10**30]
TEXTS = ["u", "vu", "+s", "+w:9", "+w:999999999", "+us:0", "+ud:0", "d:1,1,256", "00000080"]
OTHERS = [-1, 0, 1, 2, 63, 64, True, None, 1.5, "", "x", "\0", [], [[]], {}, [0, 0, 0]]


def hostile(old):
    """Return values for a place of a head that has some value."""
    near = [old - 1, old + 1, 2 * old, old + 64] if type(old) is int else []
    texts = [*TEXTS, old + "0", old[:-1]] if type(old) is str else []
    lists = [old[:-1], old + old[-1:], old[::-1], [old]] if type(old) is list else []
    found = HUGE + OTHERS + near + texts + lists
    return [each for each in found if each != old or type(each) is not type(old)]


def heads(data):
    """Put hostile values in each place of the head. Its checksum is made anew."""
    head, body = taken_apart(data)
    for path in places_in(head):
        for value in hostile(at(head, path)):
            yield partial(hostile_file, head, body, path, value)


def hostile_file(head, body, path, value):
    return put_back(json.dumps(replaced(head, path, value)).encode(), body)


DEEP = (b"[" * 5000 + b"]" * 5000, b'{"a":' * 5000 + b"1" + b"}" * 5000, b"7" * 20_000)


def nests(data):
    """Put deep lists and objects, and a long number, in each place of the head."""
    head, body = taken_apart(data)
    for path in list(places_in(head))[1:]:
        for deep in DEEP:
            yield partial(nested_file, head, body, path, deep)


def nested_file(head, body, path, deep):
    text = json.dumps(replaced(head, path, "HERE")).encode()
    return put_back(text.replace(b'"HERE"', deep, 1), body)


DAMAGES = {"flips": flips, "cuts": cuts, "heads": heads, "nests": nests}


# What is done with each damaged file, in a process of its own.


def tried(path, trusted):
    """Read a file. Return whether a column came out, which is then read whole."""
    try:
        found = read_column(path, trusted=trusted)
    except ValueError:
        return False
    if len(found) <= MOST_ROWS:
        # Damaged offsets of a trusted file may be further apart than a copy of them can be.
        faults = (ValueError, OverflowError) if trusted else (ValueError,)
        for use in (lambda: found.to_pylist(), lambda: pickle.dumps(found), lambda: check(found)):
            with contextlib.suppress(*faults):
                use()
    return True


def tried_as_part(path):
    """Select all rows of a file."""
    with contextlib.suppress(DamagedPart):
        select_parts(map, [path])


def sweep(number, name, every, note):
    """Make every so many-th damage of a kind, and print what `Damage.swept` returns of it."""
    with tempfile.TemporaryDirectory() as folder, open(note, "r+b", buffering=0) as progress:
        path = os.path.join(folder, "column")
        write_column(path, columns()[number])
        counts = {trusted: {True: 0, False: 0} for trusted in (False, True)}
        for k, damaged in enumerate(DAMAGES[name](Path(path).read_bytes())):
            if k % every != (7 * number) % every:
                continue
            os.pwrite(progress.fileno(), struct.pack("<Q", k), 0)
            Path(path).unlink()
            Path(path).write_bytes(damaged())
            for trusted in (False, True):
                counts[trusted][tried(path, trusted)] += 1
            if k // every % 4 == 0:
                tried_as_part(path)
    print(json.dumps([counts[False][True], counts[False][False], counts[True][True]]))


class Damage(unittest.TestCase):
    def swept(self, name, every=None):
        """Sweep over each column.

        Returns:
            How many files were read, how many were refused, and how many were read if trusted.
        """
        every = LEFT_OUT + 1 if every is None else every
        total = [0, 0, 0]
        for number in range(3):
            with tempfile.NamedTemporaryFile() as note:
                words = [sys.executable, "-B", "-X", "faulthandler", __file__]
                words += [str(number), name, str(every), note.name]
                done = subprocess.run(words, stdout=subprocess.PIPE, stderr=subprocess.PIPE)
                last = int.from_bytes(Path(note.name).read_bytes(), "little")
            why = f"column {number}, damage {last}: {done.stderr.decode()[-3000:]}"
            self.assertEqual(done.returncode, 0, why)
            total = [sum(pair) for pair in zip(total, json.loads(done.stdout.decode()))]
        return total

    def test_columns(self):
        """The columns have each type between them, and are read as they were written."""
        made = columns()
        text = " ".join(each.type for each in made)
        for type, _ in EACH:
            self.assertIn(type, text)
        with tempfile.TemporaryDirectory() as folder:
            for each in made:
                write_column(os.path.join(folder, "column"), each)
                found = read_column(os.path.join(folder, "column"))
                self.assertEqual(found.to_pylist(), each.to_pylist())

    def test_flips(self):
        """Only bytes between buffers, and spaces of the head, may differ from what was written."""
        read, refused, trusted = self.swept("flips")
        self.assertGreater(refused, read // 4)
        self.assertGreater(trusted, read)

    def test_cuts(self):
        read, refused, trusted = self.swept("cuts")
        self.assertEqual((read, trusted), (0, 0))
        self.assertGreater(refused, 1000 // (LEFT_OUT + 1))

    def test_heads(self):
        read, refused, trusted = self.swept("heads")
        self.assertGreater(refused, 2 * read)
        self.assertGreaterEqual(trusted, read)

    def test_nests(self):
        read, refused, trusted = self.swept("nests", 1 + 2 * LEFT_OUT)
        self.assertEqual((read, trusted), (0, 0))
        self.assertGreater(refused, 0)


if __name__ == "__main__":
    if len(sys.argv) == 5:
        sweep(int(sys.argv[1]), sys.argv[2], int(sys.argv[3]), sys.argv[4])
    else:
        unittest.main()
