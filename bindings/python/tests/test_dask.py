"""Parts on the workers of a cluster of Dask, of which one is killed in the middle."""

import os
import random
import signal
import subprocess
import sys
import tempfile
import textwrap
import threading
import time
import unittest
from functools import partial

import dask
from distributed import Client, LocalCluster

from vortex_select import BrokenStep, Filter, FilterEach, Slice, Take, column, select
from vortex_select.parts import DamagedPart, load, select_parts, write_column, write_parts

# Workers of a loaded machine may take minutes to start or to answer. So long after a worker was
# lost, a cluster gives up its place, even where it runs again and was lost once more.
dask.config.set(
    {
        "distributed.comm.timeouts.connect": "2 minutes",
        "distributed.comm.timeouts.tcp": "10 minutes",
        "distributed.deploy.lost-worker-timeout": "1 hour",
        "distributed.scheduler.worker-ttl": "1 hour",
    }
)

PARTS, ROWS = 8, 3000
TYPE = "struct<id: int64, amount: uint32, name: utf8>"


def slowly(path):
    """Loads a part, and takes so long that its worker can be killed meanwhile."""
    time.sleep(0.15)
    return load(path)


def counted(path):
    """Loads a part, and adds a byte to a file beside it."""
    with open(path + ".asked", "ab") as file:
        file.write(b".")
    return load(path)


def large(rows):
    """A mask of the rows whose amount is above 900."""
    return [row is not None and row["amount"] > 900 for row in rows.to_pylist()]


def processes(client):
    """Return the processes of the workers that answer.

    The cluster may not know yet that a worker was killed.
    """
    return sorted(client.run(os.getpid, on_error="ignore").values())


class Workers:
    """So many workers, each a process, on the loopback."""

    def __init__(self, count):
        self.cluster = LocalCluster(
            n_workers=count,
            threads_per_worker=1,
            processes=True,
            host="127.0.0.1",
            dashboard_address=None,
            silence_logs=50,
        )
        self.client = Client(self.cluster)

    def __enter__(self):
        return self.client

    def __exit__(self, *_):
        self.client.close()
        self.cluster.close()


class Dask(unittest.TestCase):
    @classmethod
    def setUpClass(cls):
        folder = tempfile.TemporaryDirectory()
        cls.addClassCleanup(folder.cleanup)
        dice, cls.paths, rows = random.Random(7), [], []
        cls.lengths = [0 if k == 3 else ROWS - 100 * k for k in range(PARTS)]
        for k, length in enumerate(cls.lengths):
            part = [cls.row(dice, len(rows) + number) for number in range(length)]
            rows += part
            cls.paths.append(os.path.join(folder.name, f"part{k}"))
            write_column(cls.paths[-1], column(part, TYPE))
        cls.whole = column(rows, TYPE)

    @staticmethod
    def row(dice, number):
        if dice.random() < 0.05:
            return None
        name = None if dice.random() < 0.1 else "name %d" % dice.randrange(10**6)
        return {"id": number, "amount": dice.randrange(1000), "name": name}

    def steps(self, dice):
        mask = [dice.random() < 0.5 for _ in range(sum(self.lengths))]
        kept = sum(mask)
        first = [None if dice.random() < 0.1 else dice.randrange(kept) for _ in range(400)]
        last = [dice.randrange(300) for _ in range(200)]
        return [Filter(mask), Take(first), Slice(50, 350), Take(last)]

    def agrees(self, client, seed, **more):
        steps = self.steps(random.Random(seed))
        wanted = select(self.whole, steps).to_pylist()
        found = select_parts(client, self.paths, steps, lengths=self.lengths, **more)
        self.assertEqual(found.to_pylist(), wanted, seed)

    def test_workers(self):
        for count in (2, 3):
            with Workers(count) as client:
                for seed in range(10):
                    self.agrees(client, seed)
                found = select_parts(client, self.paths, [Slice(5, 9)], ["name"])
                wanted = [row and {"name": row["name"]} for row in self.whole.to_pylist()[5:9]]
                self.assertEqual(found.to_pylist(), wanted)

    def test_worker_is_killed(self):
        with Workers(2) as client:
            for seed in range(10):
                # The nanny of the one before starts another.
                client.wait_for_workers(2, timeout=600)
                victim = random.Random(seed).choice(processes(client))
                killer = threading.Timer(0.2, os.kill, (victim, signal.SIGKILL))
                killer.start()
                self.agrees(client, seed, load=slowly)
                killer.join()
                self.assertNotIn(victim, processes(client))
            client.wait_for_workers(2, timeout=600)

    def test_answers_in_files(self):
        with Workers(2) as client, tempfile.TemporaryDirectory() as folder:
            for seed in range(3):
                steps = self.steps(random.Random(seed))
                written = write_parts(client, self.paths, steps, folder, lengths=self.lengths)
                wanted = select(self.whole, steps).to_pylist()
                self.assertEqual(written.column().to_pylist(), wanted)

    def times(self, call):
        """Return how often each part was asked while a call ran."""
        marks = [path + ".asked" for path in self.paths]
        try:
            call()
            return [os.path.getsize(mark) if os.path.exists(mark) else 0 for mark in marks]
        finally:
            for mark in filter(os.path.exists, marks):
                os.remove(mark)

    def test_tasks(self):
        """A part has one task, or two without lengths, or none if it is trusted and has no row."""
        some = [length > 0 for length in self.lengths]
        lengths, trusted = {"lengths": self.lengths}, {"lengths": self.lengths, "trusted": True}
        with Workers(2) as client:
            steps = self.steps(random.Random(1))
            twice = [1 + each for each in some]
            for more, wanted in ((lengths, [1] * PARTS), (trusted, some), ({}, twice)):
                run = partial(select_parts, client, self.paths, steps, load=counted, **more)
                asked = self.times(run)
                self.assertEqual(asked, wanted)
            broken = [*steps, Slice(10, 201)]
            for more, wanted in ((lengths, 1), (trusted, 0), ({}, 1)):
                asked = self.times(lambda: self.breaks(client, broken, load=counted, **more))
                self.assertEqual(asked, [wanted] * PARTS)

    def breaks(self, client, steps, **more):
        with self.assertRaises(BrokenStep) as caught:
            select_parts(client, self.paths, steps, **more)
        self.assertEqual((caught.exception.step, caught.exception.cause), (4, "BadRange"))

    def test_parts_that_are_not_asked_for_rows(self):
        """Lengths and masks are verified at the workers, also of parts that return no row."""
        lengths = [*self.lengths[:-1], 7]
        kept = [sum(large(self.whole_part(k))) for k in range(PARTS)]
        with Workers(2) as client:
            found = select_parts(client, self.paths, [FilterEach(kept, large), Slice(0, 1)])
            first = next(row for row in self.whole.to_pylist() if row and row["amount"] > 900)
            self.assertEqual(found.to_pylist(), [first])
            for words, steps, said in (
                (
                    f"part7: ValueError: expected 7 rows, got {self.lengths[7]}",
                    [Slice(0, 1)],
                    lengths,
                ),
                (
                    f"part7: ValueError: mask: expected one that keeps 0 rows, got {kept[7]}",
                    [FilterEach([*kept[:7], 0], large), Slice(0, 1)],
                    None,
                ),
            ):
                with self.assertRaisesRegex(DamagedPart, words):
                    select_parts(client, self.paths, steps, lengths=said)

    def whole_part(self, k):
        start = sum(self.lengths[:k])
        return select(self.whole, [Slice(start, start + self.lengths[k])])

    def test_program(self):
        """The program of docs/SCALE.md prints what stands below it."""
        here = os.path.dirname(os.path.abspath(__file__))
        with open(os.path.join(here, "..", "..", "..", "docs", "SCALE.md")) as file:
            program, below = file.read().split("```python\n")[1].split("```\n")[:2]
        wanted = below.strip("\n").split("\n\n")[0]
        with tempfile.TemporaryDirectory() as folder:
            path = os.path.join(folder, "program.py")
            with open(path, "w") as file:
                file.write(program)
            words = [sys.executable, "-B", path, folder]
            found = subprocess.run(words, env=os.environ, stdout=subprocess.PIPE, check=True)
        self.assertEqual(found.stdout.decode().splitlines(), textwrap.dedent(wanted).splitlines())

    def test_damaged(self):
        path = self.paths[5]
        with open(path, "rb") as file:
            data = file.read()
        try:
            with open(path, "wb") as file:
                file.write(data[: len(data) // 2])
            with Workers(2) as client:
                with self.assertRaisesRegex(DamagedPart, f"part {path}: ValueError: the file has"):
                    steps = self.steps(random.Random(1))
                    select_parts(client, self.paths, steps, lengths=self.lengths)
        finally:
            with open(path, "wb") as file:
                file.write(data)


if __name__ == "__main__":
    unittest.main()
