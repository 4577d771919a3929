"""Times `vortex_select.select` over a column of numbers beside numpy's own indexing: for each step
milliseconds of CPU time (the least of some runs), from the step's list to the whole result.

usage: python3 bench/arrow/speed.py [ROWS [RUNS]]    (after bindings/python/build; needs numpy;
                                                      10,000,000 rows and 3 runs by default)
"""

import pathlib
import sys
import time

import numpy

sys.path.insert(0, str(pathlib.Path(__file__).resolve().parents[2] / "bindings" / "python" / "src"))
from vortex_select import Filter, Slice, Take, from_buffers, select  # noqa: E402

DICE = numpy.random.default_rng(1)
KINDS = ("uint8", "uint64", "float64")


def least(call, runs):
    best = float("inf")
    for _ in range(runs):
        start = time.process_time()
        found = call()
        best = min(best, time.process_time() - start)
    return 1e3 * best, found


def steps_over(numbers):
    """The steps by name: ours, and numpy's own."""
    rows = len(numbers)
    for density in (0.01, 0.1, 0.5, 0.9, 0.99, 1):
        mask = DICE.random(rows) < density
        yield f"filter {density}", lambda: Filter(mask), lambda: numbers[mask]
    indices = DICE.integers(0, rows, rows).astype("uint64")
    for name, some in ("take", indices), ("take ascending", numpy.sort(indices)):
        signed = some.astype("int64")
        yield name, lambda: Take(some), lambda: numbers.take(signed)
    yield "slice", lambda: Slice(1000, rows - 1000), lambda: numbers[1000 : rows - 1000].copy()


def main(rows=10_000_000, runs=3):
    print("| column | step | ours | numpy | ratio |\n|---|---|---|---|---|")
    for kind in KINDS:
        numbers = DICE.integers(0, 255, rows).astype(kind)
        source = from_buffers(kind, rows, [None, numbers])
        for what, step, plain in steps_over(numbers):
            ours, found = least(lambda: select(source, [step()]), runs)
            theirs, wanted = least(plain, runs)
            assert numpy.array_equal(found.to_numpy(), wanted), (kind, what)
            print(f"| {kind} | {what} | {ours:.2f} | {theirs:.2f} | {ours / theirs:.2f} |", flush=True)


main(*map(int, sys.argv[1:]))
