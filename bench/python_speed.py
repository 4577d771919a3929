"""Prints times of filters and takes of 16,777,216 values beside numpy's `compress` and `take`.

usage: PYTHONPATH=bindings/python/src python3 bench/python_speed.py    (after bindings/python/build; needs numpy)
"""

import time

import numpy

from vortex_select import kernels

ROWS = 1 << 24


def least(work, times=7):
    took = []
    for _ in range(times):
        start = time.perf_counter()
        work()
        took.append(time.perf_counter() - start)
    return 1e9 * min(took) / ROWS


def line(name, ours, plain):
    ours, plain = least(ours), least(plain)
    print(f"| {name} | {ours:.2f} | {plain:.2f} | **{ours / plain:.2f}** |")


def main():
    dice = numpy.random.default_rng(20)
    print("| nanoseconds a row | ours | numpy | ratio |\n|---|---|---|---|")
    for kind in numpy.uint32, numpy.uint64:
        values = dice.integers(0, 1 << 31, ROWS).astype(kind)
        for density in 0.1, 0.5, 0.9:
            rows = dice.random(ROWS) < density
            mask = numpy.packbits(rows, bitorder="little").tobytes()
            kept = numpy.frombuffer(kernels.filter(values, mask), kind)
            assert (kept == numpy.compress(rows, values)).all()
            line(
                f"`filter`, {kind.__name__}, {density}",
                lambda: kernels.filter(values, mask),
                lambda: numpy.compress(rows, values),
            )
        indices = dice.integers(0, ROWS, ROWS).astype(numpy.uint64)
        signed = indices.astype(numpy.int64)
        taken = numpy.frombuffer(kernels.take(values, indices), kind)
        assert (taken == numpy.take(values, signed)).all()
        line(
            f"`take`, {kind.__name__}",
            lambda: kernels.take(values, indices),
            lambda: numpy.take(values, signed),
        )


if __name__ == "__main__":
    main()
