"""Selection over stores that are read chunk by chunk: HDF5, Zarr, PyTables, arrays, memory maps.

`select` returns the rows that steps leave of a store. It reads each chunk that has such a row once,
in ascending order, and no other chunk. `batches` does the same for the batches of a loader.

A source is an `h5py.Dataset`, a `zarr.Array`, an array or a table of PyTables, an array of numpy,
a `numpy.memmap`, or any object with `shape`, `dtype` and slices of rows. The first dimension is
the rows. The attribute `chunks` says how many rows a chunk has. A source without it is read by
blocks of 256 KiB. A row may have any shape. Its items have a fixed width.

The module needs numpy.
"""

from __future__ import annotations

import concurrent.futures
import contextlib
import sys
import threading
from typing import Any, Callable, Generator, Iterator, List, Optional, Sequence, Tuple, Union

from . import _native
from ._buffers import whole, whole_words
from ._flats import flat
from ._scatters import MASKED_ROWS, WIDTHS, Mask, Picks, Range, Selection, Work
from ._steps import Filter, Slice, Step, Take, called, images_of
from ._stores import Store

__all__ = ["batches", "select"]

# How many bytes the batches have that are read at once.
_AHEAD = 1 << 28
# How many characters a bar has.
_BAR = 40
_ONE = concurrent.futures.FIRST_COMPLETED
# The types of 64 bits of a take's numbers, unsigned and signed.
_WIDE = (3, 7)

Progress = Union[Callable[[int, int], Any], bool, None]


def select(
    source: Any,
    steps: Sequence[Step],
    *,
    out: Any = None,
    threads: int = 1,
    progress: Progress = None,
) -> Any:
    """Return the rows that the steps leave of a store, as an array of numpy.

    The result is a masked array if a take has nulls.

    Args:
        source: The store.
        steps: `Slice`, `Filter` and `Take`, in order.
        out: An array for the rows: contiguous in C's order, of their shape and of the source's
            type. Its memory is not the source's.
        threads: How many threads read and copy chunks. Each needs the memory of a chunk.
        progress: A function that is called with how many rows are done and how many there are.
            Or True, for a bar on standard error if that is a terminal.

    Raises:
        BrokenStep: A step is invalid. Nothing was read.
        TypeError: The source has no rows of a fixed width, or gives other rows than it said.
        ValueError: `out` has another shape, type or order, or is read-only. Nothing was read then.
            Or the source gives fewer rows than it said.
        RuntimeError: The source changed its length.
        Exception: The store's own error.

    An exception of a read has a note that names the chunk. Each row of `out` is then as it was, or
    is the row that was selected.

    >>> import numpy
    >>> from vortex_select import Filter, Take
    >>> rows = numpy.arange(10) * 100
    >>> select(rows, [Filter(rows != 300), Take([8, 0, 8])])
    array([900,   0, 900])
    """
    store, steps, threads = Store(source), list(steps), _threads(threads)
    told = _Told(progress)
    rows = flat(store, steps) if out is None else None
    if rows is not None:
        told.all(len(rows))
        return rows
    selection = _selection(store, steps)
    shape = selection.count, *store.row_shape
    work = Work(store, selection, _output(out, shape, store), out is None)
    _run(store, selection, work, threads, told)
    return _result(work.out, selection, any(map(_may_be_null, steps)))


def batches(
    source: Any,
    indices: Any,
    size: int,
    *,
    ahead: Optional[int] = None,
    threads: int = 1,
) -> Iterator[Any]:
    """Return the rows at indices, in batches of `size` rows; the last one may have fewer.

    For loaders that walk a permutation. Several batches are read at once, so that a chunk is read
    once for all of them. They share memory.

    Args:
        source: The store, as for `select`.
        indices: What `Take` takes. They are tested before this returns.
        size: How many rows a batch has.
        ahead: How many batches are read at once: by default as many as have 256 MiB.
        threads: As for `select`.

    Raises:
        BrokenStep: An index is out of bounds.

    >>> import numpy
    >>> [rows.tolist() for rows in batches(numpy.arange(9), [8, 1, 0, 3, 5], 2)]
    [[8, 1], [0, 3], [5]]
    """
    store, size, threads = Store(source), _at_least_one(size, "size"), _threads(threads)
    steps = [Take(indices)]
    places, valid = _composed(store.rows, steps)
    if ahead is None:
        ahead = max(1, _AHEAD // max(1, size * store.width))
    several = size * _at_least_one(ahead, "ahead")
    return _batches(store, (places, valid, _may_be_null(steps[0])), size, several, threads)


def _batches(
    store: Store, picks: Tuple[Any, bytes, bool], size: int, several: int, threads: int
) -> Iterator[Any]:
    import numpy

    places, valid, is_nullable = picks
    bits = numpy.unpackbits(numpy.frombuffer(valid, "u1"), bitorder="little")
    view = memoryview(places).cast("B")
    for start in range(0, len(view) // 8, several):
        own = numpy.packbits(bits[start : start + several], bitorder="little").tobytes()
        selection = Picks(store, view[8 * start : 8 * (start + several)], own, False)
        shape = selection.count, *store.row_shape
        work = Work(store, selection, numpy.empty(shape, store.dtype), True)
        _run(store, selection, work, threads, _Told(None))
        rows = _result(work.out, selection, is_nullable)
        for first in range(0, len(rows), size):
            yield rows[first : first + size]


def _at_least_one(value: Any, what: str) -> int:
    found = whole(value)
    if found < 1:
        raise ValueError(f"{what}: expected at least 1, got {found}")
    return found


def _threads(value: Any) -> int:
    return _at_least_one(value, "threads")


def _may_be_null(step: Step) -> bool:
    return isinstance(step, Take) and len(step._made[1]) > 0


# The rows that steps leave.


def _selection(store: Store, steps: List[Step]) -> Selection:
    """Return the rows that the steps leave: a range if they are slices, and else picks.

    Raises:
        BrokenStep: a step is invalid.
    """
    images = images_of(steps)
    start, end = 0, store.rows
    for step, image in zip(steps, images):
        if not isinstance(step, Slice) or not image[1] <= image[2] <= end - start:
            break
        start, end = start + image[1], start + image[2]
    else:
        return Range(store, start, end)
    masked = _masked(store, steps[0]) if len(steps) == 1 else None
    if masked is not None:
        return masked
    is_mask = not any(isinstance(step, Take) for step in steps)
    return Picks(store, *_composed(store.rows, steps), is_mask)


def _masked(store: Store, step: Step) -> Optional[Mask]:
    """Return what a mask keeps, if it is cut chunk by chunk: rows are narrow, and none is null."""
    is_narrow = store.width in WIDTHS and store.chunk_len >= MASKED_ROWS
    if not isinstance(step, Filter) or len(step) != store.rows or not is_narrow:
        return None
    import numpy

    values, valid, _, _, at = step._made
    data = values if memoryview(values).nbytes % 8 == 0 else whole_words(bytes(values))
    return None if len(valid) else Mask(store, numpy.frombuffer(data, numpy.uint64), at)


def _listed(rows: int, step: Step) -> Optional[Any]:
    """Return the numbers of a take as they are, if they are row numbers of 64 bits."""
    import numpy

    if not isinstance(step, Take):
        return None
    values, valid, length, ptype, offset = step._made
    if len(valid) or ptype not in _WIDE:
        return None
    numbers = numpy.frombuffer(values, numpy.uint64)[offset : offset + length]
    return numbers if (numbers < rows).all() else None


def _composed(rows: int, steps: Sequence[Step]) -> Tuple[Any, bytes]:
    """Return the row numbers that the steps leave, and a bit for each, clear at a null.

    Raises:
        BrokenStep: a step is invalid; it has the place and the number of rows before the step.
    """
    listed = _listed(rows, steps[0]) if len(steps) == 1 else None
    if listed is not None:
        return listed, b""
    picks: Tuple[bytes, bytes] = called(steps, _native.compose, rows, images_of(steps))
    return picks


# The output.


def _output(out: Any, shape: Tuple[int, ...], store: Store) -> Any:
    """Return an array for the rows: the caller's, if it fits.

    Raises:
        TypeError, ValueError: it doesn't.
    """
    import numpy

    if out is None:
        return numpy.empty(shape, store.dtype)
    if not isinstance(out, numpy.ndarray) or isinstance(out, numpy.ma.MaskedArray):
        raise TypeError(f"out: expected an array of numpy, got {type(out).__name__}")
    if out.shape != shape:
        raise ValueError(f"out: expected shape {shape}, got {out.shape}")
    if out.dtype != store.dtype:
        raise ValueError(f"out: expected dtype {store.dtype!r}, got {out.dtype!r}")
    if not out.flags.c_contiguous:
        raise ValueError("out: expected an array that is contiguous in C's order, got another")
    if not out.flags.writeable:
        raise ValueError("out: expected an array that can be written, got a read-only one")
    if store.is_array and numpy.may_share_memory(out, store.source):
        raise ValueError("out: expected memory of its own, got the source's")
    return out


def _result(rows: Any, selection: Selection, is_nullable: bool) -> Any:
    """Return the rows, as a masked array if a take has nulls."""
    if not is_nullable:
        return rows
    import numpy

    masked: Any = numpy.ma  # which has no types
    mask = numpy.zeros(rows.shape, masked.make_mask_descr(rows.dtype))
    if isinstance(selection, Picks) and selection.nulls is not None:
        mask[selection.nulls] = True
    return masked.MaskedArray(rows, mask)


# The work.


def _run(store: Store, selection: Selection, work: Work, threads: int, told: _Told) -> None:
    """Do all jobs, and say how many rows are done."""
    if store.width:
        # Closed, so that no thread writes to the output once the function that is told has failed.
        with contextlib.closing(_done(store, selection, work, threads)) as done:
            for count in done:
                told.add(count, selection.count)
        work.fill_nulls()
    told.end()


def _done(
    store: Store, selection: Selection, work: Work, threads: int
) -> Generator[int, None, None]:
    """Do all jobs, and return how many rows each one wrote."""
    if threads > 1:
        yield from _by_threads(store, selection, work, threads)
        return
    buffer = None if isinstance(selection, Range) else store.buffer()
    for job in selection.jobs():
        yield work.do(job, buffer)


def _by_threads(
    store: Store, selection: Selection, work: Work, threads: int
) -> Generator[int, None, None]:
    """Do jobs side by side: never more than there are threads, so that each needs one chunk."""
    own = threading.local()

    def do(job: Any) -> int:
        if not hasattr(own, "buffer"):
            own.buffer = None if isinstance(selection, Range) else store.buffer()
        return work.do(job, own.buffer)

    running: List[Any] = []
    with concurrent.futures.ThreadPoolExecutor(threads) as pool:
        for job in selection.jobs():
            running.append(pool.submit(do, job))
            if len(running) == threads:
                concurrent.futures.wait(running, return_when=_ONE)
                done = [each for each in running if each.done()]
                running = [each for each in running if each not in done]
                yield sum(each.result() for each in done)
        yield sum(each.result() for each in running)


class _Told:
    """Says how many rows are done: to a function, or by a bar on a terminal."""

    def __init__(self, progress: Progress):
        self._rows = 0
        self._call = progress if callable(progress) else None
        self._is_bar = progress is True and sys.stderr is not None and sys.stderr.isatty()
        self._shown = -1
        if not callable(progress) and progress not in (None, True, False):
            found = type(progress).__name__
            raise TypeError(f"progress: expected a function or a bool, got {found}")

    def add(self, rows: int, count: int) -> None:
        """Say that some more rows of so many are done."""
        self._rows += rows
        if self._call is not None:
            self._call(self._rows, count)
        if self._is_bar:
            self._show(_BAR * self._rows // count, count)

    def _show(self, full: int, count: int) -> None:
        if full != self._shown:
            self._shown = full
            bar = "#" * full + "." * (_BAR - full)
            sys.stderr.write(f"\r[{bar}] {self._rows} of {count} rows")
            sys.stderr.flush()

    def all(self, count: int) -> None:
        """Say that all rows are done."""
        if count:
            self.add(count, count)
        self.end()

    def end(self) -> None:
        if self._is_bar:
            sys.stderr.write("\n")
