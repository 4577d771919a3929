"""Which chunks picks ask for, and the picked rows of a chunk, put where they belong."""

from __future__ import annotations

from typing import Any, Iterator, NamedTuple, Optional, Tuple, Union

from . import _native
from ._stores import Store, noted

# What one read of whole chunks has at most, if it has several.
_PIECE = 1 << 22
# More chunks than so many a pick are too many for a sort that counts them, if they aren't few.
_CHUNKS_A_PICK, _FEW_CHUNKS = 4, 1024
# The widths of rows that masks filter chunk by chunk, if chunks have as many rows at least.
WIDTHS, MASKED_ROWS = (1, 2, 4, 8, 16, 32), 64
# The most bytes that a row has which the library moves. Wider rows are copied by numpy.
_WIDEST = 1 << 20


class Job(NamedTuple):
    """A read, and where its rows go.

    Attributes:
        chunk: The number of the chunk, or of the first of several.
        start: The first row.
        end: The row after the last one.
        first: The first number of the plan's order, or the first row of the output.
        last: The number or the row after the last one.
        is_whole: Whether all rows go to the output side by side.
    """

    chunk: int
    start: int
    end: int
    first: int
    last: int
    is_whole: bool

    def __str__(self) -> str:
        return f"chunk {self.chunk} of the source, rows {self.start} to {self.end}"


class Range:
    """The rows from `start` up to `end`, which slices leave."""

    def __init__(self, store: Store, start: int, end: int):
        self.count = end - start
        self._store, self._start, self._end = store, start, end

    def jobs(self) -> Iterator[Job]:
        """Return reads of whole chunks, cut at the bounds, in ascending order."""
        chunk_len, start = self._store.chunk_len, self._start
        several = max(1, _PIECE // max(1, self._store.width * chunk_len))
        while start < self._end:
            chunk = start // chunk_len
            end = min(self._end, (chunk + several) * chunk_len)
            yield Job(chunk, start, end, start - self._start, end - self._start, True)
            start = end


class Mask:
    """The rows that a mask keeps. None of them is listed.

    Args:
        words: Words of 64 bits that hold the mask.
        at: Which bit of them is that of the first row.
    """

    def __init__(self, store: Store, words: Any, at: int):
        import numpy

        chunks = -(-store.rows // store.chunk_len)
        lengths = numpy.full(chunks, store.chunk_len, numpy.uint64)
        lengths[chunks - 1 :] = store.rows - (chunks - 1) * store.chunk_len
        self._left = numpy.zeros(chunks, numpy.uint64)
        _native.cut_mask(words, at, lengths, self._left)
        self.count = int(self._left.sum())
        self.words, self.at, self._store = words, at, store

    def jobs(self) -> Iterator[Job]:
        """Return reads of the chunks of which a row is kept, each once, in ascending order."""
        rows, chunk_len, first = self._store.rows, self._store.chunk_len, 0
        for chunk in self._left.nonzero()[0].tolist():
            start, end = chunk * chunk_len, min(rows, (chunk + 1) * chunk_len)
            last = first + int(self._left[chunk])
            yield Job(chunk, start, end, first, last, last - first == end - start)
            first = last

    def bits(self, start: int, end: int) -> Tuple[Any, int]:
        """Return words that hold the bits of some rows, and where these begin there."""
        first, last = self.at + start, self.at + end
        return self.words[first // 64 : -(-last // 64)], first % 64


class Picks:
    """Row numbers, of which some may be null, and their numbers chunk by chunk.

    It needs 16 bytes a pick, and 8 a chunk if there are at most four chunks a pick. A sort that
    doesn't count chunks needs 8 more a pick while it runs.

    Args:
        places: A number of 64 bits for each pick.
        valid: A bit for each pick, clear at a null; empty if none is null.
        is_mask: Whether no row is picked twice and the rows ascend.
    """

    def __init__(self, store: Store, places: Any, valid: bytes, is_mask: bool):
        import numpy

        self.places = numpy.frombuffer(places, numpy.uint64)
        self.count = len(self.places)
        self.nulls: Optional[Any] = None
        if valid:
            bits = numpy.unpackbits(numpy.frombuffer(valid, numpy.uint8), bitorder="little")
            self.nulls = bits[: self.count] == 0
        self.valid = valid if self.nulls is not None and self.nulls.any() else b""
        self._store, self._is_mask = store, is_mask
        self._plan()

    def _plan(self) -> None:
        """Sort the numbers of the picks by chunk, by the cheapest way."""
        import numpy

        store, places = self._store, self.places
        chunks = -(-store.rows // store.chunk_len)
        self._starts: Optional[Any] = None
        self._is_one = not self.valid and chunks <= 1
        self._is_ascending = not self.valid and (
            self._is_one or self._is_mask or bool((places[1:] >= places[:-1]).all())
        )
        if self._is_ascending:
            self.order = numpy.arange(self.count, dtype=numpy.uint64)
        elif chunks <= max(_FEW_CHUNKS, _CHUNKS_A_PICK * self.count):
            self.order = numpy.empty(self.count, numpy.uint64)
            self._starts = numpy.empty(chunks + 1, numpy.uint64)
            shape = store.rows, store.chunk_len
            _native.chunk_plan(places, self.valid, shape, self._starts, self.order)
        else:
            self._sort()

    def _sort(self) -> None:
        import numpy

        keys = self.places // numpy.uint64(self._store.chunk_len)
        if self.valid:
            keys[self.nulls] = -(-self._store.rows // self._store.chunk_len)
        self.order = numpy.argsort(keys, kind="stable").view(numpy.uint64)

    def _ranges(self) -> Iterator[Tuple[int, int, int]]:
        """Return each chunk with a pick, ascending, and its range of the order."""
        if self._starts is not None:
            starts = self._starts
            for chunk in (starts[:-1] < starts[1:]).nonzero()[0].tolist():
                yield chunk, int(starts[chunk]), int(starts[chunk + 1])
            return
        chunk_len, first = self._store.chunk_len, 0
        count = self.count - (0 if self.nulls is None else int(self.nulls.sum()))
        while first < count:
            chunk = int(self.places[int(self.order[first])]) // chunk_len
            last = self._end_of(chunk, first, count)
            yield chunk, first, last
            first = last

    def _end_of(self, chunk: int, first: int, count: int) -> int:
        """Return the end of the range that begins at an entry of the order."""
        chunk_len = self._store.chunk_len
        if self._is_one:
            return count
        if self._is_ascending:
            return _native.chunk_run(self.places, chunk_len, first)
        last = first + 1
        while last < count and int(self.places[int(self.order[last])]) // chunk_len == chunk:
            last += 1
        return last

    def jobs(self) -> Iterator[Job]:
        """Return reads of the chunks with a pick, each once, in ascending order."""
        rows, chunk_len = self._store.rows, self._store.chunk_len
        for chunk, first, last in self._ranges():
            start, end = chunk * chunk_len, min(rows, (chunk + 1) * chunk_len)
            is_whole = self._is_mask and last - first == end - start
            yield Job(chunk, start, end, first, last, is_whole)


Selection = Union[Range, Mask, Picks]


class Work:
    """The output of a selection, which jobs write.

    Args:
        is_own: Whether the output is returned only when all is done, so that a read which fails
            may leave anything in it.
    """

    def __init__(self, store: Store, selection: Selection, out: Any, is_own: bool):
        self._store, self._selection = store, selection
        self.out, self._is_own = out, is_own
        self._bytes = bytes_of(out) if store.width else None

    def do(self, job: Job, buffer: Any) -> int:
        """Do a job, and return how many rows it wrote.

        An exception gets a note that names the chunk.
        """
        try:
            if job.is_whole:
                self._copy(job, buffer)
            else:
                self._scatter(job, self._read(job, buffer))
        except Exception as why:
            noted(why, f"in {job}")
            raise
        return job.last - job.first

    def _read(self, job: Job, buffer: Any) -> Any:
        import numpy

        to = None if buffer is None else buffer[: job.end - job.start]
        rows = self._store.read(job.chunk, job.start, job.end, to)
        return rows.copy() if numpy.may_share_memory(rows, self.out) else rows

    def _copy(self, job: Job, buffer: Any) -> None:
        """Read rows right into the output, or by way of an array if the output is the caller's."""
        to = self.out[job.first : job.last]
        rows = self._store.read(job.chunk, job.start, job.end, to if self._is_own else None)
        if rows is not to:
            to[...] = rows

    def _scatter(self, job: Job, rows: Any) -> None:
        store, picks = self._store, self._selection
        if isinstance(picks, Mask):
            kept = _native.filter(store.width, bytes_of(rows), *picks.bits(job.start, job.end))
            self._bytes[job.first * store.width : job.last * store.width] = kept
            return
        assert isinstance(picks, Picks)
        if store.width > _WIDEST:
            for number in picks.order[job.first : job.last].tolist():
                self.out[number] = rows[int(picks.places[number]) - job.start]
            return
        shape = job.chunk, store.rows, store.chunk_len, store.width
        order = picks.order, job.first, job.last
        _native.chunk_scatter(bytes_of(rows), shape, picks.places, order, self._bytes)

    def fill_nulls(self) -> None:
        """Write zeros to the rows of nulls."""
        picks, width = self._selection, self._store.width
        if not isinstance(picks, Picks) or not picks.valid or not width:
            return
        if width > _WIDEST:
            bytes_of(self.out).reshape(picks.count, width)[picks.nulls] = 0
        else:
            _native.chunk_nulls(picks.valid, picks.count, width, self._bytes)


def bytes_of(array: Any) -> Any:
    """Return the bytes of a contiguous array, whose items have some."""
    import numpy

    return array.reshape(-1).view("u1") if array.size else numpy.zeros(0, "u1")
