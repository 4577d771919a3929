"""Sources of rows of a fixed width, and reads of their rows."""

from __future__ import annotations

import contextlib
import sys
import threading
from typing import Any, Optional, Tuple

from ._buffers import is_masked, whole

# A source without chunks is read by blocks of so many bytes, an array that isn't contiguous too.
_BLOCK = 1 << 18
# PyTables isn't safe in threads.
_TABLES = threading.Lock()


def noted(why: BaseException, text: str) -> None:
    """Add a note to an exception, as `add_note` of Python 3.11 does."""
    try:
        why.__notes__ = [*getattr(why, "__notes__", []), text]
    except AttributeError:
        pass  # an exception without attributes


def _sizes_of(source: Any) -> Tuple[int, ...]:
    """Return the shape of a source.

    Raises:
        TypeError: it has none, or no dimension.
    """
    shape = getattr(source, "shape", None)
    if shape is None or not hasattr(source, "dtype") or not hasattr(source, "__getitem__"):
        found = type(source).__name__
        raise TypeError(f"source: expected an object with shape, dtype and slices, got {found}")
    if is_masked(source):
        raise TypeError("source: expected plain rows, got a masked array")
    sizes = tuple(map(whole, shape))
    if not sizes:
        raise TypeError("source: expected at least 1 dimension, got 0")
    if min(sizes) < 0:
        raise ValueError(f"source: expected sizes from 0 on, got {sizes}")
    return sizes


def _rows_of(chunks: Any) -> int:
    """Return how many rows a chunk has: of a list of the chunks' own lengths the first one's."""
    first = chunks[0]
    if not isinstance(first, (tuple, list)):
        return whole(first)
    lengths = list(map(whole, first))
    is_regular = len(set(lengths[:-1])) <= 1 and lengths[-1] <= lengths[0]
    return lengths[0] if is_regular else max(lengths)


class Store:
    """A source, what a row of it is, and how its rows are read.

    Attributes:
        rows: How many rows there are.
        row_shape: The shape of a row.
        dtype: The type of its items.
        width: How many bytes a row has.
        chunk_len: How many rows a chunk has.
        is_array: Whether the source is an array of numpy.
        is_flat: Whether it is one that is contiguous.
    """

    def __init__(self, source: Any):
        import numpy

        sizes = _sizes_of(source)
        dtype: Any = numpy.dtype(source.dtype)
        if dtype.hasobject:
            raise TypeError(f"source: expected rows of a fixed width, got dtype {dtype}")
        self.source = source
        self.rows, self.row_shape = sizes[0], sizes[1:]
        inner: Tuple[int, ...] = ()
        if dtype.subdtype is not None:
            dtype, inner = dtype.subdtype
        self.dtype: Any = dtype
        self.row_shape += inner
        self.width = self.dtype.itemsize
        for size in self.row_shape:
            self.width *= size
        self.is_array = isinstance(source, numpy.ndarray)
        self.is_flat = self.is_array and source.flags.c_contiguous
        self.chunk_len = self._chunk_len()
        is_tables = type(source).__module__.partition(".")[0] == "tables"
        self._lock: Any = _TABLES if is_tables else contextlib.nullcontext()
        self._direct: Any = None if inner else _direct_of(source)

    def _chunk_len(self) -> int:
        chunks = getattr(self.source, "chunks", None) or getattr(self.source, "chunkshape", None)
        if self.is_flat:
            found = self.rows
        elif chunks:
            found = _rows_of(chunks)
        else:
            found = _BLOCK // max(1, self.width)
        return max(1, min(found, self.rows))

    def read(self, chunk: int, start: int, end: int, to: Any = None) -> Any:
        """Return rows of a chunk as a contiguous array: `to`, which is written, or another one.

        Raises:
            ValueError: there are fewer rows.
            TypeError: they are something else than the source said.
            RuntimeError: the source has changed its length.
        """
        is_direct = to is not None and self._direct is not None
        with self._lock:
            if is_direct:
                self._direct(slice(start, end), to)
                rows = to
            else:
                rows = self.source[start:end]
            found = self.source.shape[0]
        if found != self.rows:
            raise RuntimeError(f"source: expected {self.rows} rows as before, got {found}")
        return rows if is_direct else self._checked(chunk, end - start, rows)

    def _checked(self, chunk: int, count: int, rows: Any) -> Any:
        import numpy

        if is_masked(rows):
            raise TypeError(f"chunk {chunk}: expected plain rows, got a masked array")
        array = numpy.asarray(rows)
        if array.shape[:1] != (count,):
            raise ValueError(f"chunk {chunk}: expected {count} rows, got {array.shape[:1]}")
        if array.shape[1:] != self.row_shape or array.dtype != self.dtype:
            expected = f"rows of {self.dtype}, shape {self.row_shape}"
            found = f"{array.dtype}, shape {array.shape[1:]}"
            raise TypeError(f"chunk {chunk}: expected {expected}, got {found}")
        return numpy.ascontiguousarray(array)

    def buffer(self) -> Any:
        """Return an array for the rows of a chunk, or None for a source that can't write to one."""
        import numpy

        if self._direct is None:
            return None
        return numpy.empty((self.chunk_len, *self.row_shape), self.dtype)


def _direct_of(source: Any) -> Optional[Any]:
    """Return a function that reads a slice of rows right into an array, if the store has one."""
    if type(source).__module__.partition(".")[0] == "h5py" and hasattr(source, "read_direct"):
        return lambda rows, to: source.read_direct(to, rows)
    if _is_zarr_2(source):
        return lambda rows, to: source.get_basic_selection(rows, out=to)
    if _is_array_of_tables(source):
        return lambda rows, to: source.read(rows.start, rows.stop, out=to)
    return None


def _is_array_of_tables(source: Any) -> bool:
    """Return whether a source is an array of PyTables that reads by its first dimension."""
    kind = type(source)
    is_array = kind.__name__ in ("Array", "CArray", "EArray")
    is_tables = kind.__module__.partition(".")[0] == "tables"
    return is_tables and is_array and source.flavor == "numpy" and source.maindim == 0


def _is_zarr_2(source: Any) -> bool:
    zarr = sys.modules.get("zarr")
    is_zarr = type(source).__module__.partition(".")[0] == "zarr"
    return is_zarr and getattr(zarr, "__version__", "").startswith("2.")
