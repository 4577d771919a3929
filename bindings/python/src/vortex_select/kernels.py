"""Kernels over flat lists: filters and takes of values and of bits, and counts of masks.

Values are bytes, or an array or memoryview of one dimension, whose items have 1, 2, 4, 8, 16 or 32
bytes and hold no objects. Results are memoryviews of memory of their own. Their items are of the
same type where `memoryview` has it, else bytes. A mask is one of these:

- bytes (of format `B`): bit k % 8 of byte k // 8, the lowest first, is set where row k is selected,
  and the bits past the rows are clear;
- a buffer of bools (of format `?`), or a list or tuple of them: one for each row;
- `Bits`: the first bit in a buffer, and the number of bits.

A list of indices is a buffer of native integers of one to eight bytes, or an iterable of ints. A
negative index is out of bounds.

>>> from array import array
>>> values = array("I", [10, 20, 30, 40])
>>> filter(values, b"\\x0d").tolist()
[10, 30, 40]
>>> filter(values, [True, False, True, True]).tolist()
[10, 30, 40]
>>> take(values, [3, 0, 0]).tolist()
[40, 10, 10]
"""

from __future__ import annotations

from array import array
from typing import TYPE_CHECKING, Any, List, Optional, Tuple

from . import _native
from ._buffers import (
    bits_held,
    clamped,
    indices_of,
    letter_of,
    number,
    placed_of,
    view_of,
    whole,
    words_of,
)

if TYPE_CHECKING:
    from _typeshed import ReadableBuffer as Buffer

    from ._buffers import Indices, Mask

__all__ = [
    "count_before",
    "filter",
    "filter_bits",
    "filter_in_place",
    "positions",
    "rank",
    "runs",
    "take",
    "take_bits",
]
_WIDTHS = (1, 2, 4, 8, 16, 32)


class _Values:
    """A view of values, the bytes of an item, and the type of the result's items."""

    def __init__(self, values: Any, width: Optional[int]):
        self.view = view_of(values, "values")
        letter = letter_of(self.view)
        self.width = self.view.itemsize
        if width is not None and whole(width) != self.width:
            if letter not in ("B", "b", "c"):
                raise ValueError(f"width: expected {self.width}, the items' own, got {width}")
            self.width, letter = whole(width), "B"
        if self.width not in _WIDTHS:
            raise ValueError(f"values: expected items of {_WIDTHS} bytes, got {self.width}")
        if self.view.nbytes % self.width:
            found = self.view.nbytes
            raise ValueError(
                f"values: expected whole items of {self.width} bytes, got {found} bytes"
            )
        self.type = letter or "B"
        self.rows = self.view.nbytes // self.width

    def result(self, data: bytearray) -> memoryview:
        return memoryview(data).cast(self.type)


def filter(values: Buffer, mask: Mask, width: Optional[int] = None) -> memoryview:
    """Return the items of `values` at the set bits of `mask`, in order.

    Args:
        values: A buffer of one dimension, of items of 1, 2, 4, 8, 16 or 32 bytes.
        mask: Bytes of bits, a list or buffer of bools, or `Bits`, as long as the values.
        width: The bytes of an item, for values that are bytes.

    Returns:
        A view of new memory.

    Raises:
        ValueError: The mask isn't as long as the values.
        TypeError: The values may hold objects, or the mask is something else.

    >>> bytes(filter(b"abcd", b"\\x05"))
    b'ac'
    >>> bytes(filter(b"aabbccdd", [True, False, False, True], width=2))
    b'aadd'
    """
    of = _Values(values, width)
    return of.result(_native.filter(of.width, of.view, *placed_of(mask, of.rows)))


def filter_in_place(values: Buffer, mask: Mask, width: Optional[int] = None) -> int:
    """Move the items at the set bits to the front of writable `values`.

    Args:
        values: A buffer as in `filter`, which can be written. The items behind those that are kept
            are any of its items afterwards.
        mask: As in `filter`.
        width: As in `filter`.

    Returns:
        How many items are kept.

    Raises:
        BufferError: The values can't be written.
        ValueError: The mask isn't as long as the values.
        TypeError: The values may hold objects, or the mask is something else.

    >>> values = bytearray(b"abcd")
    >>> filter_in_place(values, b"\\x0a")
    2
    >>> bytes(values[:2])
    b'bd'
    """
    of = _Values(values, width)
    return _native.filter_in_place(of.width, of.view, *placed_of(mask, of.rows))


def take(
    values: Buffer,
    indices: Indices,
    valid: Optional[Mask] = None,
    width: Optional[int] = None,
) -> memoryview:
    """Return the items of `values` at the indices, in order, and zeros where `valid` is clear.

    Args:
        values: As in `filter`.
        indices: A buffer of native integers, or an iterable of ints.
        valid: A mask as long as the indices. An index whose bit is clear is ignored.
        width: As in `filter`.

    Returns:
        A view of new memory.

    Raises:
        IndexError: An index is negative, or not below the number of items. The exception names the
            first such index.
        ValueError: The mask isn't as long as the indices.
        TypeError: The values may hold objects, or the indices aren't integers.

    >>> bytes(take(b"abcd", [3, 3, 9], valid=b"\\x03"))
    b'dd\\x00'
    >>> take(b"abcd", [3, 9])
    Traceback (most recent call last):
    IndexError: index 9 at place 1, but 4 items
    """
    of, (view, kind) = _Values(values, width), indices_of(indices)
    words = None if valid is None else words_of(valid, len(view))
    return of.result(_native.take(of.width, of.view, view, kind, words))


def filter_bits(
    bits: Mask, mask: Mask, rows: int, bits_at: int = 0, mask_at: int = 0
) -> Tuple[bytearray, int]:
    """Return the bits at the set bits of a mask, in order, as bytes, and their number.

    Args:
        bits: Bytes of bits, bools, or `Bits`.
        mask: As `bits`.
        rows: How many bits there are.
        bits_at: The first bit of `bits`.
        mask_at: The first bit of `mask`.

    Returns:
        The bytes, and how many bits of them count.

    Raises:
        ValueError: There are fewer bits.
        TypeError: The bits or the mask are something else.

    >>> kept, count = filter_bits(b"\\xa0", b"\\x0e", 4, bits_at=4)
    >>> bytes(kept), count
    (b'\\x05', 3)
    """
    src, by = bits_held(bits, bits_at, rows), bits_held(mask, mask_at, rows)
    kept, count = _native.filter_bits(src, by, whole(rows))
    return kept[: (count + 7) // 8], count


def take_bits(
    bits: Mask, count: int, indices: Indices, valid: Optional[Mask] = None, at: int = 0
) -> bytearray:
    """Return the bits at the indices, in order, as bytes, and clear bits where `valid` is clear.

    Args:
        bits: Bytes of bits, bools, or `Bits`.
        count: How many bits there are.
        indices: As in `take`.
        valid: As in `take`.
        at: The first bit of `bits`.

    Returns:
        New bytes, with a bit for each index.

    Raises:
        IndexError: An index is negative, or not below `count`.
        ValueError: There are fewer bits.
        TypeError: The bits or the indices are something else.

    >>> bytes(take_bits(b"\\xa0", 4, [1, 3, 0, 9], valid=b"\\x07", at=4))
    b'\\x03'
    """
    (src, start), (view, kind) = bits_held(bits, at, count), indices_of(indices)
    words = None if valid is None else words_of(valid, len(view))
    taken = _native.take_bits((src, start, whole(count)), view, kind, words)
    return taken[: (len(view) + 7) // 8]


def _numbers(data: bytearray) -> array[int]:
    numbers = array("Q")
    numbers.frombytes(data)
    return numbers


def positions(mask: Mask, rows: int) -> array[int]:
    """Return the rows that a mask selects, ascending.

    Args:
        mask: As in `filter`.
        rows: How many rows the mask has.

    Raises:
        ValueError: The mask has another number of rows.

    >>> positions(b"\\x0a", 4).tolist()
    [1, 3]
    """
    return _numbers(_native.positions(words_of(mask, rows), whole(rows)))


def runs(mask: Mask, rows: int) -> List[Tuple[int, int]]:
    """Return the longest runs of rows that a mask selects, each a start and an end.

    Args:
        mask: As in `filter`.
        rows: How many rows the mask has.

    Raises:
        ValueError: The mask has another number of rows.

    >>> runs(b"\\x0d", 4)
    [(0, 1), (2, 4)]
    """
    found = _numbers(_native.runs(words_of(mask, rows), whole(rows)))
    return list(zip(found[::2], found[1::2]))


def rank(mask: Mask, rows: int, k: int) -> int:
    """Return the `k`-th row that a mask selects, from 0.

    Args:
        mask: As in `filter`.
        rows: How many rows the mask has.
        k: Which of the selected rows.

    Raises:
        IndexError: The mask selects `k` rows or fewer.
        ValueError: The mask has another number of rows.

    >>> rank(b"\\x0a", 4, 1)
    3
    """
    return _native.rank(words_of(mask, rows), whole(rows), clamped(k))


def count_before(mask: Mask, rows: int, p: int) -> int:
    """Return how many rows before row `p` a mask selects.

    Args:
        mask: As in `filter`.
        rows: How many rows the mask has.
        p: The row, or the number of rows.

    Raises:
        IndexError: `p` is above the number of rows.
        ValueError: The mask has another number of rows.

    >>> count_before(b"\\x0a", 4, 3)
    1
    """
    return _native.count_before(words_of(mask, rows), number(rows, "rows"), clamped(p))
