"""Buffers of values, masks and indices: what the kernels take and what they reject."""

from __future__ import annotations

import contextlib
import mmap
import operator
import re
import struct
import sys
from array import array
from ctypes import Structure, Union as CUnion, sizeof
from ctypes import c_longdouble
from typing import TYPE_CHECKING, Any, Iterable, List, Optional, Tuple, Union

from . import _native

if TYPE_CHECKING:
    from _typeshed import ReadableBuffer as Buffer

    Mask = Union[Buffer, List[bool], Tuple[bool, ...], "Bits"]
    Indices = Union[Buffer, Iterable[int]]

# A number above every bound: no list has so many items, and no bytes have so many bits.
PAST = 2**64 - 1

# From so many bytes on, huge pages save time.
_LARGE = 1 << 22

# The parts of a buffer's format: a name, or a shape, a byte order, a count and a type.
_PART = re.compile(
    r":[^:]*:|T\{|\}|"
    r"(\([0-9,]*\))?([@=<>!^]?)([0-9]*)(Z[fdg]|[?cbBhHiIlLqQnNefdgwsx])"
)
_SIZES = {"g": sizeof(c_longdouble), "w": 4, "Zf": 8, "Zd": 16}
_SIZES["Zg"] = 2 * _SIZES["g"]


def whole(value: Any) -> int:
    """Return the value as a plain `int`. A subclass could override its comparisons."""
    return int.__pos__(operator.index(value))


def kept(view: memoryview) -> Any:
    """Return the bytes of a list of numbers in memory that nobody else can write to.

    Bytes and buffers of columns are borrowed. A large copy is in huge pages, if Linux has them.
    """
    if view.readonly and type(view.obj) in (bytes, _native.Buffer):
        return view
    advice = getattr(mmap, "MADV_HUGEPAGE", None)
    if view.nbytes < _LARGE or advice is None or not view.c_contiguous:
        return view.tobytes()
    block = mmap.mmap(-1, view.nbytes, flags=mmap.MAP_PRIVATE | mmap.MAP_ANONYMOUS)
    with contextlib.suppress(OSError):
        block.madvise(advice)
    memoryview(block).cast(view.format)[:] = view
    return block


def number(value: Any, what: str) -> int:
    """Return a number from 0 to 2^64 - 2."""
    found = whole(value)
    if not 0 <= found < PAST:
        raise ValueError(f"{what}: expected 0 to {PAST - 1}, got {found}")
    return found


def clamped(value: Any) -> int:
    """Return a number, and `PAST` for a negative one or one above 64 bits."""
    found = whole(value)
    return found if 0 <= found < PAST else PAST


def _size_of(kind: str, order: str) -> int:
    """Return the bytes of a value of a type."""
    if kind in _SIZES:
        return _SIZES[kind]
    return struct.calcsize(kind if order in "@^" or kind in "nN" else "=" + kind)


def _plain_size(form: str) -> Optional[int]:
    """Return the bytes of an item of a format, or None if it has more than numbers and bytes."""
    size = place = 0
    order = "@"
    while place < len(form):
        part = _PART.match(form, place)
        if part is None:
            return None
        place = part.end()
        shape, new_order, count, kind = part.groups()
        if kind is not None:
            order = new_order or order
            times = int(count or "1")
            for length in (shape or "()")[1:-1].split(","):
                times *= int(length or "1")
            size += times * _size_of(kind, order)
    return size


def is_masked(data: Any) -> bool:
    """Return whether an object is a masked array of numpy."""
    masked = getattr(sys.modules.get("numpy.ma"), "MaskedArray", ())
    return isinstance(data, masked)


def _is_ctypes_record(data: Any) -> bool:
    """Return whether an object is a structure or a union of ctypes, or an array of such.

    Their formats don't tell all of their bytes: a bit field or a union may hide a pointer.
    """
    kind = type(data)
    while hasattr(kind, "_type_") and hasattr(kind, "_length_"):
        kind = kind._type_
    return isinstance(kind, type) and issubclass(kind, (Structure, CUnion))


def view_of(data: Any, what: str) -> memoryview:
    """Return a view of a buffer of one dimension, whose items are numbers or bytes.

    Raises:
        TypeError: The object has no buffer, or its items may hold objects. A kernel moves bytes, so
            it would move references that nobody counts.
    """
    if is_masked(data):
        raise TypeError(f"{what}: expected a plain buffer, got a masked array")
    try:
        view = memoryview(data)
    except TypeError:
        raise TypeError(f"{what}: expected a buffer, got {type(data).__name__}") from None
    if view.ndim != 1:
        raise TypeError(f"{what}: expected 1 dimension, got {view.ndim}")
    if _plain_size(view.format) != view.itemsize or _is_ctypes_record(view.obj):
        raise TypeError(f"{what}: expected numbers or bytes, got items of format {view.format!r}")
    return view


def letter_of(view: memoryview) -> str:
    """Return the type of items that are native numbers of one letter, or an empty string."""
    form = view.format
    if form[:1] in "@=<" and len(form) == 2:
        form = form[1:]
    is_one = len(form) == 1 and form in "?cbBhHiIlLqQnNfd"
    return form if is_one and struct.calcsize(form) == view.itemsize else ""


class Bits:
    """A mask of `length` bits from bit `at` of a buffer on. Bit k % 8 of byte k // 8 is bit k.

    Bits before and after them are ignored.

    Args:
        data: A buffer of unsigned integers.
        length: The number of bits.
        at: The first bit.

    Raises:
        TypeError: The buffer is of something else.
        ValueError: The buffer has fewer bits.

    >>> from vortex_select import kernels
    >>> kernels.filter(b"abc", Bits(b"\\xfa", 3, at=1)).tobytes()
    b'ac'
    """

    __slots__ = ("_data", "at", "length")

    def __init__(self, data: Buffer, length: int, at: int = 0):
        view = view_of(data, "bits")
        if letter_of(view) not in ("B", "H", "I", "L", "Q"):
            raise TypeError(f"bits: expected unsigned integers, got format {view.format!r}")
        self.length, self.at = number(length, "length"), number(at, "at")
        if self.at + self.length > 8 * view.nbytes:
            found = 8 * view.nbytes
            raise ValueError(
                f"bits: expected {self.length} from bit {self.at} on, got {found} in all"
            )
        self._data = view

    def __len__(self) -> int:
        return self.length

    def placed(self) -> Tuple[array[int], int]:
        """Return a copy of the words that hold the bits, and where the bits begin in it."""
        length, at = number(self.length, "length"), number(self.at, "at")
        first, last = at // 8, (at + length + 7) // 8
        return whole_words(self._data.cast("B")[first:last].tobytes()), at % 8

    def words(self) -> array[int]:
        """Return the words of the bits, with the first bit lowest and zeros after the last."""
        placed, at = self.placed()
        bits = int.from_bytes(placed.tobytes(), "little") >> at
        bits &= (1 << self.length) - 1
        words = array("Q")
        words.frombytes(bits.to_bytes(8 * ((self.length + 63) // 64), "little"))
        return words


def end_to_end(parts: Iterable[Tuple[int, int]]) -> bytes:
    """Return bits end to end. Each part is a number, whose lowest bit is the first, and a count."""
    out, held, count = [], 0, 0
    for bits, length in parts:
        held |= bits << count
        count += length
        ready = count // 8
        data = held.to_bytes((count + 7) // 8, "little")
        out.append(data[:ready])
        held, count = int.from_bytes(data[ready:], "little"), count % 8
    out.append(held.to_bytes((count + 7) // 8, "little"))
    return b"".join(out)


def whole_words(data: bytes) -> array[int]:
    """Return the words that hold all bits of some bytes."""
    words = array("Q")
    words.frombytes(data + bytes(-len(data) % 8))
    return words


def bools_of(mask: Any) -> Optional[bytes]:
    """Return a mask's bools, a byte each, or None if it is a buffer of something else."""
    if isinstance(mask, (list, tuple)):
        for value in mask:
            if type(value) is not bool:
                raise TypeError(f"mask: expected bools, got {value!r:.80}")
        return bytes(mask)
    view = view_of(mask, "mask")
    return view.tobytes() if letter_of(view) == "?" else None


def packed(bools: bytes) -> array[int]:
    """Return the words of a mask that has a byte for each row."""
    return whole_words(_native.pack(bools))


def _bytes_of(bits: Any) -> bytes:
    view = view_of(bits, "mask")
    if letter_of(view) != "B":
        raise TypeError(f"mask: expected bytes or bools, got format {view.format!r}")
    return view.tobytes()


def words_of(mask: Any, rows: int) -> array[int]:
    """Return a copy of the words of a mask of exactly so many rows."""
    rows = number(rows, "rows")
    if isinstance(mask, Bits):
        placed_of(mask, rows)
        return mask.words()
    bools = bools_of(mask)
    if bools is not None:
        if len(bools) != rows:
            raise ValueError(f"mask: expected {rows} bools, one a row, got {len(bools)}")
        return packed(bools)
    bits = _bytes_of(mask)
    if len(bits) != (rows + 7) // 8:
        expected = (rows + 7) // 8
        raise ValueError(f"mask: expected {expected} bytes for {rows} rows, got {len(bits)}")
    if rows % 8 and bits[-1] >> rows % 8:
        raise ValueError(f"mask: expected clear bits after the {rows} rows, got a set one")
    return whole_words(bits)


def placed_of(mask: Any, rows: int) -> Tuple[array[int], int]:
    """Return a copy of the words that hold a mask of so many rows, and where it begins there."""
    rows = number(rows, "rows")
    if isinstance(mask, Bits):
        if mask.length != rows:
            raise ValueError(f"mask: expected {rows} bits, one a row, got {mask.length}")
        return mask.placed()
    return words_of(mask, rows), 0


def bits_held(bits: Any, at: int, count: int) -> Tuple[array[int], int]:
    """Return words that hold so many bits from bit `at` on, and where these begin there."""
    at, count = number(at, "at"), number(count, "count")
    if isinstance(bits, Bits):
        words, first = bits.placed()
        found, start = bits.length, first + at
    else:
        bools = bools_of(bits)
        data = _bytes_of(bits) if bools is None else b""
        found, start = 8 * len(data) if bools is None else len(bools), at
        words = whole_words(data) if bools is None else packed(bools)
    if at + count > found:
        raise ValueError(f"bits: expected {count} from bit {at} on, got {found} in all")
    return words, start


def integers_of(values: List[int]) -> array[int]:
    """Return numbers of 64 bits. One that has more is the greatest or the least of 64 bits.

    These are out of bounds of every list, as the numbers themselves are.
    """
    try:
        return array("q", values)
    except OverflowError:
        is_signed = min(values) < 0
    least, most = (-(2**63), 2**63 - 1) if is_signed else (0, PAST)
    return array("q" if is_signed else "Q", [max(least, min(value, most)) for value in values])


def _one_index(value: Any) -> int:
    if type(value) is bool:
        raise TypeError(f"indices: expected integers, got {value!r}")
    return whole(value)


def _listed(indices: Any) -> array[int]:
    """Return the numbers of an iterable."""
    if isinstance(indices, (str, Bits)):
        raise TypeError(f"indices: expected integers, got {type(indices).__name__}")
    indices = list(indices)
    if not set(map(type, indices)) <= {int}:
        indices = list(map(_one_index, indices))
    return integers_of(indices)


def indices_of(indices: Any) -> Tuple[memoryview, Tuple[int, bool]]:
    """Return a view of a list of native integers, their width, and whether they are signed."""
    if is_masked(indices):
        raise TypeError("indices: expected a plain buffer, got a masked array")
    try:
        view = memoryview(indices)
    except TypeError:
        view = memoryview(_listed(indices))
    kind = letter_of(view)
    if view.ndim != 1 or not kind or kind not in "bBhHiIlLqQnN":
        raise TypeError(f"indices: expected native integers, got format {view.format!r}")
    if not view.contiguous:
        view = memoryview(view.tobytes()).cast(kind)
    return view, (view.itemsize, kind in "bhilqn")
