"""Columns as arrays of numpy, and arrays of numpy as the buffers of a column."""

from __future__ import annotations

import importlib
import sys
from typing import Any, List, Optional, Tuple

from . import _native
from ._arrays import Array, Node
from ._buffers import Bits
from ._reading import letters_of
from ._types import Type, spelled

# The kinds of numpy by the letters of `struct`.
_KINDS = {letter: f"<{kind}{size}" for letter, kind, size in (
    ("b", "i", 1), ("B", "u", 1), ("h", "i", 2), ("H", "u", 2), ("i", "i", 4), ("I", "u", 4),
    ("q", "i", 8), ("Q", "u", 8), ("e", "f", 2), ("f", "f", 4), ("d", "f", 8),
)}
_UNITS = {"s": "s", "m": "ms", "u": "us", "n": "ns"}
_FORMATS = {"i1": "c", "u1": "C", "i2": "s", "u2": "S", "i4": "i", "u4": "I", "i8": "l", "u8": "L"}
_FORMATS.update({"f2": "e", "f4": "f", "f8": "g"})


def module(name: str) -> Any:
    """Import a module that may be absent, and whose types may be unknown."""
    return importlib.import_module(name)


def dtype_of(form: str) -> Optional[str]:
    """Return the numpy type of values of a format, or None for values that it has no type for."""
    if form == "tdD":
        return None
    if form == "tdm":
        return "<M8[ms]"
    if form[:2] == "ts":
        return f"<M8[{_UNITS[form[2]]}]" if form[4:] in ("", "UTC") else None
    if form[:2] == "tD":
        return f"<m8[{_UNITS[form[2]]}]"
    return _KINDS.get(letters_of(form) or "") if form[:1] != "t" else None


def nulls_of(node: Node) -> Optional[bytes]:
    """Return a bit for each row, clear at a null, or None if no row is null by its validity."""
    valid = node.buffers[0] if node.buffers and node.format[:2] != "+u" else None
    return None if valid is None else bytes(Bits(valid, node.length, node.offset).words())


def null_count(node: Node) -> int:
    """Return how many rows are null."""
    if node.format == "n":
        return node.length
    bits = None if node.null_count == 0 else nulls_of(node)
    return 0 if bits is None else node.length - bin(int.from_bytes(bits, "little")).count("1")


def bytes_of(node: Node) -> int:
    """Return how many bytes the buffers of a column and its children have."""
    inner = [] if node.dictionary is None else [node.dictionary]
    own = sum(data.nbytes for data in node.buffers if data is not None)
    return own + sum(map(bytes_of, [*node.children, *inner]))


def _values(numpy: Any, node: Node) -> Any:
    """Return the values of an array of numbers or bools, those under nulls too."""
    if node.format == "b":
        data = node.buffers[1] if node.length else None
        bits = numpy.frombuffer(b"" if data is None else data, "u1")
        found = numpy.unpackbits(bits, bitorder="little").view(bool)
        return found[node.offset : node.offset + node.length]
    kind = dtype_of(node.format)
    data = node.buffers[1]
    if data is None or not node.length:
        return numpy.zeros(0, kind)
    size = numpy.dtype(kind).itemsize
    return numpy.frombuffer(data, kind, node.length, node.offset * size)


def to_numpy(chunks: List[Array], rows: Any) -> Any:
    """Return rows as an array of numpy: a masked one if a row is null.

    Numbers of one chunk without nulls are shared and read-only. Rows of other types are objects.
    """
    numpy = module("numpy")
    node = chunks[0].node
    is_flat = node.dictionary is None and (node.format == "b" or dtype_of(node.format) is not None)
    if not is_flat:
        found = numpy.empty(sum(map(len, chunks)), object)
        found[:] = list(rows)
        return found
    parts = [_values(numpy, chunk.node) for chunk in chunks]
    values = parts[0] if len(parts) == 1 else numpy.concatenate(parts)
    if not any(null_count(chunk.node) for chunk in chunks):
        return values
    mask = numpy.concatenate([_mask(numpy, chunk.node) for chunk in chunks])
    return numpy.ma.MaskedArray(values, mask)


def _mask(numpy: Any, node: Node) -> Any:
    """Return a bool for each row: whether it is null."""
    bits = nulls_of(node)
    if bits is None:
        return numpy.zeros(node.length, bool)
    valid = numpy.unpackbits(numpy.frombuffer(bits, "u1"), bitorder="little")
    return ~valid[: node.length].view(bool)


def is_array(values: Any) -> bool:
    """Return whether an object is an array of numpy."""
    numpy = sys.modules.get("numpy")
    return numpy is not None and isinstance(values, numpy.ndarray)


def _format_of(dtype: Any) -> Optional[str]:
    """Return the format of values of a numpy type, or None for values that are read one by one."""
    if dtype.kind == "b":
        return "b"
    if dtype.kind in "iuf":
        return _FORMATS.get(dtype.str[1:])
    if dtype.kind in "mM":
        unit = {"s": "s", "ms": "m", "us": "u", "ns": "n"}.get(dtype.str[4:-1])
        form = f"ts{unit}:" if dtype.kind == "M" else f"tD{unit}"
        return form if unit else None
    return None


def buffers_of(values: Any) -> Optional[Tuple[str, int, List[Any]]]:
    """Return the type, the length and the buffers of a column of an array's values.

    None for an array whose values are read one by one, such as one of objects. `NaT` and what a
    masked array hides are nulls.

    Raises:
        TypeError: the array has another number of dimensions than 1.
    """
    numpy = module("numpy")
    if values.ndim != 1:
        raise TypeError(f"values: expected an array of 1 dimension, got {values.ndim}")
    form = _format_of(values.dtype)
    if form is None:
        return None
    data = numpy.ma.getdata(values)
    null = numpy.ma.getmaskarray(values).copy()
    if values.dtype.kind in "mM":
        null |= numpy.isnat(data)
    valid = _native.pack(bytes((~null).view("u1"))) if null.any() else None
    if form == "b":
        return spelled(Type(form)), len(data), [valid, _native.pack(data.tobytes())]
    plain = data.astype(data.dtype.newbyteorder("<"))
    return spelled(Type(form)), len(data), [valid, plain.tobytes()]
