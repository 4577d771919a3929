"""Numpy's files of numbers."""

from __future__ import annotations

import ast
import struct
from typing import Any, Tuple

from ._layouts import layout_of
from ._types import Type, spelled

# A header that is longer isn't parsed: the parsers of some Pythons end the process over a long one.
_LONGEST = 4096

# The types of numpy's files that Arrow has too.
_DTYPES = {"|u1": "C", "|i1": "c", "<f2": "e", "<f4": "f", "<f8": "g"}
for _kind, _letters in ("i", "sil"), ("u", "SIL"):
    _DTYPES.update({f"<{_kind}{2 << k}": letter for k, letter in enumerate(_letters)})


def _header(data: memoryview) -> Tuple[str, int]:
    """Return the text of a header, and where the numbers begin."""
    if bytes(data[:6]) != b"\x93NUMPY" or len(data) < 12:
        raise ValueError("expected an .npy file, got other bytes")
    version = data[6], data[7]
    if version not in ((1, 0), (2, 0), (3, 0)):
        found = f"{version[0]}.{version[1]}"
        raise ValueError(f"expected an .npy file of version 1.0, 2.0 or 3.0, got {found}")
    first = 10 if version == (1, 0) else 12
    (size,) = struct.unpack_from("<H" if first == 10 else "<I", data, 8)
    if size > _LONGEST:
        raise ValueError(f"expected a header of at most {_LONGEST} bytes, got {size}")
    if first + size > len(data):
        raise ValueError(f"the file has {len(data)} bytes, but its header ends at {first + size}")
    encoding = "utf-8" if version == (3, 0) else "latin-1"
    return bytes(data[first : first + size]).decode(encoding).strip(), first + size


def _parsed(text: str) -> Any:
    try:
        return ast.literal_eval(text)
    except (ValueError, TypeError, SyntaxError, MemoryError, RecursionError) as why:
        raise ValueError(f"header: expected a literal, got a {type(why).__name__}") from None


def _told(text: str) -> Tuple[str, int]:
    """Return the type and the number of the numbers of a header."""
    said = _parsed(text)
    if type(said) is not dict or set(said) != {"descr", "fortran_order", "shape"}:
        raise ValueError("expected a header of descr, fortran_order and shape, got another")
    descr, shape = said["descr"], said["shape"]
    if type(said["fortran_order"]) is not bool:
        raise ValueError("header: expected a fortran_order that is a bool, got another")
    if type(descr) is str and descr[:1] == ">":
        raise ValueError(f"expected little-endian numbers, got big-endian {descr[:40]!r}")
    if type(descr) is not str or descr not in _DTYPES:
        known = ", ".join(_DTYPES)
        raise ValueError(f"expected numbers of one of {known}, got {str(descr)[:40]}")
    if type(shape) is not tuple or len(shape) != 1 or type(shape[0]) is not int or shape[0] < 0:
        raise ValueError(f"expected an array of one dimension, got shape {str(shape)[:40]}")
    return _DTYPES[descr], shape[0]


def npy_in(data: memoryview) -> Tuple[str, int, memoryview]:
    """Return the type, the number and the bytes of the numbers of a file.

    Raises:
        ValueError: The file isn't an `.npy` file, or hasn't one dimension of numbers.
    """
    text, start = _header(data)
    form, count = _told(text)
    size = layout_of(form).slots[1].need(count)
    if len(data) - start < size:
        raise ValueError(f"expected {size} bytes of numbers, got {len(data) - start}")
    return spelled(Type(form)), count, data[start : start + size]
