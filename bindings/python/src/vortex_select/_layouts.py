"""What an array of each of Arrow's formats has: buffers, their lengths, and children."""

from __future__ import annotations

import functools
import re
from typing import NamedTuple, Optional, Tuple

from ._types import ids_of

# Integers, of which alone an array may have a dictionary.
CODES = "cCsSiIlL"


class Slot(NamedTuple):
    """A buffer: its name, the bits of a row, and how many rows it has beyond those of the array."""

    name: str
    bits: int
    more: int = 0

    def need(self, rows: int) -> int:
        """Return the least number of bytes for so many rows."""
        return ((rows + self.more) * self.bits + 7) // 8


class Layout(NamedTuple):
    """The buffers and children of a format.

    Attributes:
        slots: The buffers whose length depends on the rows, in Arrow's order.
        children: The number of children, or `None` if a schema may have any number.
        child_rows: How many rows each child has at least for a row of the array.
        has_views: Whether data buffers and a buffer with their lengths follow.
    """

    slots: Tuple[Slot, ...] = ()
    children: Optional[int] = 0
    child_rows: int = 0
    has_views: bool = False

    @property
    def offset_bits(self) -> int:
        """The bits of an offset, if the rows are the ranges between two offsets, else 0."""
        return next((slot.bits for slot in self.slots if slot.more), 0)

    @property
    def has_validity(self) -> bool:
        """Whether the first buffer is a validity, which may be absent."""
        return self.slots[:1] == (_VALID,)


_VALID = Slot("validity", 1)
_FIXED = {
    8: "[cC]",
    16: "[sSe]",
    32: "[iIf]|tdD|tt[sm]|tiM",
    64: "[lLg]|tdm|tt[un]|tD[smun]|ts[smun]:.*|tiD",
    128: "tin",
}
_OTHERS = {
    "n": Layout(),
    "b": Layout((_VALID, Slot("values", 1))),
    "+s": Layout((_VALID,), None, 1),
}
for _forms, _bits in (("uz", 32), ("UZ", 64)):
    for _form in _forms:
        _OTHERS[_form] = Layout((_VALID, Slot("offsets", _bits, 1), Slot("data", 0)))
for _form, _bits in (("l", 32), ("m", 32), ("L", 64)):
    _OTHERS["+" + _form] = Layout((_VALID, Slot("offsets", _bits, 1)), 1)
for _form, _bits in (("l", 32), ("L", 64)):
    _OTHERS["+v" + _form] = Layout((_VALID, Slot("offsets", _bits), Slot("sizes", _bits)), 1)
for _form in ("vu", "vz"):
    _OTHERS[_form] = Layout((_VALID, Slot("views", 128)), has_views=True)


def _fixed(bits: int) -> Layout:
    return Layout((_VALID, Slot("values", bits)))


def _union(form: str) -> Layout:
    """Return the layout of a union, whose format lists ids below 128, each once."""
    listed = form[4:].split(",") if form[4:] else []
    if any(not re.fullmatch("[0-9]{1,3}", number) or int(number) > 127 for number in listed):
        raise ValueError(f"expected type ids from 0 to 127, got format {form!r}")
    ids = ids_of(form)
    if len(set(ids)) < len(ids):
        raise ValueError(f"expected each type id once, got format {form!r}")
    slots = Slot("type ids", 8), Slot("offsets", 32)
    return Layout(slots, len(ids)) if form[2] == "d" else Layout(slots[:1], len(ids), 1)


@functools.lru_cache(maxsize=256)
def layout_of(form: str) -> Layout:
    """Return the layout of a format.

    Raises:
        ValueError: The format is not one of those that this package reads.
    """
    if form in _OTHERS:
        return _OTHERS[form]
    for bits, pattern in _FIXED.items():
        if re.fullmatch(pattern, form, re.DOTALL):
            return _fixed(bits)
    wide = re.fullmatch(r"(\+?)w:0*([0-9]{1,10})", form)
    if wide and int(wide.group(2)) < 2**31:
        count = int(wide.group(2))
        return Layout((_VALID,), 1, count) if wide.group(1) else _fixed(8 * count)
    decimal = re.fullmatch("d:[0-9]{1,9},-?[0-9]{1,9}(?:,(32|64|128|256))?", form)
    if decimal:
        return _fixed(int(decimal.group(1) or 128))
    if form[:4] in ("+us:", "+ud:"):
        return _union(form)
    raise ValueError(f"unknown format {form[:40]!r}")
