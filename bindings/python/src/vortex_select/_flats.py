"""One step over an array in memory, whose rows are narrow: the kernels over flat lists."""

from __future__ import annotations

from typing import Any, Optional, Sequence

from . import _native
from ._buffers import whole_words
from ._scatters import WIDTHS, bytes_of
from ._steps import Filter, Step, Take
from ._stores import Store

# The bytes of an index of each type of integers.
_BYTES = (1, 2, 4, 8, 1, 2, 4, 8)


def flat(store: Store, steps: Sequence[Step]) -> Optional[Any]:
    """Return the rows that one filter or one take leaves of an array in memory.

    None for other sources and other steps, for steps with nulls, and for invalid ones.
    """
    import numpy

    if len(steps) != 1 or not store.is_flat or store.width not in WIDTHS:
        return None
    step, view = steps[0], bytes_of(store.source)
    data = None
    if isinstance(step, Take):
        data = _taken(store.width, view, step)
    elif isinstance(step, Filter) and len(step) == store.rows:
        data = _filtered(store.width, view, step)
    if data is None:
        return None
    return numpy.frombuffer(data, store.dtype).reshape(-1, *store.row_shape)


def _taken(width: int, view: Any, step: Take) -> Optional[bytearray]:
    values, valid, length, ptype, offset = step._made
    if len(valid) or offset or ptype >= len(_BYTES):
        return None
    size = _BYTES[ptype]
    if memoryview(values).nbytes != length * size:
        return None
    try:
        return _native.take(width, view, values, (size, ptype >= 4), None)
    except IndexError:
        return None  # whoever composes the steps says which index it is


def _filtered(width: int, view: Any, step: Filter) -> Optional[bytearray]:
    values, valid, _, _, at = step._made
    if len(valid):
        return None
    words = values if memoryview(values).nbytes % 8 == 0 else whole_words(bytes(values))
    return _native.filter(width, view, words, at)
