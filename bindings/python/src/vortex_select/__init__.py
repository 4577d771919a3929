"""Row selection by proved kernels.

Columns: `select` applies slices, filters and takes to any object with the Arrow PyCapsule
interface, and returns a `Column`, which has that interface too.

>>> names = column(["ann", None, "bo", "cy"])
>>> select(names, [Filter([True, True, False, True]), Take([2, None])]).to_pylist()
['cy', None]

Modules:

- `kernels`: filters and takes over flat lists, such as bytes, arrays and memoryviews;
- `program`: the whole program over memory;
- `parts`: columns in parts, by processes or Dask, and files of columns;
- `chunks`: stores that are read in chunks, such as HDF5 and Zarr.

The functions of `kernels` and `program` have old names here, which still work and warn.
"""

import sys
import warnings
from types import ModuleType
from typing import Any, Dict

if sys.byteorder != "little" or sys.maxsize != 2**63 - 1:
    raise ImportError("vortex_select is built for x86-64 alone", name=__name__)

try:
    from . import _native
except ImportError as _why:
    raise ImportError(
        f"vortex_select: expected its native module for this Python, got none: {_why}",
        name=__name__,
    ) from None
from ._buffers import Bits
from ._plans import FilterEach, Plan, plan, put_together
from ._steps import BrokenStep, Filter, Slice, Take
from .columns import Column, check, column, from_buffers, select
from . import kernels, program

__version__ = "0.1.0"
__all__ = [
    "Bits",
    "BrokenStep",
    "Column",
    "Filter",
    "FilterEach",
    "Plan",
    "Slice",
    "Take",
    "check",
    "column",
    "from_buffers",
    "kernels",
    "plan",
    "program",
    "put_together",
    "select",
]

# The old names, and the modules that have them.
_MOVED: Dict[str, ModuleType] = {name: program for name in program.__all__}
_MOVED.update({name: kernels for name in kernels.__all__})


def __getattr__(name: str) -> Any:
    """Return a function of `kernels` or `program` by its old name, with a warning."""
    if name not in _MOVED:
        raise AttributeError(f"module {__name__!r} has no attribute {name!r}")
    new = f"{_MOVED[name].__name__}.{name}"
    text = f"{__name__}.{name} is deprecated: use {new}"
    warnings.warn(text, DeprecationWarning, stacklevel=2)
    return getattr(_MOVED[name], name)


_major, _minor, _patch = map(int, __version__.split("."))
if _native.version() != 1_000_000 * _major + 1_000 * _minor + _patch:
    raise ImportError(
        f"vortex_select {__version__} has a native module of version {_native.version()}",
        name=__name__,
    )
