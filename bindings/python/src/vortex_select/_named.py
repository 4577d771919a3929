"""Filters by a field of a column of structs."""

from __future__ import annotations

from typing import Sequence, Tuple

from ._arrays import Array, bits_of, field_of, with_children
from ._buffers import end_to_end
from ._steps import Filter, filter_of_bits


def with_field(array: Array, name: str) -> Array:
    """Return an array of structs that have one field of these structs.

    Raises:
        TypeError: The array isn't of structs, or the field isn't of bools.
        KeyError: No field has the name.
    """
    field = field_of(array.node)
    if field.format != "+s":
        raise TypeError(f"Filter({name!r}): expected a column of structs, got {field.type()}")
    names = [child.name for child in field.children]
    if name not in names:
        raise KeyError(f"Filter({name!r}): expected one of {names}")
    child = field.children[names.index(name)]
    if child.format != "b":
        raise TypeError(f"Filter({name!r}): expected a field of bools, got {child.type()}")
    return with_children(field._replace(children=(child,)), array, [names.index(name)])


def _mask_of(array: Array) -> Tuple[int, int]:
    """Return a bit for each struct, and their number. It is set where the only field is true."""
    node, child = array.node, array.split()[0].node
    if not node.length:
        return 0, 0
    bits = bits_of(child.buffers[1], child) & bits_of(child.buffers[0], child)
    return bits & bits_of(node.buffers[0], node), node.length


def filter_by_field(arrays: Sequence[Array]) -> Filter:
    """Return the filter by the only field of structs.

    Null structs and null bools count as false.
    """
    return filter_of_bits(end_to_end(map(_mask_of, arrays)), sum(map(len, arrays)))
