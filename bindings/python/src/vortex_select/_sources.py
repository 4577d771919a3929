"""The arrays of a column, for parts and files. This and `_joining` alone read their memory."""

from __future__ import annotations

from typing import Any, List, NamedTuple, Sequence

from ._arrays import Array, Field, Plain, array_of, borrowed, field_of, with_children
from ._joining import joined
from .columns import Column, column_over


class Source(NamedTuple):
    """The type and the arrays of a column."""

    field: Field
    arrays: List[Array]

    def __len__(self) -> int:
        return sum(map(len, self.arrays))

    def plain(self) -> Plain:
        """Return a copy of the rows."""
        return joined(self.field, self.arrays)


def source_of(column: Any) -> Source:
    """Return the arrays of a column, or of any object with `__arrow_c_array__`."""
    if isinstance(column, Column):
        return Source(column._field(), column._chunks)
    if not hasattr(column, "__arrow_c_array__"):
        raise TypeError(f"expected an object with __arrow_c_array__, got {type(column).__name__}")
    array = borrowed(column)
    return Source(field_of(array.node), [array])


def column_of(field: Field, plain: Plain) -> Column:
    """Return a column over plain buffers, which are not copied."""
    return column_over([array_of(field, plain)])


def places_of(names: Sequence[str], columns: Sequence[str]) -> List[int]:
    """Return the place of each column among the names.

    Raises:
        ValueError: A column isn't one of the names.
    """
    missing = [name for name in columns if name not in names]
    if missing:
        raise ValueError(f"columns: expected some of {list(names)}, got {missing[0]!r}")
    return [names.index(name) for name in columns]


def chosen_field(field: Field, columns: Sequence[str]) -> Field:
    """Return the type of a struct of these fields of a struct."""
    if field.format != "+s":
        raise ValueError(f"columns: expected a column of structs, got {field.type()}")
    numbers = places_of([child.name for child in field.children], columns)
    return field._replace(children=tuple(field.children[k] for k in numbers))


def chosen(column: Any, columns: Sequence[str]) -> Column:
    """Return a struct of these fields of a struct, whose memory it shares."""
    source = source_of(column)
    field = chosen_field(source.field, columns)
    numbers = places_of([child.name for child in source.field.children], columns)
    return column_over([with_children(field, array, numbers) for array in source.arrays])
