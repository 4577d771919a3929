"""Arrays of the native module: how they are made, exported and read."""

from __future__ import annotations

from typing import Any, List, NamedTuple, Optional, Sequence, Tuple

from ._native import Array as Array
from ._native import Node as Node
from ._native import array_from_capsules, build
from ._types import Type

NULLABLE = 2


class Field(NamedTuple):
    """What a schema says, as values that pickle."""

    format: str
    name: str
    flags: int
    metadata: Optional[bytes]
    children: Tuple[Field, ...]
    dictionary: Optional[Field]

    def type(self) -> Type:
        """Return the type that it describes."""
        named = tuple((child.name, child.type()) for child in self.children)
        return Type(self.format, named, self.dictionary and self.dictionary.type())


class Plain(NamedTuple):
    """The buffers of an array, as values that pickle where the buffers do."""

    length: int
    null_count: int
    buffers: Tuple[Any, ...]
    children: Tuple[Plain, ...] = ()
    dictionary: Optional[Plain] = None


def field_of(node: Node) -> Field:
    """Return what the schema of a node says."""
    inner = node.dictionary
    return Field(
        node.format,
        node.name,
        node.flags,
        node.metadata,
        tuple(map(field_of, node.children)),
        None if inner is None else field_of(inner),
    )


def field_of_type(of: Type, name: str = "", flags: int = NULLABLE) -> Field:
    """Return the field of a type, nullable except for the keys of maps."""
    children = [field_of_type(child, called) for called, child in of.children]
    if of.format == "+m" and children:
        # The entries of a map and their keys are never null.
        entries = children[0]
        keys = tuple(key._replace(flags=0) for key in entries.children[:1])
        children[0] = entries._replace(flags=0, children=keys + entries.children[1:])
    inner = None if of.dictionary is None else field_of_type(of.dictionary)
    return Field(of.format, name, flags, None, tuple(children), inner)


def array_over(
    field: Field,
    rows: Tuple[int, int, int],
    buffers: Sequence[Any],
    children: Sequence[Array] = (),
    dictionary: Optional[Array] = None,
) -> Array:
    """Return an array over buffers, each of which is acquired once and held.

    Args:
        rows: the length, the null count or -1, and the offset.

    Raises:
        ValueError: a buffer is too short, or a part is missing or too many.
    """
    return build(field[:4], rows, list(buffers), list(children), dictionary)


def array_of(field: Field, plain: Plain) -> Array:
    """Return the array of these buffers."""
    children = [array_of(*both) for both in zip(field.children, plain.children)]
    inner = None
    if field.dictionary is not None and plain.dictionary is not None:
        inner = array_of(field.dictionary, plain.dictionary)
    rows = plain.length, plain.null_count, 0
    return array_over(field, rows, plain.buffers, children, inner)


def bits_of(data: Optional[memoryview], node: Node) -> int:
    """Return a bit for each row of a node as a number, the first row lowest.

    The bits of a buffer that is absent are set.
    """
    ones = (1 << node.length) - 1
    return ones if data is None else int.from_bytes(data, "little") >> node.offset & ones


def with_children(field: Field, array: Array, numbers: Sequence[int]) -> Array:
    """Return a struct of some children, which have the struct's own rows from their start on."""
    node, children = array.node, array.split()
    valid: Any = node.buffers[0]
    if valid is not None and node.offset:
        valid = bits_of(valid, node).to_bytes((node.length + 7) // 8, "little")
    rows = node.length, -1 if valid is not None else 0, 0
    return array_over(field, rows, [valid], [children[k] for k in numbers])


def borrowed(column: Any) -> Array:
    """Return the array that an object exports by `__arrow_c_array__`."""
    own = getattr(column, "_single", None)
    if own is not None and type(column).__module__ == "vortex_select.columns":
        array: Array = own()
        return array
    capsules = column.__arrow_c_array__()
    if not isinstance(capsules, tuple) or len(capsules) != 2:
        found = type(capsules).__name__
        raise TypeError(f"__arrow_c_array__: expected a tuple of two capsules, got {found}")
    return array_from_capsules(*capsules)


class Tree:
    """A node whose parts are looked up once: buffers are memoryviews, or None."""

    __slots__ = (
        "format", "name", "length", "offset", "buffers", "places", "children", "dictionary"
    )

    def __init__(self, node: Node):
        self.format, self.name = node.format, node.name
        self.length, self.offset = node.length, node.offset
        self.buffers: Tuple[Optional[memoryview], ...] = node.buffers
        self.places: Tuple[int, ...] = node.places
        self.children: List[Tree] = [Tree(child) for child in node.children]
        inner = node.dictionary
        self.dictionary: Optional[Tree] = None if inner is None else Tree(inner)
