"""The head of a file of a column: its type, and where its buffers are. See docs/PARTS.md."""

from __future__ import annotations

import json
import struct
import zlib
from typing import Any, List, NamedTuple, Optional, Sequence, Tuple

from ._arrays import Field
from ._layouts import CODES, Layout, layout_of

MAGIC = b"VXPART2\n"
BEFORE = len(MAGIC) + 16
ALIGN = 64
LEVELS = 64
NODES = 65_536
# An array may have so many rows, or eight for each byte of the body. Nulls, and other rows that
# need no byte of a file, need memory where they are selected.
ROWS = 1 << 24
_PAST = 1 << 60


class Span(NamedTuple):
    """A buffer in the body of a file: where it begins, its length, and its checksum."""

    at: int
    size: int
    crc: int


class Node(NamedTuple):
    """An array in a file: its rows, and the number of each buffer, or `None` for no validity."""

    length: int
    buffers: Tuple[Optional[int], ...]
    children: Tuple[Node, ...]
    dictionary: Optional[Node]


class Head(NamedTuple):
    """What a file says before its body, of which `size` is the length in bytes."""

    field: Field
    node: Node
    spans: Sequence[Span]
    size: int


# Writing.


def _listed_field(field: Field) -> List[Any]:
    meta = None if field.metadata is None else field.metadata.hex()
    inner = None if field.dictionary is None else _listed_field(field.dictionary)
    children = list(map(_listed_field, field.children))
    return [field.format, field.name, field.flags, meta, children, inner]


def _listed_node(node: Node) -> List[Any]:
    inner = None if node.dictionary is None else _listed_node(node.dictionary)
    return [node.length, list(node.buffers), list(map(_listed_node, node.children)), inner]


def packed_head(head: Head) -> bytes:
    """Return the bytes of a file up to its body.

    Raises:
        ValueError: `head_in` would reject the head.
    """
    listed = [_listed_field(head.field), _listed_node(head.node), head.spans, head.size]
    text = json.dumps(listed, separators=(",", ":")).encode()
    parsed_head(text)
    text += b" " * (-(BEFORE + len(text)) % ALIGN)
    return MAGIC + struct.pack("<QQ", len(text), zlib.crc32(text)) + text


# Reading.


def _found(value: Any) -> str:
    """Return what a value is, in a few words."""
    if isinstance(value, (list, dict, str)):
        return f"a {type(value).__name__} of {len(value)}"
    return repr(value)[:40]


def _list(value: Any, count: Optional[int], what: str) -> List[Any]:
    if type(value) is not list or count not in (None, len(value)):
        size = "" if count is None else f" of {count}"
        raise ValueError(f"{what}: expected a list{size}, got {_found(value)}")
    return value


def _number(value: Any, end: int, what: str) -> int:
    if type(value) is not int or not 0 <= value < end:
        raise ValueError(f"{what}: expected a number from 0 to {end - 1}, got {_found(value)}")
    return value


def _text(value: Any, what: str) -> str:
    if type(value) is not str or "\0" in value:
        raise ValueError(f"{what}: expected a string without NUL, got {_found(value)}")
    try:
        value.encode()
    except UnicodeEncodeError:
        raise ValueError(f"{what}: expected a string that UTF-8 can encode") from None
    return value


def _metadata(value: Any) -> Optional[bytes]:
    """Return metadata: the number of pairs, and each string after its length, all of 32 bits."""
    if value is None:
        return None
    try:
        data = bytes.fromhex(_text(value, "metadata"))
        (left,), at = struct.unpack_from("<I", data), 4
        for _ in range(2 * left):
            (size,) = struct.unpack_from("<I", data, at)
            at += 4 + size
    except struct.error:
        size = len(value) // 2
        raise ValueError(f"metadata: expected strings within its {size} bytes, got more") from None
    if at != len(data) or left >= 1 << 31:
        raise ValueError(f"metadata: expected {at} bytes, got {len(data)}")
    return data


class _Parser:
    """Reads nested lists, of which it counts the nodes and the levels."""

    def __init__(self, spans: Sequence[Span], size: int):
        self.nodes, self.spans, self.size = 0, spans, size

    def field(self, value: Any, level: int = 1) -> Field:
        """Return a type, of which each node has what its format needs."""
        self.nodes += 1
        if self.nodes > NODES or level > LEVELS:
            raise ValueError(f"expected at most {NODES} nodes and {LEVELS} levels, got more")
        form, name, flags, meta, children, inner = _list(value, 6, "a field")
        layout = layout_of(_text(form, "a format"))
        inner = None if inner is None else self.field(inner, level + 1)
        if inner is not None and form not in CODES:
            raise ValueError(f"dictionary: expected codes that are integers, got format {form!r}")
        below = _list(children, layout.children, f"children of format {form!r}")
        fields = tuple(self.field(child, level + 1) for child in below)
        if form == "+m" and (fields[0].format != "+s" or len(fields[0].children) != 2):
            raise ValueError("map: expected a child that is a struct of two fields, got another")
        name, flags = _text(name, "a name"), _number(flags, 8, "flags")
        return Field(form, name, flags, _metadata(meta), fields, inner)

    def node(self, value: Any, field: Field) -> Node:
        """Return an array of a type."""
        length, own, children, inner = _list(value, 4, "an array")
        layout = layout_of(field.format)
        length = _number(length, _PAST, "a length")
        numbers = self.buffers(own, layout, field.format)
        self.need_sizes(numbers, layout, field.format, length)
        self.need_rows_bounded(length)
        if (inner is None) != (field.dictionary is None):
            raise ValueError("expected a dictionary if the type has one, and else none")
        what = f"children of an array of format {field.format!r}"
        below = _list(children, len(field.children), what)
        nodes = tuple(self.node(*pair) for pair in zip(below, field.children))
        for node in nodes:
            if node.length < length * layout.child_rows:
                least = length * layout.child_rows
                raise ValueError(f"child: expected at least {least} rows, got {node.length}")
        values = None if field.dictionary is None else self.node(inner, field.dictionary)
        return Node(length, numbers, nodes, values)

    def buffers(self, value: Any, layout: Layout, form: str) -> Tuple[Optional[int], ...]:
        """Return the numbers of an array's buffers, of which a validity alone may be absent."""
        what, least = f"buffers of format {form!r}", len(layout.slots) + layout.has_views
        own = _list(value, None if layout.has_views else least, what)
        if len(own) < least:
            raise ValueError(f"{what}: expected at least {least}, got {len(own)}")
        is_absent = bool(own) and own[0] is None and layout.has_validity
        numbers = tuple(_number(one, len(self.spans), what) for one in own[is_absent:])
        return (None, *numbers) if is_absent else numbers

    def need_sizes(
        self, numbers: Sequence[Optional[int]], layout: Layout, form: str, length: int
    ) -> None:
        """Fail if a buffer is too short for so many rows."""
        for slot, number in zip(layout.slots, numbers):
            size, need = 0 if number is None else self.spans[number].size, slot.need(length)
            if number is not None and size < need:
                what = f"{slot.name} of format {form!r}"
                raise ValueError(f"{what}: expected {need} bytes, got {size}")

    def need_rows_bounded(self, length: int) -> None:
        """Fail if an array has more rows than a body of this length may have."""
        most = max(ROWS, 8 * self.size)
        if length > most:
            of = f"an array in a body of {self.size} bytes"
            raise ValueError(f"{of}: expected at most {most} rows, got {length}")


def _span(value: Any, size: int) -> Span:
    at, long, crc = _list(value, 3, "a buffer")
    at, long = _number(at, _PAST, "a place"), _number(long, _PAST, "a size")
    span = Span(at, long, _number(crc, 1 << 32, "a checksum"))
    if span.at % ALIGN or span.at + span.size > size:
        where = f"{span.size} bytes at {span.at}"
        raise ValueError(f"expected a buffer at a multiple of {ALIGN} within {size}, got {where}")
    return span


def _digits(text: str) -> int:
    if len(text) > 19:
        raise ValueError(f"expected a number of at most 19 digits, got {len(text)}")
    return int(text)


def _no_fraction(text: str) -> None:
    raise ValueError(f"expected whole numbers, got {text[:40]}")


def parsed_head(text: bytes) -> Head:
    """Return the head that a text is, of which every number is possible.

    Raises:
        ValueError: The text is not such a head.
    """
    try:
        value = json.loads(
            text, parse_int=_digits, parse_float=_no_fraction, parse_constant=_no_fraction
        )
    except RecursionError:
        raise ValueError("head: expected fewer nested lists") from None
    field, node, spans, size = _list(value, 4, "the head")
    size = _number(size, _PAST, "the length of the body")
    places = [_span(one, size) for one in _list(spans, None, "the buffers")]
    parser = _Parser(places, size)
    of = parser.field(field)
    return Head(of, parser.node(node, of), places, size)


def head_in(data: memoryview) -> Tuple[Head, int]:
    """Return the head of a file, and where its body begins.

    Raises:
        ValueError: The file is cut off, has no such head, or its head is damaged.
    """
    if bytes(data[:8]) == b"VXPART1\n":
        raise ValueError("expected version 2 of the format, got version 1: write the file again")
    if bytes(data[: len(MAGIC)]) != MAGIC or len(data) < BEFORE:
        raise ValueError("expected a file of write_column, got other bytes")
    size, crc = struct.unpack_from("<QQ", data, len(MAGIC))
    start = BEFORE + size
    if len(data) < start:
        raise ValueError(f"the file has {len(data)} bytes, but its head ends at {start}")
    if zlib.crc32(data[BEFORE:start]) != crc:
        raise ValueError(f"head: expected checksum {crc}, got another")
    if start % ALIGN:
        raise ValueError(f"body: expected a start that is a multiple of {ALIGN}, got {start}")
    head = parsed_head(bytes(data[BEFORE:start]))
    if len(data) != start + head.size:
        raise ValueError(f"the file has {len(data)} bytes, expected {start + head.size}")
    return head, start
