"""Files of columns, which are mapped: `write_column`, `read_column`, and numpy's."""

from __future__ import annotations

import contextlib
import mmap
import os
import uuid
import zlib
from array import array as numbers_of
from typing import Any, List, NamedTuple, Optional, Sequence

from ._heads import ALIGN, Head, Node, Span, head_in, packed_head
from ._arrays import Field, Plain
from ._layouts import layout_of
from ._npy import npy_in
from ._sources import chosen_field, column_of, places_of, source_of
from .columns import Column, check, from_buffers


# Writing.


def _placed(plain: Plain, buffers: List[Any]) -> Node:
    """Return an array whose buffers are their numbers in a list, to which they are appended."""
    own: List[Optional[int]] = []
    for data in plain.buffers:
        own.append(None if data is None else len(buffers))
        if data is not None:
            buffers.append(data)
    children = tuple(_placed(child, buffers) for child in plain.children)
    inner = None if plain.dictionary is None else _placed(plain.dictionary, buffers)
    return Node(plain.length, tuple(own), children, inner)


def _spans(buffers: Sequence[Any]) -> List[Span]:
    spans, at = [], 0
    for data in buffers:
        spans.append(Span(at, len(data), zlib.crc32(data)))
        at += len(data) + -len(data) % ALIGN
    return spans


def _written(file: Any, head: bytes, buffers: Sequence[Any]) -> None:
    file.write(head)
    for data in buffers:
        file.write(data)
        file.write(bytes(-len(data) % ALIGN))


def write_column(path: Any, column: Any) -> None:
    """Write a column to a file, which `read_column` maps.

    The file is written beside the path and renamed, so a reader has the old file or the new one.

    Args:
        path: Where the file will be. A file that is there is replaced.
        column: A `Column`, or any object with `__arrow_c_array__`.

    Raises:
        OSError: The file can't be written. Then the path is as it was.
        ValueError: The column is of a format that isn't known, such as run-end encoding, or
            `read_column` would reject the file, as one of more than 2^24 nulls alone.
    """
    source, buffers = source_of(column), []  # type: ignore[var-annotated]
    node = _placed(source.plain(), buffers)
    spans = _spans(buffers)
    size = sum(span.size + -span.size % ALIGN for span in spans)
    head = packed_head(Head(source.field, node, spans, size))
    path = os.fsdecode(path)
    beside = f"{path}.{uuid.uuid4().hex}"
    try:
        with open(beside, "xb") as file:
            _written(file, head, buffers)
        os.replace(beside, path)
    except BaseException:
        with contextlib.suppress(OSError):
            os.remove(beside)
        raise


# Reading.


def _map(path: Any) -> memoryview:
    with open(path, "rb") as file:
        if not os.fstat(file.fileno()).st_size:
            raise ValueError("expected a file of write_column, got an empty file")
        return memoryview(mmap.mmap(file.fileno(), 0, access=mmap.ACCESS_READ))


class _Body:
    """The buffers of a mapped file, of which each one that is asked for is tested."""

    def __init__(self, data: memoryview, spans: Sequence[Span], trusted: bool):
        self.data, self.spans, self.trusted = data, spans, trusted

    def buffer(self, number: int) -> memoryview:
        at, size, crc = self.spans[number]
        view = self.data[at : at + size]
        if not self.trusted and zlib.crc32(view) != crc:
            raise ValueError(f"buffer {number} of the file: expected checksum {crc}, got another")
        return view

    def array(self, field: Field, node: Node) -> Plain:
        """Return an array of a type, whose buffers are as long as their contents ask for."""
        layout = layout_of(field.format)
        buffers = [None if k is None else self.buffer(k) for k in node.buffers]
        if layout.offset_bits:
            _need_last(buffers, node, layout.offset_bits // 8)
        if layout.has_views:
            _need_lengths(buffers[2:])
        children = tuple(self.array(*pair) for pair in zip(field.children, node.children))
        inner = None
        if field.dictionary is not None and node.dictionary is not None:
            inner = self.array(field.dictionary, node.dictionary)
        return Plain(node.length, _nulls(field.format, node), tuple(buffers), children, inner)


def _nulls(form: str, node: Node) -> int:
    """Return the count of nulls, or -1 if the validity says it."""
    if form == "n":
        return node.length
    return -1 if layout_of(form).has_validity and node.buffers[0] is not None else 0


def _need_last(buffers: Sequence[Any], node: Node, size: int) -> None:
    """Fail if the last offset of strings is past their bytes, or of lists past their items."""
    last = int.from_bytes(buffers[1][size * node.length :][:size], "little", signed=True)
    end = node.children[0].length if node.children else len(buffers[2])
    if not 0 <= last <= end:
        raise ValueError(f"offsets: expected a last one from 0 to {end}, got {last}")


def _need_lengths(buffers: Sequence[Any]) -> None:
    """Fail if the last of these buffers isn't the lengths of the others."""
    *data, told = buffers
    if bytes(told) != numbers_of("q", map(len, data)).tobytes():
        raise ValueError("views: expected the lengths of the data buffers, got others")


class Mapped(NamedTuple):
    """A file whose head was read: of a struct, these fields alone."""

    field: Field
    node: Node
    spans: Sequence[Span]
    data: memoryview

    def column(self, trusted: bool) -> Column:
        """Return the column of the file."""
        plain = _Body(self.data, self.spans, trusted).array(self.field, self.node)
        column = column_of(self.field, plain)
        if not trusted:
            check(column)
        return column


def mapped(path: Any, columns: Optional[Sequence[str]] = None) -> Mapped:
    """Map a file of `write_column`, and read its head alone."""
    data = _map(path)
    head, start = head_in(data)
    field, node = head.field, head.node
    if columns is not None:
        field = chosen_field(head.field, columns)
        numbers = places_of([child.name for child in head.field.children], columns)
        node = node._replace(children=tuple(node.children[k] for k in numbers))
    return Mapped(field, node, head.spans, data[start:])


def read_column(
    path: Any, columns: Optional[Sequence[str]] = None, trusted: bool = False
) -> Column:
    """Return the column of a file of `write_column`. The file is mapped.

    The head of the file is always tested. The checksums of the buffers and the column itself
    (`check`) are tested unless the file is trusted; both read all bytes of the columns.

    Args:
        path: The file. While the column lives, no one may write to the file in place.
        columns: Of a struct, the fields that are read.
        trusted: Whether the bytes behind the head are believed.

    Raises:
        OSError: The file can't be opened.
        ValueError: The file is cut off or damaged, has another format, or lacks one of the columns.
    """
    return mapped(path, columns).column(trusted)


def read_npy(path: Any) -> Column:
    """Return the numbers of an `.npy` file of one dimension. The file is mapped.

    Raises:
        OSError: The file can't be opened.
        ValueError: The file is cut off, has another format, or its numbers have no type of Arrow.
    """
    type, count, data = npy_in(_map(path))
    return from_buffers(type, count, [None, data])
