"""Reads the rows of arrays, as Arrow's columnar format defines them."""

from __future__ import annotations

import decimal
import struct
from typing import Any, Iterator, List, Optional, Sequence, Tuple

from ._arrays import Tree
from ._types import decimal_of, ids_of

# The formats of `struct` by the formats of Arrow.
_NUMBERS = {"c": "b", "C": "B", "s": "h", "S": "H", "i": "i", "I": "I", "l": "q", "L": "Q"}
_NUMBERS.update({"e": "e", "f": "f", "g": "d", "tiM": "i", "tiD": "ii", "tin": "iiq"})


def _cut(data: Optional[memoryview], start: int, size: int) -> bytes:
    """Return bytes of a buffer.

    Raises:
        ValueError: they lead outside of it.
    """
    if not size:
        return b""
    found = 0 if data is None else data.nbytes
    if data is None or not 0 <= start <= start + size <= found:
        raise ValueError(f"buffer: expected {size} bytes at {start}, got {found} in all")
    return bytes(data[start : start + size])


def _numbers(data: Optional[memoryview], letters: str, first: int, count: int) -> List[Any]:
    """Return values from number `first` on; those of several letters as tuples."""
    size = struct.calcsize("<" + letters)
    found = list(struct.iter_unpack("<" + letters, _cut(data, first * size, count * size)))
    return found if len(letters) > 1 else [value for value, in found]


def _bits(data: Optional[memoryview], first: int, count: int) -> List[bool]:
    bits = _cut(data, first // 8, (first % 8 + count + 7) // 8 if count else 0)
    return [bits[k // 8] >> k % 8 & 1 == 1 for k in range(first % 8, first % 8 + count)]


def letters_of(form: str) -> Optional[str]:
    """Return the format by which `struct` reads a number, or None for values of another kind."""
    if form[:2] in ("td", "tt", "ts", "tD"):
        return "i" if form in ("tdD", "tts", "ttm") else "q"
    return _NUMBERS.get(form)


def width_of(form: str) -> int:
    """Return how many bytes a value of a fixed width has."""
    letters = letters_of(form)
    if letters:
        return struct.calcsize("<" + letters)
    if form[:2] == "d:":
        return decimal_of(form)[2] // 8
    if form[:2] == "w:":
        return int(form[2:])
    raise ValueError(f"expected a format of a fixed width, got {form!r}")


def _decimals(
    form: str, data: Optional[memoryview], first: int, count: int
) -> Iterator[decimal.Decimal]:
    _, scale, bits = decimal_of(form)
    size = bits // 8
    values = _cut(data, first * size, count * size)
    for k in range(count):
        number = int.from_bytes(values[k * size : k * size + size], "little", signed=True)
        digits = tuple(map(int, str(abs(number))))
        yield decimal.Decimal((int(number < 0), digits, -scale))


def _flat(tree: Tree, first: int, count: int) -> List[Any]:
    form, data = tree.format, tree.buffers[1] if len(tree.buffers) > 1 else None
    letters = letters_of(form)
    if form == "n":
        return [None] * count
    if form == "b":
        return _bits(data, first, count)
    if letters:
        return _numbers(data, letters, first, count)
    if form[:2] == "d:":
        return list(_decimals(form, data, first, count))
    if form[:2] == "w:":
        size = int(form[2:])
        values = _cut(data, first * size, count * size)
        return [values[k * size : k * size + size] for k in range(count)]
    raise NotImplementedError(f"expected a format whose rows can be read, got {form!r}")


def _texts(tree: Tree, first: int, count: int, there: Sequence[bool]) -> Iterator[bytes]:
    letter = "i" if tree.format in "uz" else "q"
    offsets = _numbers(tree.buffers[1], letter, first, count + (count > 0))
    for k in range(count):
        is_empty = not there[k] or offsets[k] == offsets[k + 1]
        yield b"" if is_empty else _cut(tree.buffers[2], offsets[k], offsets[k + 1] - offsets[k])


def _views(tree: Tree, first: int, count: int, there: Sequence[bool]) -> Iterator[bytes]:
    views, blocks = _cut(tree.buffers[1], 16 * first, 16 * count), tree.buffers[2:-1]
    for k in range(count):
        view = views[16 * k : 16 * k + 16]
        size, _, which, offset = struct.unpack("<iiii", view)
        if not there[k]:
            yield b""
        elif 0 <= size <= 12:
            yield view[4 : 4 + size]
        elif 0 <= which < len(blocks):
            yield _cut(blocks[which], offset, size)
        else:
            raise ValueError(f"view: expected a buffer below {len(blocks)}, got {which}")


def _spans(tree: Tree, first: int, count: int) -> List[Tuple[int, int]]:
    """Return where the items of each row begin and end."""
    form = tree.format
    if form[:3] == "+w:":
        size = int(form[3:])
        return [((first + k) * size, (first + k + 1) * size) for k in range(count)]
    letter = "q" if form in ("+L", "+vL") else "i"
    if form[:2] == "+v":
        starts = _numbers(tree.buffers[1], letter, first, count)
        sizes = _numbers(tree.buffers[2], letter, first, count)
        return [(start, start + size) for start, size in zip(starts, sizes)]
    offsets = _numbers(tree.buffers[1], letter, first, count + (count > 0))
    return list(zip(offsets, offsets[1:]))


def _lists(tree: Tree, first: int, count: int, there: Sequence[bool]) -> Iterator[List[Any]]:
    read = _pairs if tree.format == "+m" else rows
    for (start, end), is_there in zip(_spans(tree, first, count), there):
        yield read(tree.children[0], start, end - start) if is_there else []


def _runs(there: Sequence[bool]) -> List[Tuple[int, int]]:
    """Return the runs of rows that are valid, each a start and an end."""
    runs: List[Tuple[int, int]] = []
    start: Optional[int] = None
    for k, is_there in enumerate([*there, False]):
        if is_there and start is None:
            start = k
        elif not is_there and start is not None:
            runs.append((start, k))
            start = None
    return runs


def _records(
    tree: Tree, first: int, count: int, there: Sequence[bool]
) -> List[Optional[Tuple[Any, ...]]]:
    """Read the children where the struct is valid: what is under a null may be anything."""
    found: List[Optional[Tuple[Any, ...]]] = [None] * count
    for start, end in _runs(there):
        each = [rows(child, first + start, end - start) for child in tree.children]
        found[start:end] = zip(*each) if each else [()] * (end - start)
    return found


def _structs(tree: Tree, first: int, count: int, there: Sequence[bool]) -> List[Any]:
    names = [child.name for child in tree.children]
    records = _records(tree, first, count, there)
    return [None if record is None else dict(zip(names, record)) for record in records]


def _pairs(entries: Tree, at: int, count: int) -> List[Optional[Tuple[Any, ...]]]:
    """Return the pairs of a map from entry `at` on, and None for an entry that is null."""
    first, there = _opened(entries, at, count)
    return _records(entries, first, count, there)


def _unions(tree: Tree, first: int, count: int) -> Iterator[Any]:
    ids = ids_of(tree.format)
    offsets: Sequence[int] = range(first, first + count)
    if tree.format[2] == "d":
        offsets = _numbers(tree.buffers[1], "i", first, count)
    for which, offset in zip(_numbers(tree.buffers[0], "B", first, count), offsets):
        if which not in ids:
            raise ValueError(f"type id: expected one of {list(ids)}, got {which}")
        yield rows(tree.children[ids.index(which)], offset, 1)[0]


def _coded(
    values: Tree, tree: Tree, first: int, count: int, there: Sequence[bool]
) -> List[Any]:
    """Return the values of a dictionary at the codes of a tree."""
    codes = _flat(tree, first, count)
    return [rows(values, code, 1)[0] if ok else None for code, ok in zip(codes, there)]


def _opened(tree: Tree, at: int, count: int) -> Tuple[int, List[bool]]:
    """Return where `count` rows from row `at` on begin in the buffers, and which are valid."""
    if not 0 <= at <= at + count <= tree.length:
        raise ValueError(f"expected rows within {tree.length}, got rows {at} to {at + count}")
    first = tree.offset + at
    if tree.format[:2] == "+u" or not tree.buffers or tree.buffers[0] is None:
        return first, [True] * count
    return first, _bits(tree.buffers[0], first, count)


def rows(tree: Tree, at: int, count: int) -> List[Any]:
    """Return `count` rows of a tree from row `at` on.

    Raises:
        ValueError: a row leads outside of a buffer or a child.
    """
    form = tree.format
    first, there = _opened(tree, at, count)
    if form[:2] == "+u":
        return list(_unions(tree, first, count))
    if tree.dictionary is not None:
        found = _coded(tree.dictionary, tree, first, count, there)
    elif form in ("u", "U", "z", "Z", "vu", "vz"):
        read = _views if form[0] == "v" else _texts
        data = read(tree, first, count, there)
        found = [each if form[-1] in "zZ" else each.decode() for each in data]
    elif form == "+s":
        found = _structs(tree, first, count, there)
    elif form[:1] == "+":
        found = list(_lists(tree, first, count, there))
    else:
        found = _flat(tree, first, count)
    return [row if ok else None for row, ok in zip(found, there)]
