"""Columns as plain bytes, and the rows of several arrays as one."""

from __future__ import annotations

from array import array as numbers_of
from typing import Any, Iterator, List, NamedTuple, Optional, Sequence, Tuple

from . import _native
from ._arrays import NULLABLE, Array, Field, Node, Plain, Tree, array_of, array_over
from ._buffers import end_to_end
from ._reading import rows, width_of
from ._types import ids_of, spelled

# A buffer that views lead to has fewer bytes, since its places are numbers of 31 bits.
MOST_VIEWED = 1 << 31


def _alike(field: Field) -> Field:
    """Return a type without what columns of one type may differ in."""
    inner = None if field.dictionary is None else _alike(field.dictionary)
    children = tuple(_alike(child)._replace(name=child.name) for child in field.children)
    return Field(field.format, "", field.flags & NULLABLE, None, children, inner)


def _not_null(field: Field, path: str = "") -> List[str]:
    """Return the places of what is not nullable in a type."""
    found = [] if field.flags & NULLABLE else [path or "."]
    for child in field.children:
        found += _not_null(child, f"{path}.{child.name}")
    return found


def _spelled(field: Field) -> str:
    """Return the text of a type, and what in it is not nullable."""
    names = _not_null(field)
    text = spelled(field.type())
    if names == ["."]:
        return text + " not null"
    return f"{text} (not null: {', '.join(names)})" if names else text


def difference(one: Field, other: Field) -> Optional[Tuple[str, str]]:
    """Return the names of two types, or `None` if columns of them can be put together."""
    return None if _alike(one) == _alike(other) else (_spelled(one), _spelled(other))


class _Piece(NamedTuple):
    """Consecutive rows of an array: the first one, the offset included, and their number.

    All memory of an array is read by its methods.
    """

    tree: Tree
    first: int
    length: int

    @property
    def n_buffers(self) -> int:
        """The number of buffers."""
        return len(self.tree.buffers)

    def has(self, k: int) -> bool:
        """Return whether a buffer is there."""
        return k < self.n_buffers and self.tree.buffers[k] is not None

    def child_rows(self, k: int) -> int:
        """Return how many rows a child has."""
        return self.tree.children[k].length

    def child(self, k: int, first: int, count: int) -> _Piece:
        """Return rows of a child.

        Raises:
            ValueError: The child doesn't have them.
        """
        below = self.tree.children[k]
        first = _within(first, count, below.length, "rows of a child")
        return _Piece(below, below.offset + first, count)

    def view(self, k: int, start: int, size: int) -> Any:
        """Return bytes of a buffer, which aren't copied."""
        if not size:
            return b""
        data = self.tree.buffers[k] if k < self.n_buffers else None
        if data is None or not 0 <= start <= start + size <= len(data):
            found = 0 if data is None else len(data)
            where = f"buffer {k} of an array"
            raise ValueError(f"{where}: expected {size} bytes from {start} on, got {found} in all")
        return data[start : start + size]

    def numbers(self, k: int, letter: str, first: int, count: int) -> numbers_of[Any]:
        """Return numbers of a buffer, of a type of the module `array`."""
        found = numbers_of(letter)
        found.frombytes(self.view(k, found.itemsize * first, found.itemsize * count))
        return found

    def dictionary(self) -> _Piece:
        """Return all rows of the dictionary."""
        inner = self.tree.dictionary
        assert inner is not None
        return _Piece(inner, inner.offset, inner.length)

    def is_same_memory(self, other: _Piece) -> bool:
        """Return whether two flat arrays are the same rows of the same buffers."""
        one, two = self.tree, other.tree
        if (self.first, self.length) != (other.first, other.length):
            return False
        if one.children or one.dictionary or two.children or two.dictionary:
            return False
        return one.places == two.places

    def texts(self) -> str:
        """Return the rows as a text, which is another one for other rows."""
        return repr(rows(self.tree, 0, self.tree.length))


def piece_of(array: Array) -> _Piece:
    """Return all rows of an array."""
    tree = Tree(array.node)
    return _Piece(tree, tree.offset, tree.length)


def _within(start: int, size: int, end: int, what: str) -> int:
    """Return the start of a range.

    Raises:
        ValueError: The range ends after `end`.
    """
    if not 0 <= start <= start + size <= end:
        raise ValueError(f"{what}: expected a range within {end}, got {start} to {start + size}")
    return start


def _bits(pieces: Sequence[_Piece], k: int, missing: int = 0) -> bytes:
    """Return bits end to end. The bits of a buffer that is absent are all `missing`."""
    return end_to_end((_number_of(piece, k, missing), piece.length) for piece in pieces)


def _number_of(piece: _Piece, k: int, missing: int) -> int:
    """Return the bits of a piece as a number, the first row lowest."""
    ones = (1 << piece.length) - 1
    if not piece.has(k):
        return missing * ones
    low, high = piece.first // 8, (piece.first + piece.length + 7) // 8
    return int.from_bytes(piece.view(k, low, high - low), "little") >> piece.first % 8 & ones


def _validity(pieces: Sequence[_Piece]) -> Optional[bytes]:
    return _bits(pieces, 0, 1) if any(piece.has(0) for piece in pieces) else None


def _are_valid(piece: _Piece) -> List[bool]:
    """Return for each row of a piece whether it is valid."""
    bits = _bits([piece], 0, 1)
    return [bits[k // 8] >> k % 8 & 1 == 1 for k in range(piece.length)]


Parts = Tuple[Tuple[Any, ...], Tuple[Plain, ...]]
Spans = List[Tuple[int, int]]


def _offsets(pieces: Sequence[_Piece], is_wide: bool) -> Tuple[bytes, Spans]:
    """Return offsets end to end, and the first and the last offset of each piece."""
    letter = "q" if is_wide else "i"
    offsets, spans = numbers_of(letter, [0]), []
    for piece in pieces:
        own = piece.numbers(1, letter, piece.first, piece.length + 1)
        spans.append((own[0], own[-1]))
        moved = offsets[-1] - own[0]
        del own[0]
        try:
            offsets.extend(own if not moved else numbers_of(letter, [at + moved for at in own]))
        except OverflowError:
            bits = 63 if is_wide else 31
            raise OverflowError(f"expected offsets below 2^{bits}, got a higher one") from None
    return offsets.tobytes(), spans


def _strings(form: str, pieces: Sequence[_Piece]) -> Parts:
    offsets, spans = _offsets(pieces, form in "UZ")
    data = [piece.view(2, start, end - start) for piece, (start, end) in zip(pieces, spans)]
    return (offsets, b"".join(data)), ()


def _lists(form: str, field: Field, pieces: Sequence[_Piece]) -> Parts:
    offsets, spans = _offsets(pieces, form == "+L")
    below = [piece.child(0, start, end - start) for piece, (start, end) in zip(pieces, spans)]
    return (offsets,), (_plain(field.children[0], below),)


class _Viewed:
    """The bytes that views lead to, in buffers of less than 2 GiB."""

    def __init__(self) -> None:
        self.full, self.data, self.filled = [], [], 0  # type: ignore[var-annotated]

    def add(self, data: bytes) -> bytes:
        """Return the end of a view of some bytes, which are added: the buffer and the place."""
        if self.filled + len(data) >= MOST_VIEWED:
            self.full.append(b"".join(self.data))
            self.data, self.filled = [], 0
        place = len(self.full).to_bytes(4, "little") + self.filled.to_bytes(4, "little")
        self.data.append(data)
        self.filled += len(data)
        return place

    def buffers(self) -> Tuple[bytes, ...]:
        """Return the buffers, and behind them one with their lengths."""
        full = [*self.full, b"".join(self.data)]
        return (*full, numbers_of("q", map(len, full)).tobytes())


def _viewed_by(piece: _Piece, view: bytes, ends: Sequence[int]) -> bytes:
    """Return the bytes that a view of more than 12 leads to."""
    size, _, number, start = (int.from_bytes(view[i : i + 4], "little") for i in (0, 4, 8, 12))
    _within(number, 1, len(ends), "the buffer of a view")
    return bytes(piece.view(2 + number, _within(start, size, ends[number], "a view"), size))


def _views(pieces: Sequence[_Piece]) -> Parts:
    """Return views of strings, over buffers with the viewed bytes and no others."""
    views, viewed = bytearray(), _Viewed()
    for piece in pieces:
        own = bytes(piece.view(1, 16 * piece.first, 16 * piece.length))
        buffers = piece.n_buffers - 3
        ends = piece.numbers(2 + buffers, "q", 0, buffers)
        for k, is_valid in enumerate(_are_valid(piece)):
            view = own[16 * k : 16 * k + 16] if is_valid else bytes(16)
            if int.from_bytes(view[:4], "little") > 12:
                view = view[:8] + viewed.add(_viewed_by(piece, view, ends))
            views += view
    return (bytes(views), *viewed.buffers()), ()


def _list_views(form: str, field: Field, pieces: Sequence[_Piece]) -> Parts:
    """Return views of lists, whose items are in the order of the lists."""
    letter = "q" if form == "+vL" else "i"
    offsets, sizes, below, end = numbers_of(letter), numbers_of(letter), [], 0
    for piece in pieces:
        starts, lens = (piece.numbers(k, letter, piece.first, piece.length) for k in (1, 2))
        for start, size, is_valid in zip(starts, lens, _are_valid(piece)):
            count = size if is_valid else 0
            offsets.append(end)
            sizes.append(count)
            if count:
                below.append(piece.child(0, start, count))
            end += count
    return (offsets.tobytes(), sizes.tobytes()), (_plain(field.children[0], below),)


def _union(field: Field, pieces: Sequence[_Piece]) -> Plain:
    """Return a sparse union, which has type ids and no validity."""
    ids = b"".join(piece.view(0, piece.first, piece.length) for piece in pieces)
    length = sum(piece.length for piece in pieces)
    return Plain(length, 0, (ids,), _below(field, pieces, 1), None)


def _dense_union(field: Field, pieces: Sequence[_Piece]) -> Plain:
    """Return a dense union, each child of which has the rows of its type id, in order."""
    known = ids_of(field.format)
    ids = b"".join(piece.view(0, piece.first, piece.length) for piece in pieces)
    below: List[List[_Piece]] = [[] for _ in known]
    offsets, ends = numbers_of("i"), [0] * len(known)
    for piece in pieces:
        own = bytes(piece.view(0, piece.first, piece.length))
        for type_id, row in zip(own, piece.numbers(1, "i", piece.first, piece.length)):
            if type_id not in known:
                raise ValueError(f"type id: expected one of {list(known)}, got {type_id}")
            k = known.index(type_id)
            below[k].append(piece.child(k, row, 1))
            offsets.append(ends[k])
            ends[k] += 1
    children = tuple(_plain(child, rows) for child, rows in zip(field.children, below))
    return Plain(len(ids), 0, (ids, offsets.tobytes()), children, None)


def _fixed(form: str, pieces: Sequence[_Piece]) -> Parts:
    size = width_of(form)
    values = [piece.view(1, size * piece.first, size * piece.length) for piece in pieces]
    return (b"".join(values),), ()


def _below(field: Field, pieces: Sequence[_Piece], times: int) -> Tuple[Plain, ...]:
    """Return the children of which so many rows belong to each row."""
    spans = [(piece, times * piece.first, times * piece.length) for piece in pieces]
    return tuple(
        _plain(child, [piece.child(k, first, count) for piece, first, count in spans])
        for k, child in enumerate(field.children)
    )


def _one_dictionary(field: Field, pieces: Sequence[_Piece]) -> Plain:
    """Return the dictionary that all pieces have, since their codes are kept as they are."""
    if not pieces:
        return _plain(field, [])
    first, *others = [piece.dictionary() for piece in pieces]
    others = [other for other in others if not first.is_same_memory(other)]
    texts = first.texts() if others else ""
    if any(other.texts() != texts for other in others):
        raise ValueError("expected parts with one dictionary, got different dictionaries")
    return _plain(field, [first])


def _parts(field: Field, pieces: Sequence[_Piece]) -> Parts:
    """Return the buffers behind the validity, and the children."""
    form = field.format
    if form == "b":
        return (_bits(pieces, 1),), ()
    if form in ("u", "U", "z", "Z"):
        return _strings(form, pieces)
    if form in ("vu", "vz"):
        return _views(pieces)
    if form in ("+vl", "+vL"):
        return _list_views(form, field, pieces)
    if form in ("+l", "+L", "+m"):
        return _lists(form, field, pieces)
    if form == "+s":
        return (), _below(field, pieces, 1)
    if form[:3] == "+w:":
        return (), _below(field, pieces, int(form[3:]))
    return _fixed(form, pieces)


def _plain(field: Field, pieces: Sequence[_Piece]) -> Plain:
    """Return the rows of pieces end to end."""
    pieces = [piece for piece in pieces if piece.length]
    form, length = field.format, sum(piece.length for piece in pieces)
    if form == "n":
        return Plain(length, length, (), (), None)
    if form[:3] == "+us":
        return _union(field, pieces)
    if form[:3] == "+ud":
        return _dense_union(field, pieces)
    valid = _validity(pieces)
    more, below = _parts(field, pieces)
    inner = None if field.dictionary is None else _one_dictionary(field.dictionary, pieces)
    return Plain(length, 0 if valid is None else -1, (valid, *more), below, inner)


# ---- By the library

# How many bytes the first offset has, which is there without rows too.
OFFSETS = {"u": 4, "z": 4, "+l": 4, "+m": 4, "U": 8, "Z": 8, "+L": 8}



def _fields(field: Field) -> Iterator[Field]:
    """Yield a type and all types in it."""
    yield field
    for child in field.children:
        yield from _fields(child)
    if field.dictionary is not None:
        yield from _fields(field.dictionary)


def _viewed(node: Node) -> int:
    """Return how many bytes the data buffers of views have together."""
    own = node.buffers[2:-1] if node.format in ("vu", "vz") else ()
    inner = [] if node.dictionary is None else [node.dictionary]
    return sum(len(data or b"") for data in own) + sum(map(_viewed, [*node.children, *inner]))


def is_carried(field: Field, arrays: Sequence[Array]) -> bool:
    """Return whether the library joins the arrays.

    It joins no dense unions, and writes as many data buffers of views as one array has.
    """
    formats = {of.format for of in _fields(field)}
    if any(form[:3] == "+ud" for form in formats):
        return False
    if not formats & {"vu", "vz"}:
        return True
    return sum(_viewed(array.node) for array in arrays) < MOST_VIEWED


def _plain_of(field: Field, node: Node) -> Plain:
    """Return a copy of the buffers of an array that begins with them, as values that pickle."""
    buffers = [None if data is None else bytes(data) for data in node.buffers]
    if not node.length and field.format in OFFSETS:
        buffers[1] = bytes(OFFSETS[field.format])
    children = tuple(_plain_of(*both) for both in zip(field.children, node.children))
    inner = None
    if field.dictionary is not None and node.dictionary is not None:
        # A dictionary is shared with the column that it came from, so it may begin later.
        inner = joined(field.dictionary, _with_dictionaries(field.dictionary, [node.dictionary]))
    return Plain(node.length, node.null_count, tuple(buffers), children, inner)


def _is_same_memory(one: Node, other: Node) -> bool:
    """Return whether two flat arrays are the same rows of the same buffers."""
    if one.children or one.dictionary or other.children or other.dictionary:
        return False
    return (one.offset, one.length, one.places) == (other.offset, other.length, other.places)


def _texts(node: Node) -> str:
    """Return the rows of a dictionary as a text, which is another one for other rows."""
    return repr(rows(Tree(node), 0, node.length))


def _inner_of(nodes: Sequence[Node]) -> Node:
    """Return the dictionary of the first array that has rows.

    Raises:
        ValueError: Another array that has rows has other rows in its dictionary.
    """
    inner = [node.dictionary for node in nodes if node.length] or [nodes[0].dictionary]
    first, *others = [node for node in inner if node is not None]
    others = [other for other in others if not _is_same_memory(first, other)]
    texts = _texts(first) if others else ""
    if any(_texts(other) != texts for other in others):
        raise ValueError("expected parts with one dictionary, got different dictionaries")
    return first


def _with_dictionaries(field: Field, nodes: Sequence[Node]) -> List[Array]:
    """Return arrays of one type that have one dictionary.

    Raises:
        ValueError: The dictionaries have different rows.
    """
    below = zip(*(_with_dictionaries(child, [node.children[k] for node in nodes])
                  for k, child in enumerate(field.children)))
    inner = None
    if field.dictionary is not None:
        inner = _with_dictionaries(field.dictionary, [_inner_of(nodes)])[0]
    children = list(below) or [()] * len(nodes)
    made = []
    for node, own in zip(nodes, children):
        rows_of = node.length, node.null_count, node.offset
        made.append(array_over(field, rows_of, node.buffers, own, inner))
    return made


def _unified(field: Field, arrays: Sequence[Array]) -> Sequence[Array]:
    """Return arrays that have one dictionary.

    Raises:
        ValueError: The dictionaries have different rows.
    """
    if all(of.dictionary is None for of in _fields(field)):
        return arrays
    return _with_dictionaries(field, [array.node for array in arrays])


def concatenated(field: Field, arrays: Sequence[Array]) -> Array:
    """Return the rows of arrays of one type end to end, in memory of their own.

    Raises:
        ValueError: The arrays have different dictionaries, or aren't valid.
        OverflowError: The arrays have more items than their offsets can count.
    """
    if not is_carried(field, arrays):
        return array_of(field, _plain(field, [piece_of(array) for array in arrays]))
    some = [array for array in arrays if len(array)] or arrays[:1]
    return _native.concatenate(_unified(field, some))


def interleaved(field: Field, arrays: Sequence[Array], parts: Any, rows_of: Any) -> Array:
    """Return for each k row `rows_of[k]` of array `parts[k]`; both are 64-bit numbers.

    The exceptions are those of `concatenated`.
    """
    return _native.interleave(_unified(field, arrays), parts, rows_of)


def joined(field: Field, arrays: Sequence[Array]) -> Plain:
    """Return the rows of arrays of one type end to end, as values that pickle.

    The exceptions are those of `concatenated`.
    """
    if not is_carried(field, arrays):
        return _plain(field, [piece_of(array) for array in arrays])
    return _plain_of(field, concatenated(field, arrays).node)
