"""Builds columns of rows: their buffers and children, by type."""

from __future__ import annotations

import bisect
import decimal
import struct
from array import array as numbers_of
from typing import TYPE_CHECKING, Any, Callable, Dict, Iterable, List, Optional, Sequence, Tuple
from typing import Type as Class

from ._arrays import Array, Field, array_over
from ._native import pack
from ._reading import letters_of
from ._types import Type, decimal_of, ids_of, spelled

if TYPE_CHECKING:
    from _typeshed import ReadableBuffer as Buffer

# The most bytes of a data buffer of views.
_MOST = 2**31 - 1
# The buffers behind the validity, and the children.
Parts = Tuple[List[Any], Sequence[Array]]


def packed(bools: Iterable[Any]) -> bytes:
    """Return a bit for each of the bools, the lowest of each byte first."""
    return pack(bytes(map(bool, bools)))


class Misfit(Exception):
    """A row doesn't fit its type.

    Args:
        kind: The class of the exception that a caller gets.
        row: The number of the row, which is that of an item where lists are built.
        words: What was expected and what was found.
    """

    def __init__(self, kind: Class[Exception], row: int, words: str):
        super().__init__(kind, row, words)
        self.kind, self.row, self.words = kind, row, words
        self.path: List[str] = []

    def within(self, row: int, step: str) -> Misfit:
        """Return the exception of the row of a parent, in which this one is at a place."""
        self.row = row
        self.path.insert(0, step)
        return self

    def raised(self) -> Exception:
        """Return the exception that a caller gets."""
        where = ", ".join([f"row {self.row}", *self.path])
        return self.kind(f"{where}: {self.words}")


def _shown(value: Any) -> str:
    return f"{value!r:.80}"


def _misfit(of: str, row: int, value: Any) -> Misfit:
    return Misfit(TypeError, row, f"expected {of}, got {_shown(value)}")


def _range_of(letters: str) -> str:
    """Return the bounds of integers of one letter, in words."""
    count = 2 ** (8 * struct.calcsize("<" + letters))
    least = 0 if letters.isupper() else -count // 2
    return f" from {least} to {least + count - 1}"


def _packed_number(form: str, letters: str, row: int, value: Any) -> bytes:
    """Return the bytes of a number, or of a tuple of numbers.

    Raises:
        Misfit: The type has no such number.
    """
    numbers = value if len(letters) > 1 else (value,)
    name = spelled(Type(form))
    is_integer = letters in "bBhHiIqQ"
    try:
        return struct.pack("<" + letters, *numbers)
    except (struct.error, OverflowError, TypeError):
        if is_integer and isinstance(value, int):
            words = f"expected {name}{_range_of(letters)}, got {_shown(value)}"
            raise Misfit(OverflowError, row, words) from None
        if letters in "efgd" and isinstance(value, (int, float)):
            words = f"expected {name}, got {_shown(value)}, which is too large"
            raise Misfit(OverflowError, row, words) from None
        raise _misfit(name, row, value) from None


def _numbers(form: str, letters: str, rows: Sequence[Any]) -> bytes:
    """Return the bytes of numbers, and zeros for nulls."""
    of, done, is_one = struct.Struct("<" + letters), [], len(letters) == 1
    write, zeros = of.pack, bytes(of.size)
    for k, row in enumerate(rows):
        try:
            done.append(zeros if row is None else write(row) if is_one else write(*row))
        except (struct.error, OverflowError, TypeError):
            done.append(_packed_number(form, letters, k, row))
    return b"".join(done)


def _decimal(form: str, row: int, value: Any) -> int:
    """Return the digits of a decimal as an integer.

    Raises:
        Misfit: The type has no such number.
    """
    _, scale, bits = decimal_of(form)
    name = spelled(Type(form))
    try:
        number = decimal.Decimal(value).scaleb(scale)
    except (TypeError, ValueError, decimal.InvalidOperation):
        raise _misfit(name, row, value) from None
    if _fits(number, bits):
        return int(number)
    is_large = number.is_finite() and number == int(number)
    kind = OverflowError if is_large else ValueError
    raise Misfit(kind, row, f"expected {name}, got {_shown(value)}")


def _decimals(form: str, rows: Sequence[Any]) -> bytes:
    """Return the bytes of decimals, and zeros for nulls."""
    size, done = decimal_of(form)[2] // 8, []
    with decimal.localcontext() as context:
        context.prec = 100
        for k, row in enumerate(rows):
            number = 0 if row is None else _decimal(form, k, row)
            done.append(number.to_bytes(size, "little", signed=True))
    return b"".join(done)


def _fits(number: decimal.Decimal, bits: int) -> bool:
    """Return whether a number is whole and has so many bits, with its sign, at the most."""
    bound = 1 << (bits - 1)
    return number.is_finite() and number == int(number) and -bound <= number < bound


def _fixed(form: str, rows: Sequence[Any]) -> bytes:
    letters = letters_of(form)
    if letters:
        return _numbers(form, letters, rows)
    if form[:2] == "d:":
        return _decimals(form, rows)
    if form[:2] != "w:":
        raise NotImplementedError(f"expected a format that can be built, got {form!r}")
    size, done = int(form[2:]), []
    for k, row in enumerate(rows):
        done.append(bytes(size) if row is None else _bytes_of(k, row))
        if len(done[-1]) != size:
            words = f"expected {size} bytes, got {len(done[-1])}"
            raise Misfit(ValueError, k, words)
    return b"".join(done)


def _bytes_of(row: int, value: Any) -> bytes:
    """Return the bytes of a string, a buffer, or a null.

    Raises:
        Misfit: The value is something else.
    """
    if value is None:
        return b""
    if isinstance(value, str):
        return value.encode()
    try:
        return memoryview(value).tobytes()
    except TypeError:
        raise _misfit("a string or bytes", row, value) from None


def _strings(of: Field, rows: Sequence[Any]) -> List[bytes]:
    """Return the bytes of each row.

    Raises:
        Misfit: A row isn't a string or bytes, or of a type of strings not UTF-8.
    """
    data = [_bytes_of(k, row) for k, row in enumerate(rows)]
    if of.format[-1] in "uU":
        for k, (row, each) in enumerate(zip(rows, data)):
            if not isinstance(row, str):
                _need_utf8(k, each)
    return data


def _need_utf8(row: int, data: bytes) -> None:
    try:
        data.decode()
    except UnicodeDecodeError as why:
        words = f"expected UTF-8, got byte {data[why.start]:#04x} at {why.start}"
        raise Misfit(ValueError, row, words) from None


def _bools(rows: Sequence[Any]) -> bytes:
    for k, row in enumerate(rows):
        if row not in (None, True, False):
            raise _misfit("a bool", k, row)
    return packed(rows)


def offsets_of(sizes: Iterable[int], is_wide: bool) -> numbers_of[int]:
    """Return the offsets of rows of these sizes, of 64 or of 32 bits."""
    offsets = numbers_of("q" if is_wide else "i", [0])
    at = 0
    for size in sizes:
        at += size
        offsets.append(at)
    return offsets


def _text(of: Field, rows: Sequence[Any]) -> Parts:
    data = _strings(of, rows)
    return [offsets_of(map(len, data), of.format in "UZ"), b"".join(data)], ()


def viewed(data: bytes, block: int, at: int) -> bytes:
    """Return a view of bytes: it holds up to 12 of them, or their place in a data buffer."""
    if len(data) <= 12:
        return struct.pack("<i12s", len(data), data)
    return struct.pack("<i4sii", len(data), data[:4], block, at)


def lengths_of(blocks: Iterable[Buffer]) -> numbers_of[int]:
    """Return the lengths of data buffers: the last buffer of an array of views."""
    return numbers_of("q", [memoryview(block).nbytes for block in blocks])


def _views(of: Field, rows: Sequence[Any]) -> Parts:
    views, blocks = [], [bytearray()]
    for data in _strings(of, rows):
        if len(blocks[-1]) + len(data) > _MOST:
            blocks.append(bytearray())
        views.append(viewed(data, len(blocks) - 1, len(blocks[-1])))
        if len(data) > 12:
            blocks[-1] += data
    filled = [bytes(block) for block in blocks if block]
    return [b"".join(views), *filled, lengths_of(filled)], ()


def _child(of: Field, rows: Sequence[Any], where: Callable[[int], Tuple[int, str]]) -> Array:
    """Return the array of a child.

    Raises:
        Misfit: A row doesn't fit. `where` returns the parent's row of a child's row, and its place.
    """
    try:
        return _built(of, rows)
    except Misfit as why:
        raise why.within(*where(why.row)) from None


def _listed(row: int, value: Any) -> List[Any]:
    """Return the items of a row of a list."""
    if isinstance(value, (str, dict)) or not hasattr(value, "__iter__"):
        raise _misfit("a list", row, value)
    return list(value)


def _entry(inner: Field, row: int, item: Any) -> Dict[str, Any]:
    """Return the row of a map's entries for a pair."""
    if not isinstance(item, (tuple, list)) or len(item) != 2 or item[0] is None:
        words = f"expected a pair of a key and a value, got {_shown(item)}"
        raise Misfit(ValueError, row, words)
    key, value = inner.children
    return {key.name: item[0], value.name: item[1]}


def _items_of(inner: Field, lists: Sequence[List[Any]], is_map: bool) -> Array:
    """Return the array of the items of lists, end to end."""
    ends = offsets_of(map(len, lists), True)
    items = [item for row in lists for item in row]

    def where(k: int) -> Tuple[int, str]:
        row = bisect.bisect_right(ends, k) - 1
        return row, f"item {k - ends[row]}"

    if is_map:
        try:
            items = [_entry(inner, k, item) for k, item in enumerate(items)]
        except Misfit as why:
            raise why.within(*where(why.row)) from None
    return _child(inner, items, where)


def _list(of: Field, rows: Sequence[Any]) -> Parts:
    lists = [[] if row is None else _listed(k, row) for k, row in enumerate(rows)]
    items = _items_of(of.children[0], lists, of.format == "+m")
    is_wide = of.format in ("+L", "+vL")
    offsets = offsets_of(map(len, lists), is_wide)
    if of.format[1] == "v":
        sizes = numbers_of("q" if is_wide else "i", map(len, lists))
        return [offsets[:-1], sizes], [items]
    return [offsets], [items]


def _items(of: Field, rows: Sequence[Any]) -> Parts:
    size = int(of.format[3:])
    lists = [[None] * size if row is None else _listed(k, row) for k, row in enumerate(rows)]
    for k, row in enumerate(lists):
        if len(row) != size:
            raise Misfit(ValueError, k, f"expected {size} items, got {len(row)}")
    return [], [_items_of(of.children[0], lists, False)]


def _struct(of: Field, rows: Sequence[Any]) -> Parts:
    kept = [{} if row is None else row for row in rows]
    for k, row in enumerate(kept):
        if not isinstance(row, dict):
            raise _misfit("a dict", k, row)
    return [], [_field(child, kept) for child in of.children]


def _field(of: Field, rows: Sequence[Dict[str, Any]]) -> Array:
    """Return the array of a field of structs."""
    values = [row.get(of.name) for row in rows]
    return _child(of, values, lambda k: (k, f"field {of.name!r}"))


def _is_number(letters: str, row: Any) -> bool:
    """Return whether a row is a number, or a tuple of numbers, that `struct` packs so."""
    numbers = row if len(letters) > 1 else (row,)
    kind = float if letters in ("e", "f", "d") else int
    if not isinstance(numbers, tuple) or len(numbers) != len(letters):
        return False
    if any(type(number) is not kind for number in numbers):
        return False
    try:
        struct.pack("<" + letters, *numbers)
    except (struct.error, OverflowError):
        return False
    return True


def _is_decimal(form: str, row: Any) -> bool:
    _, scale, bits = decimal_of(form)
    with decimal.localcontext() as context:
        context.prec = 100
        return isinstance(row, decimal.Decimal) and _fits(row.scaleb(scale), bits)


def _is_list(of: Field, row: Any) -> bool:
    if not isinstance(row, list) or (of.format[1] == "w" and len(row) != int(of.format[3:])):
        return False
    inner = of.children[0]
    if of.format != "+m":
        return all(is_of(inner, item) for item in row)
    key, value = inner.children
    return all(
        isinstance(pair, tuple) and len(pair) == 2 and is_of(key, pair[0]) and is_of(value, pair[1])
        for pair in row
    )


def is_of(of: Field, row: Any) -> bool:
    """Return whether a row may be one of a type."""
    form = of.format
    if row is None or form == "n":
        return row is None
    if of.dictionary is not None:
        return is_of(of.dictionary, row)
    if form[:2] == "+u":
        return any(is_of(child, row) for child in of.children)
    if form == "+s":
        names = {child.name for child in of.children}
        return isinstance(row, dict) and set(row) == names and all(
            is_of(child, row[child.name]) for child in of.children
        )
    if form[:1] == "+":
        return _is_list(of, row)
    letters = letters_of(form)
    if letters:
        return _is_number(letters, row)
    if form[:2] == "d:":
        return _is_decimal(form, row)
    if form[:2] == "w:":
        return isinstance(row, bytes) and len(row) == int(form[2:])
    return isinstance(row, {"b": bool, "u": str, "U": str, "vu": str}.get(form, bytes))


def _chosen(of: Field, places: Sequence[int], rows: Sequence[Any]) -> Parts:
    """Return the buffers and children of a union, given the child of each row."""
    ids, is_dense = ids_of(of.format), of.format[2] == "d"
    each: List[List[Any]] = [[] for _ in of.children]
    offsets = numbers_of("i")
    for place, row in zip(places, rows):
        offsets.append(len(each[place]))
        for k, below in enumerate(each):
            if k == place or not is_dense:
                below.append(row if k == place else None)
    types = bytes(ids[place] for place in places)
    children = [_built(child, below) for child, below in zip(of.children, each)]
    return [types, offsets] if is_dense else [types], children


def _union(of: Field, rows: Sequence[Any]) -> Parts:
    """Put each row into the first child that it may be a row of."""
    places: List[int] = []
    for k, row in enumerate(rows):
        place = next((j for j, child in enumerate(of.children) if is_of(child, row)), None)
        if place is None:
            words = f"value {_shown(row)} matches no child type of {of.type()}"
            raise Misfit(ValueError, k, words)
        places.append(place)
    return _chosen(of, places, rows)


def _dictionary(of: Field, inner: Field, rows: Sequence[Any]) -> Tuple[List[Any], Array]:
    """Return the codes of the rows, and each value once, in the order in which they come."""
    codes: List[Optional[int]] = []
    values: List[Any] = []
    firsts: List[int] = []
    places: Dict[str, int] = {}
    for k, row in enumerate(rows):
        if row is None:
            codes.append(None)
            continue
        code = places.setdefault(repr(row), len(values))
        if code == len(values):
            values.append(row)
            firsts.append(k)
        codes.append(code)
    try:
        own = _fixed(of.format, codes)
    except Misfit as why:
        form, most = spelled(Type(of.format)), codes[why.row]
        words = f"expected at most {most} values in a dictionary of {form} codes, got more"
        raise Misfit(OverflowError, why.row, words) from None
    return [own], _child(inner, values, lambda k: (firsts[k], "value"))


def _parts_of(of: Field, rows: List[Any]) -> Tuple[List[Any], Sequence[Array], Optional[Array]]:
    """Return the buffers behind the validity, the children and the dictionary."""
    form, inner = of.format, None
    children: Sequence[Array] = ()
    if of.dictionary is not None:
        more, inner = _dictionary(of, of.dictionary, rows)
    elif form == "b":
        more = [_bools(rows)]
    elif form in ("u", "U", "z", "Z"):
        more, children = _text(of, rows)
    elif form in ("vu", "vz"):
        more, children = _views(of, rows)
    elif form in ("+l", "+L", "+m", "+vl", "+vL"):
        more, children = _list(of, rows)
    elif form[:3] == "+w:":
        more, children = _items(of, rows)
    elif form == "+s":
        more, children = _struct(of, rows)
    else:
        more = [_fixed(form, rows)]
    return more, children, inner


def _built(of: Field, rows: Iterable[Any]) -> Array:
    """Return an array of the rows, of the type of a field.

    Raises:
        Misfit: A row doesn't fit the type.
    """
    rows = list(rows)
    nulls = sum(row is None for row in rows)
    if of.format == "n":
        for k, row in enumerate(rows):
            if row is not None:
                raise Misfit(ValueError, k, f"expected None for type null, got {_shown(row)}")
        return array_over(of, (len(rows), nulls, 0), [])
    if of.format[:2] == "+u":
        more, children = _union(of, rows)
        return array_over(of, (len(rows), 0, 0), more, children)
    more, children, inner = _parts_of(of, rows)
    valid = [packed(row is not None for row in rows) if nulls else None]
    return array_over(of, (len(rows), nulls, 0), [*valid, *more], children, inner)


def built(of: Field, rows: Iterable[Any]) -> Array:
    """Return an array of the rows, of the type of a field.

    Raises:
        OverflowError: A number is too large for its type.
        TypeError: A value is of another kind than its type.
        ValueError: A value doesn't fit its type for another reason.
    """
    try:
        return _built(of, rows)
    except Misfit as why:
        raise why.raised() from None


_SCALARS = {bool: "b", int: "l", float: "g", str: "u", bytes: "z"}


def guessed(rows: Sequence[Any]) -> Type:
    """Return the type of rows: that of the first that isn't None."""
    first = next((row for row in rows if row is not None), None)
    if first is None:
        return Type("n")
    if type(first) in _SCALARS:
        return Type(_SCALARS[type(first)])
    if isinstance(first, dict):
        names = dict.fromkeys(name for row in rows if row for name in row)
        fields = {name: [row.get(name) if row else None for row in rows] for name in names}
        return Type("+s", tuple((name, guessed(values)) for name, values in fields.items()))
    if isinstance(first, (list, tuple)):
        return Type("+l", (("item", guessed([item for row in rows if row for item in row])),))
    found = type(first).__name__
    raise TypeError(f"expected a type for values of class {found}, such as {_shown(first)}")
