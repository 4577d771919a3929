"""Steps of a selection: slices, filters and takes."""

from __future__ import annotations

from array import array as numbers_of
from typing import Any, List, Optional, Sequence, Tuple, Type, Union

from . import _native
from ._arrays import Array, Node, borrowed
from ._buffers import Bits, PAST, bools_of, integers_of, is_masked, kept, letter_of, packed, whole

CAUSES = ("BadRange", "BadMask", "NotBool", "InvalidIndices", "BadPieces", "OutOfBounds")
_SLICE, _FILTER, _TAKE = range(3)
# The number types of a take, unsigned and signed, by the bytes of a number.
_KINDS = {1: (0, 4), 2: (1, 5), 4: (2, 6), 8: (3, 7)}
_BITS = (8, 16, 32, 64, 8, 16, 32, 64, 16, 32, 64)
_FORMATS = {"C": 0, "S": 1, "I": 2, "L": 3, "c": 4, "s": 5, "i": 6, "l": 7, "e": 8, "f": 9, "g": 10}

# Kind, start, end, number type, offset, length, values, validity: a step as the library takes it.
Image = Tuple[int, int, int, int, int, int, Optional[Any], Optional[Any]]


def counted(count: int, noun: str) -> str:
    """Return a number and a noun, which has an s unless the number is 1."""
    return f"{count} {noun}{'' if count == 1 else 's'}"


class BrokenStep(Exception):
    """A step is invalid.

    Attributes:
        step: The step's number, from 0.
        cause: One of `CAUSES`.
        words: What is wrong.
        found: The number that is wrong: the end of a slice, the length of a mask, or an index.
            `None` if the cause has no number.
        bound: The number that it should be, or should not pass: how many rows there are.

    >>> from vortex_select import Take, column, select
    >>> try:
    ...     select(column([5, 6]), [Take([0, 9])])
    ... except BrokenStep as why:
    ...     print(why, why.found, why.bound)
    step 0: OutOfBounds: index 9, but 2 rows 9 2
    """

    def __init__(
        self,
        step: int,
        cause: str,
        words: str = "",
        found: Optional[int] = None,
        bound: Optional[int] = None,
    ):
        super().__init__(f"step {step}: {cause}{': ' if words else ''}{words}")
        self.step, self.cause, self.words = step, cause, words
        self.found, self.bound = found, bound

    def moved(self, steps: int) -> BrokenStep:
        """Return the exception of a list in which so many steps come before these."""
        return BrokenStep(self.step + steps, self.cause, self.words, self.found, self.bound)

    def __reduce__(self) -> Any:
        return BrokenStep, (self.step, self.cause, self.words, self.found, self.bound)


def called(steps: Sequence[Step], function: Any, *given: Any) -> Any:
    """Call a function of the native module, and raise its `StepError` as a `BrokenStep`."""
    try:
        return function(*given)
    except _native.StepError as why:
        number, cause, text, found, bound = why.args
    step = steps[number]
    if isinstance(step, Slice):
        raise step.invalid(number, bound)
    if CAUSES[cause] in ("NotBool", "InvalidIndices"):
        found = bound = None
    raise BrokenStep(number, CAUSES[cause], text.split(": ", 2)[2], found, bound)


def _format_of(node: Node) -> str:
    return "dictionary" if node.dictionary is not None else node.format


def _listed(values: Any) -> Tuple[List[Any], bytes]:
    """Return values as a list, and the bytes of their validity, empty where none is null."""
    values = list(values)
    valid = bytes(value is not None for value in values)
    return values, b"" if all(valid) else _native.pack(valid)


def _copied(part: Any, start: int, end: int) -> bytes:
    """Return bytes of a buffer, as far as it goes."""
    return bytes(memoryview(part)[start:end])


def _remade(kind: Type[_Listed], parts: Tuple[Any, ...]) -> Any:
    """Return a step that was pickled, or a part of one."""
    step = kind.__new__(kind)
    step._fill(*parts)
    return step


class Slice:
    """Select the rows from `start` up to `end`, `end` excluded.

    Args:
        start: The first row.
        end: The row after the last one. Neither counts from the end if it is negative.

    >>> from vortex_select import column, select
    >>> select(column([5, 6, 7]), [Slice(1, 3)]).to_pylist()
    [6, 7]
    """

    def __init__(self, start: int, end: int):
        self.start, self.end = start, end

    def invalid(self, number: int, rows: int) -> BrokenStep:
        """Return the exception of a slice that isn't within so many rows."""
        start, end = whole(self.start), whole(self.end)
        words = f"slice {start}..{end}"
        if start < 0 or end < 0:
            found, bound, words = min(start, end), 0, f"{words} has a negative bound"
        elif end > rows:
            found, bound, words = end, rows, f"{words}, but {counted(rows, 'row')}"
        else:
            found, bound, words = start, end, f"{words} starts after its end"
        return BrokenStep(number, "BadRange", words, found, bound)

    def __repr__(self) -> str:
        return f"Slice({self.start}, {self.end})"

    def _image(self) -> Image:
        """Return the step as the library takes it.

        A bound that is negative or has more than 64 bits is past every row.
        """
        start, end = (whole(place) for place in (self.start, self.end))
        start, end = (place if 0 <= place <= PAST else PAST for place in (start, end))
        return (_SLICE, start, end, 0, 0, 0, None, None)


class _Listed:
    """A step that has a list, of Python or in memory."""

    _kind: int

    def _fill(self, values: Any, valid: Any, length: int, ptype: int = 0, offset: int = 0) -> None:
        """Set the buffers, which the step holds: bytes, or buffers of an Arrow column."""
        self._made = values, valid, length, ptype, offset

    def __len__(self) -> int:
        return self._made[2]

    def __repr__(self) -> str:
        return f"{type(self).__name__} of {len(self)}"

    def _window(self, start: int, length: int) -> Tuple[bytes, bytes, int, int, int]:
        """Return what `_fill` takes of `length` places from `start` on, in bytes of its own."""
        values, valid, _, ptype, offset = self._made
        size = _BITS[ptype] if self._kind == _TAKE else 1
        first, end = offset + start, offset + start + length
        low = first - first % 8
        kept = _copied(values, low * size // 8, (end * size + 7) // 8)
        return kept, _copied(valid, low // 8, (end + 7) // 8), length, ptype, first % 8

    def __reduce__(self) -> Any:
        return _remade, (type(self), self._window(0, len(self)))

    def _image(self) -> Image:
        values, valid, length, ptype, offset = self._made
        return (self._kind, 0, 0, ptype, offset, length, values, valid if len(valid) else None)

    def _fill_from(self, array: Array, ptype: int) -> None:
        """Fill the step from an Arrow column, whose buffers are borrowed."""
        node = array.node
        valid, values = (b"" if data is None else data for data in node.buffers[:2])
        self._fill(values, valid, node.length, ptype, node.offset)


class Filter(_Listed):
    """Select the rows whose place in the mask is true.

    Args:
        mask: A list of bools and `None`, which counts as false; a buffer of bools; `Bits`; an
            Arrow column of bools; or the name of a field of bools, if the column is of structs.

    Raises:
        TypeError: The mask is something else.

    >>> from vortex_select import column, select
    >>> select(column([5, 6, 7]), [Filter([True, False, True])]).to_pylist()
    [5, 7]
    >>> people = column([{"id": 5, "is_in": True}, None, {"id": 7, "is_in": False}])
    >>> select(people, [Filter("is_in")]).to_pylist()
    [{'id': 5, 'is_in': True}]
    """

    _kind = _FILTER
    # The name of a field, if the mask isn't known yet.
    name: Optional[str] = None

    def __init__(self, mask: Any):
        if isinstance(mask, str):
            self.name = mask
        elif hasattr(mask, "__arrow_c_array__"):
            array = borrowed(mask)
            form = _format_of(array.node)
            if form != "b":
                raise TypeError(f"mask: expected a column of bools, got format {form!r}")
            self._fill_from(array, 0)
        elif isinstance(mask, Bits):
            words, at = mask.placed()
            self._fill(words.tobytes(), b"", len(mask), 0, at)
        elif isinstance(mask, (list, tuple)):
            for value in mask:
                if type(value) not in (bool, type(None)):
                    raise TypeError(f"mask: expected bools and None, got {value!r:.80}")
            self._fill(_native.pack(bytes(value is True for value in mask)), b"", len(mask))
        else:
            bools = bools_of(mask)
            if bools is None:
                found = memoryview(mask).format
                raise TypeError(
                    f"mask: expected bools, Bits, or a column of bools, got format {found!r}"
                )
            self._fill(packed(bools).tobytes(), b"", len(bools))

    def __len__(self) -> int:
        self._need_mask()
        return super().__len__()

    def __repr__(self) -> str:
        return super().__repr__() if self.name is None else f"Filter({self.name!r})"

    def _need_mask(self) -> None:
        if self.name is not None:
            raise TypeError(
                f"expected a mask, got the name of a field, {self.name!r}: "
                "only `select` over a column of structs finds the field"
            )

    def _image(self) -> Image:
        self._need_mask()
        return super()._image()

    def __reduce__(self) -> Any:
        return super().__reduce__() if self.name is None else (Filter, (self.name,))


def filter_of_bits(bits: bytes, length: int) -> Filter:
    """Return a filter by so many bits."""
    made = Filter.__new__(Filter)
    made._fill(bits, b"", length)
    return made


class Take(_Listed):
    """Select the rows at the indices, and a null for each `None`.

    Args:
        indices: A list of ints and `None`, a buffer of native integers, or an Arrow column of
            integers. A negative index is out of bounds.

    Raises:
        TypeError: The indices are something else.

    >>> from vortex_select import column, select
    >>> select(column([5, 6, 7]), [Take([2, None, 0])]).to_pylist()
    [7, None, 5]
    """

    _kind = _TAKE

    def __init__(self, indices: Any):
        if hasattr(indices, "__arrow_c_array__"):
            self._from_column(borrowed(indices))
            return
        if is_masked(indices):
            raise TypeError("indices: expected a plain buffer, got a masked array")
        try:
            view = memoryview(indices)
        except TypeError:
            self._from_list(indices)
            return
        kind = letter_of(view)
        if view.ndim != 1 or not kind or kind not in "bBhHiIlLqQnN":
            raise TypeError(f"indices: expected native integers, got format {view.format!r}")
        ptype = _KINDS[view.itemsize][kind in "bhilqn"]
        self._fill(kept(view), b"", len(view), ptype)

    def _from_column(self, array: Array) -> None:
        form = _format_of(array.node)
        if form not in _FORMATS:
            raise TypeError(f"indices: expected a column of integers, got format {form!r}")
        self._fill_from(array, _FORMATS[form])

    def _from_list(self, indices: Any) -> None:
        values, valid = _listed(indices)
        if isinstance(indices, str):
            raise TypeError(f"indices: expected ints and None, got {indices!r:.80}")
        for value in values:
            if type(value) is bool:
                raise TypeError(f"indices: expected ints and None, got {value!r}")
        data = integers_of([0 if value is None else whole(value) for value in values])
        self._fill(data.tobytes(), valid, len(values), _KINDS[8][data.typecode == "q"])


Step = Union[Slice, Filter, Take]


def images_of(steps: Sequence[Step]) -> List[Image]:
    """Return the steps as the library takes them.

    Raises:
        TypeError: One isn't a step.
    """
    for step in steps:
        if not isinstance(step, (Slice, Filter, Take)):
            found = type(step).__name__
            raise TypeError(f"steps: expected Slice, Filter or Take, got {found}")
    return [step._image() for step in steps]
