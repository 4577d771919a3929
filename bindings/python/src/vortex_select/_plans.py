"""Steps over a column in parts: what each part does, and how the parts' rows are put together."""

from __future__ import annotations

from array import array as numbers_of
from typing import Any, Callable, List, Optional, Sequence, Tuple, Union

from . import _cuts as cuts
from . import _native
from ._arrays import Field
from ._buffers import whole_words
from ._joining import concatenated, difference, interleaved, is_carried
from ._sources import Source, source_of
from ._steps import BrokenStep, Filter, Slice, Take, called, counted, images_of
from .columns import Column, column_over, select
from .kernels import positions


class FilterEach:
    """Select rows by masks that the parts hold themselves.

    Args:
        kept: For each part, how many of its rows the mask keeps. Rows that earlier steps drop
            don't count.
        mask: A function that is called where the part is, with a column of the rows that earlier
            steps select of it. It returns what `Filter` takes.

    >>> even = FilterEach([1, 1], lambda rows: [row % 2 == 0 for row in rows])
    >>> asked = plan([2, 1], [even])
    >>> [asked.len_of(k) for k in range(2)]
    [1, 1]
    """

    def __init__(self, kept: Sequence[int], mask: Callable[[Column], Any]):
        self.kept, self.mask = kept, mask


class HeldFilter:
    """The step of a part for a `FilterEach`: a filter of `rows` rows by the part's own mask."""

    def __init__(self, mask: Callable[[Column], Any], kept: int, rows: int):
        self.mask, self.kept, self.rows = mask, kept, rows

    def after(self, column: Column) -> Column:
        """Return the rows that the mask keeps.

        Raises:
            ValueError: The mask keeps another number of rows than `kept` says.
        """
        kept = select(column, [Filter(self.mask(column))])
        if len(kept) != self.kept:
            raise ValueError(f"mask: expected one that keeps {self.kept} rows, got {len(kept)}")
        return kept


Step = Union[Slice, Filter, Take, FilterEach]
Place = Optional[Tuple[int, int]]


class Plan:
    """The steps of each part, and the order of the rows that the parts return.

    `plan` makes plans.
    """

    def __init__(
        self, steps: List[List[Any]], lengths: Sequence[int], order: Optional[_Order] = None
    ):
        self._steps, self._lengths, self._order = steps, lengths, order

    def __len__(self) -> int:
        """Return the number of parts."""
        return len(self._lengths)

    def steps_of(self, k: int) -> List[Any]:
        """Return the steps of part `k`, for `select`: slices, filters, and at most one take."""
        return list(self._steps[k])

    def len_of(self, k: int) -> int:
        """Return how many rows part `k` returns."""
        return self._lengths[k]

    def is_verified_by(self, k: int) -> bool:
        """Return whether part `k` has a mask of its own, whose count it alone can verify."""
        return any(isinstance(step, HeldFilter) and step.rows for step in self._steps[k])

    @property
    def order(self) -> Optional[List[Place]]:
        """The part and the part's row of each row of the result, or `None` for a null.

        It is `None` if the parts' rows stand in the order of the parts.
        """
        if self._order is None:
            return None
        parts, rows = self._order.parts, self._order.rows
        return [None if part == cuts.NULL else (part, row) for part, row in zip(parts, rows)]


class _Order:
    """The part and the row of each row of a result, and bits that are clear at nulls."""

    def __init__(
        self, parts: Sequence[int], rows: Sequence[int], ends: Sequence[int], valid: bytes
    ):
        self.parts, self.rows, self.ends, self.valid = parts, rows, ends, valid

    def is_whole(self, field: Field, found: List[Tuple[int, Source]]) -> bool:
        """Return whether the library puts the rows in order: none is null, and each part returned
        one array.
        """
        if self.valid or any(len(source.arrays) != 1 for _, source in found):
            return False
        return is_carried(field, [source.arrays[0] for _, source in found])

    def take(self) -> Take:
        """Return the step that orders the rows of the parts, which are end to end."""
        first = numbers_of("Q", [0])
        first.extend(self.ends)
        if self.valid:
            pairs = zip(self.parts, self.rows)
            places = [0 if part == cuts.NULL else first[part] + row for part, row in pairs]
        else:
            places = [first[part] + row for part, row in zip(self.parts, self.rows)]
        step = Take.__new__(Take)
        step._fill(numbers_of("Q", places).tobytes(), self.valid, len(places), 3)
        return step


def _bad_mask(step: int, found: int, rows: int) -> BrokenStep:
    words = f"mask of length {found}, but {counted(rows, 'row')}"
    return BrokenStep(step, "BadMask", words, found, rows)


# The step of each part, and how many rows each keeps.
_Cut = Tuple[List[Any], "numbers_of[int]"]


def _mask_of(step: Filter) -> Tuple[Any, int]:
    """Return the words of a filter's mask, and the bit at which it begins there."""
    values, valid, length, _, at = step._window(0, len(step))
    if valid:
        both = int.from_bytes(values, "little") & int.from_bytes(valid, "little")
        values = both.to_bytes(len(values), "little")
    return whole_words(values), at


def _remade_filter(step: Filter, start: int, length: int) -> Filter:
    """Return a filter by a part of a mask."""
    part = Filter.__new__(Filter)
    part._fill(*step._window(start, length))
    return part


def _cut_slice(number: int, step: Slice, lengths: numbers_of[int]) -> _Cut:
    """Return each part's own slice, and how many rows each keeps."""
    _, start, end, *_ = step._image()
    cut = cuts.slice_cut(lengths, start, end)
    if cut is None:
        raise step.invalid(number, sum(lengths))
    starts, ends, left = cut
    return [Slice(*rows) for rows in zip(starts, ends)], left


def _cut_filter(number: int, step: Filter, lengths: numbers_of[int]) -> _Cut:
    """Return each part's own filter, and how many rows each keeps."""
    if len(step) != sum(lengths):
        raise _bad_mask(number, len(step), sum(lengths))
    words, at = _mask_of(step)
    firsts = cuts.bounds_of(lengths)
    own = [_remade_filter(step, first, length) for first, length in zip(firsts, lengths)]
    return own, cuts.mask_cut(words, at, lengths)


def _cut_each(number: int, step: FilterEach, lengths: numbers_of[int]) -> _Cut:
    """Return the filter of each part by its own mask, and how many rows each keeps."""
    kept = numbers_of("Q", step.kept)
    if len(kept) != len(lengths):
        words = f"{counted(len(kept), 'count')}, but {counted(len(lengths), 'part')}"
        raise BrokenStep(number, "BadMask", words, len(kept), len(lengths))
    for part, (count, rows) in enumerate(zip(kept, lengths)):
        if count > rows:
            words = f"part {part} keeps {count}, but has {counted(rows, 'row')}"
            raise BrokenStep(number, "BadMask", words, count, rows)
    return [HeldFilter(step.mask, *pair) for pair in zip(kept, lengths)], kept


_CUTS: Any = {Slice: _cut_slice, Filter: _cut_filter, FilterEach: _cut_each}


def _composed(number: int, rows: int, steps: Sequence[Any]) -> Tuple[numbers_of[int], bytes]:
    """Return the rows that steps select, and bits that are clear at nulls.

    The bits are empty if no take may leave a null.

    Args:
        number: The number of the first of the steps.
        rows: How many rows there are.
        steps: The steps, of which the first is a take.
    """
    try:
        data, valid = called(steps, _native.compose, rows, images_of(steps))
    except BrokenStep as why:
        raise why.moved(number) from None
    places = numbers_of("Q")
    places.frombytes(data)
    return places, valid


def _mark_nulls(places: numbers_of[int], valid: bytes) -> None:
    """Write `NULL` where a bit is clear."""
    if not valid:
        return
    rows = len(places)
    clear = ~int.from_bytes(valid, "little") & ((1 << rows) - 1)
    for row in positions(clear.to_bytes((rows + 7) // 8, "little"), rows):
        places[row] = cuts.NULL


def _picks(each: List[List[Any]], left: numbers_of[int], number: int, steps: Sequence[Any]) -> Plan:
    """Return the plan whose steps from a take on are composed to one take of each part.

    Args:
        each: The steps of each part before it.
        left: How many rows these leave of each part.
        number: The number of the take.
        steps: The take, and the steps after it.
    """
    places, valid = _composed(number, sum(left), steps)
    _mark_nulls(places, valid)
    own, ends, parts, rows = cuts.picks_cut(places, cuts.bounds_of(left))
    start = 0
    for asked, end in zip(each, ends):
        asked.append(Take(own[start:end]))
        start = end
    counts = numbers_of("Q", [len(asked[-1]) for asked in each])
    return Plan(each, counts, _Order(parts, rows, ends, valid))


def plan(lengths: Sequence[int], steps: Sequence[Step] = ()) -> Plan:
    """Return what each part of a column does, so that the parts' rows make the rows of `select`.

    No row is read. A part whose `Plan.len_of` is 0 needn't be asked, unless its own masks are to be
    verified (`Plan.is_verified_by`).

    Args:
        lengths: The number of rows of each part. The numbers are believed.
        steps: The steps over the whole column.

    Raises:
        BrokenStep: A step is invalid. The exception has its number among the steps.
        ValueError: A `FilterEach` follows a take.
        OverflowError: The parts have more rows than 64 bits count, or a length is negative.

    >>> asked = plan([3, 0, 2], [Slice(1, 5), Take([3, None, 0])])
    >>> asked.order
    [(2, 0), None, (0, 0)]
    >>> [asked.len_of(k) for k in range(len(asked))]
    [1, 0, 1]
    """
    steps, left = list(steps), numbers_of("Q", lengths)
    for step in steps:
        if not isinstance(step, (Slice, Filter, Take, FilterEach)):
            found = type(step).__name__
            raise TypeError(f"steps: expected Slice, Filter, Take or FilterEach, got {found}")
    cuts.bounds_of(left)
    each: List[List[Any]] = [[] for _ in left]
    for number, step in enumerate(steps):
        if isinstance(step, Take):
            if any(isinstance(late, FilterEach) for late in steps[number:]):
                raise ValueError("expected a Filter after a Take, got a FilterEach")
            return _picks(each, left, number, steps[number:])
        own, left = _CUTS[type(step)](number, step, left)
        for asked, one in zip(each, own):
            asked.append(one)
    return Plan(each, left)


def _answered(asked: Plan, answers: Sequence[Any]) -> List[Tuple[int, Source]]:
    """Return the rows of the parts that returned a column, each with the part's number."""
    if len(answers) != len(asked):
        raise ValueError(f"expected a column of each of {len(asked)} parts, got {len(answers)}")
    found = []
    for k, answer in enumerate(answers):
        if answer is None and not asked.len_of(k):
            continue
        try:
            source = source_of(answer)
        except TypeError as why:
            raise TypeError(f"part {k}: {why}") from None
        if len(source) != asked.len_of(k):
            raise ValueError(f"part {k}: expected {asked.len_of(k)} rows, got {len(source)}")
        found.append((k, source))
    if not found:
        raise ValueError("expected a column of at least one part, got None of each")
    return found


def _whole(plan: Plan, field: Field, found: List[Tuple[int, Source]]) -> Column:
    """Return the rows of the parts in the order of a plan."""
    order = plan._order
    if order is not None and order.is_whole(field, found):
        some = {k: source.arrays[0] for k, source in found if len(source)}
        other = found[0][1].arrays[0]
        arrays = [some.get(k, next(iter(some.values()), other)) for k in range(len(plan))]
        return column_over([interleaved(field, arrays, order.parts, order.rows)])
    whole = column_over([concatenated(field, [one for _, each in found for one in each.arrays])])
    return whole if order is None else select(whole, [order.take()])


def put_together(plan: Plan, answers: Sequence[Any]) -> Column:
    """Return the result of the steps, given the rows that the parts returned.

    Args:
        plan: The plan of the steps.
        answers: A column of each part, or any object with `__arrow_c_array__`. It may be `None` if
            the part returns no row.

    Raises:
        ValueError: A part returned other than the planned number of rows, or another type than the
            first part, or another dictionary. The message has the part's number. Or the column is
            of a format that isn't known, such as run-end encoding.
        TypeError: An answer is not a column.

    >>> from vortex_select import column
    >>> asked = plan([2, 1], [Take([2, 0])])
    >>> parts = [column([5, 6]), column([7])]
    >>> answers = [select(part, asked.steps_of(k)) for k, part in enumerate(parts)]
    >>> put_together(asked, answers).to_pylist()
    [7, 5]
    """
    found = _answered(plan, list(answers))
    first, source = found[0]
    for k, other in found[1:]:
        said = difference(other.field, source.field)
        if said:
            raise ValueError(f"part {k}: expected {said[1]}, as part {first} has, got {said[0]}")
    return _whole(plan, source.field, found)
