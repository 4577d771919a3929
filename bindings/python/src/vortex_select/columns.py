"""Selection over columns in Arrow's memory: `select`, and columns."""

from __future__ import annotations

import html
from array import array as numbers_of
from typing import TYPE_CHECKING, Any, Dict, Iterable, Iterator, List, Optional, Sequence, Tuple
from typing import Union, cast

from . import _native, _numpy
from ._arrays import (
    Array,
    Field,
    Plain,
    Tree,
    array_of,
    array_over,
    borrowed,
    field_of,
    field_of_type,
)
from ._buffers import Bits, view_of, whole
from ._building import built, guessed, lengths_of
from ._joining import joined
from ._named import filter_by_field, with_field
from ._reading import rows
from ._steps import Filter, Slice, Step, Take, called, images_of
from ._types import Type, spelled, type_of

if TYPE_CHECKING:
    from _typeshed import ReadableBuffer as Buffer


class Column:
    """Rows of one type in Arrow's memory: one array, or several arrays end to end.

    `column`, `from_buffers`, `select` and `read_column` make columns.

    >>> names = column(["ann", None, "bo", "cy"])
    >>> len(names), names[0], names[-1]
    (4, 'ann', 'cy')
    >>> names[1:3]
    Column(utf8, 2 rows: None, 'bo')
    >>> names.take([2, 0]).to_pylist()
    ['bo', 'ann']
    """

    __slots__ = ("_chunks", "__weakref__")
    __hash__ = None  # type: ignore[assignment]
    _chunks: List[Array]

    def __init__(self) -> None:
        raise TypeError("Column: use column, from_buffers, select or read_column")

    def __len__(self) -> int:
        return sum(map(len, self._chunks))

    def __iter__(self) -> Iterator[Any]:
        """Return the rows as values of Python, as `to_pylist` does."""
        for chunk in self._chunks:
            tree = Tree(chunk.node)
            for at in range(0, tree.length, _ROWS_AT_ONCE):
                yield from rows(tree, at, min(_ROWS_AT_ONCE, tree.length - at))

    def __getitem__(self, key: Union[int, slice, str]) -> Any:
        """Return the value of a row, the column of a slice of rows, or a field of a struct.

        A slice of step 1 shares the column's memory, as the method `slice` does.

        Args:
            key: The number of a row, negative from the end; a slice; or the name of a field.

        Raises:
            IndexError: There is no such row.
            KeyError: There is no such field.
            ValueError: The row leads outside of the column's memory.

        >>> people = column([{"id": 5}, None, {"id": 7}])
        >>> people[0], people["id"][-1], people[::2].to_pylist()
        ({'id': 5}, 7, [{'id': 5}, {'id': 7}])
        """
        if isinstance(key, str):
            return self.field(key)
        if isinstance(key, slice):
            start, end, step = key.indices(len(self))
            if step == 1:
                return self.slice(start, max(start, end))
            return self.take(numbers_of("q", range(start, end, step)))
        return self._row(whole(key))

    def _row(self, k: int) -> Any:
        count = len(self)
        at = k + count if k < 0 else k
        if not 0 <= at < count:
            raise IndexError(f"row: expected {-count} to {count - 1}, got {k}")
        for chunk in self._chunks:
            if at < len(chunk):
                break
            at -= len(chunk)
        return rows(Tree(chunk.node), at, 1)[0]

    def __eq__(self, other: object) -> Any:
        """Return whether the other object is a column of the same type and equal rows.

        >>> column([1, None]) == column([1, None]), column([1]) == column([1], "int8")
        (True, False)
        """
        if not isinstance(other, Column):
            return NotImplemented
        if self.type != other.type or len(self) != len(other):
            return False
        return all(one == two for one, two in zip(self, other))

    def _head(self) -> List[str]:
        """Return the first rows as text, or no row if one leads outside of the column's memory."""
        found: List[str] = []
        try:
            for chunk in self._chunks:
                count = min(len(chunk), _ROWS_SHOWN - len(found))
                found += map(repr, rows(Tree(chunk.node), 0, count))
        except ValueError:
            return []
        return found

    def __repr__(self) -> str:
        shown = self._head()
        more = ["..."] if shown and len(self) > len(shown) else []
        text = ", ".join(shown + more)
        return f"Column({self.type}, {len(self)} rows{': ' if text else ''}{text})"

    def _repr_html_(self) -> str:
        cells = [
            f"<tr><td>{k}</td><td>{html.escape(row)}</td></tr>"
            for k, row in enumerate(self._head())
        ]
        head = f"<tr><th></th><th>{html.escape(self.type)}</th></tr>"
        return f"<table>{head}{''.join(cells)}</table><p>{len(self)} rows</p>"

    @property
    def type(self) -> str:
        """The type of the rows, as `column` takes it.

        >>> column([[1], []]).type
        'list<int64>'
        """
        return spelled(self._field().type())

    def to_pylist(self) -> List[Any]:
        """Return the rows as values of Python.

        Numbers (dates and times too), strings, bytes, lists, dicts for structs, lists of pairs for
        maps, for unions the value of the row's child, and `None` for nulls. Of several children
        of a struct with one name, a dict has the last.

        Raises:
            ValueError: A row leads outside of the column's memory.

        >>> column([{"id": 5}, None]).to_pylist()
        [{'id': 5}, None]
        """
        trees = [Tree(chunk.node) for chunk in self._chunks]
        return [row for tree in trees for row in rows(tree, 0, tree.length)]

    def select(self, steps: Sequence[Step]) -> Column:
        """Return the rows that the steps select, as the function `select` does.

        Args:
            steps: Slices, filters and takes.

        Raises:
            BrokenStep: A step is invalid.

        >>> column([5, 6, 7]).select([Slice(1, 3), Take([1, 0])]).to_pylist()
        [7, 6]
        """
        return select(self, steps)

    def filter(self, mask: Any) -> Column:
        """Return the rows whose place in a mask is true.

        Args:
            mask: What `Filter` takes.

        Raises:
            BrokenStep: The mask isn't as long as the column.
            TypeError: The mask is something else.

        >>> column([1, 2, 3]).filter([True, False, True]).to_pylist()
        [1, 3]
        """
        return select(self, [Filter(mask)])

    def take(self, indices: Any) -> Column:
        """Return the rows at the indices, and a null for each `None`.

        Args:
            indices: What `Take` takes.

        Raises:
            BrokenStep: An index is out of bounds.
            TypeError: The indices are something else.

        >>> column([5, 6, 7]).take([2, None]).to_pylist()
        [7, None]
        """
        return select(self, [Take(indices)])

    def slice(self, start: int, end: int) -> Column:
        """Return the rows from `start` up to `end`, `end` excluded, without a copy.

        The slice keeps the memory of the column. The time doesn't depend on the number of rows, and
        no row is tested. `select` with a `Slice` copies the rows.

        Args:
            start: The first row.
            end: The row after the last one.

        Raises:
            BrokenStep: The slice isn't within the rows.
            ValueError: The column isn't valid: a struct of another producer, or strings that would
                lead past their bytes.

        >>> column([5, 6, 7]).slice(1, 3).to_pylist()
        [6, 7]
        """
        start, end, count = whole(start), whole(end), len(self)
        if not 0 <= start <= end <= count:
            raise Slice(start, end).invalid(0, count)
        found: List[Array] = []
        for chunk in self._chunks:
            first, last = max(start, 0), min(end, len(chunk))
            if first < last:
                found.append(chunk.slice(first, last))
            start, end = start - len(chunk), end - len(chunk)
        return column_over(found or [self._chunks[0].slice(0, 0)])

    @property
    def children(self) -> List[Column]:
        """The children: fields of a struct, items of a list, entries of a map, and so on.

        Fields have the rows of the struct, also where the struct is null. Items are those of all
        lists, as Arrow stores them.

        >>> [child.to_pylist() for child in column([[1], [2, 3]]).children]
        [[1, 2, 3]]
        """
        parts = [chunk.split() for chunk in self._chunks]
        return [column_over(child) for child in zip(*parts)]

    @property
    def names(self) -> List[str]:
        """The names of the children.

        >>> column([{"id": 5, "tags": []}]).names
        ['id', 'tags']
        """
        return [child.name for child in self._chunks[0].node.children]

    def field(self, key: Union[int, str]) -> Column:
        """Return a child.

        Args:
            key: The name of the child, or its number, negative from the end.

        Raises:
            KeyError: No child has the name.
            IndexError: There is no such child.

        >>> column([{"id": 5, "tags": ["a"]}]).field("tags").to_pylist()
        [['a']]
        """
        names = self.names
        if isinstance(key, str):
            if key not in names:
                raise KeyError(f"expected one of {names}, got {key!r}")
            key = names.index(key)
        if not -len(names) <= whole(key) < len(names):
            raise IndexError(f"child: expected {-len(names)} to {len(names) - 1}, got {key}")
        return self.children[key]

    @property
    def null_count(self) -> int:
        """How many rows are null. Rows of unions never are.

        >>> column([1, None, None]).null_count
        2
        """
        return sum(_numpy.null_count(chunk.node) for chunk in self._chunks)

    @property
    def nbytes(self) -> int:
        """How many bytes the buffers have, with those of children and dictionaries.

        >>> column([1, 2], "int16").nbytes
        4
        """
        return sum(_numpy.bytes_of(chunk.node) for chunk in self._chunks)

    def to_numpy(self) -> Any:
        """Return the rows as an array of numpy.

        Numbers without nulls are shared with the column, if it is one array, and read-only. Nulls
        give a masked array. Strings, decimals, lists and structs are objects.

        Returns:
            An array of one dimension.

        Raises:
            ImportError: The package numpy isn't installed.
        """
        return _numpy.to_numpy(self._chunks, self)

    def __array__(self, dtype: Any = None, copy: Optional[bool] = None) -> Any:
        """Return the rows for `numpy.asarray`.

        Args:
            dtype: The type of the result.
            copy: Whether the values are always copied.

        Raises:
            ValueError: A number is null. `to_numpy` returns a masked array.
        """
        found = self.to_numpy()
        if self.null_count and found.dtype != object:
            raise ValueError(f"expected no nulls, got {self.null_count}: use to_numpy")
        return found.astype(dtype or found.dtype, copy=bool(copy))

    @staticmethod
    def from_pandas(series: Any) -> Column:
        """Return a column of the values of a Series.

        Args:
            series: A `pandas.Series`. What pandas takes as missing becomes null.

        Raises:
            TypeError: The values have no type of Arrow.
        """
        numpy = _numpy.module("numpy")
        found, null = series.to_numpy(), series.isna().to_numpy()
        if found.dtype != object:
            return column(numpy.ma.MaskedArray(found, null))
        return column([None if is_null else row for row, is_null in zip(found, null)])

    def to_pandas(self) -> Any:
        """Return the rows as a Series of pandas, of objects if a row is null.

        Raises:
            ImportError: The package pandas isn't installed.
        """
        pandas = _numpy.module("pandas")
        is_plain = not self.null_count
        rows = self.to_numpy() if is_plain else self.to_pylist()
        return pandas.Series(rows, dtype=None if is_plain else object)

    def _field(self) -> Field:
        return field_of(self._chunks[0].node)

    def _single(self) -> Array:
        """Return the only array.

        Raises:
            ValueError: There are several.
        """
        if len(self._chunks) > 1:
            found = len(self._chunks)
            raise ValueError(f"expected a column of one array, got {found}: use __arrow_c_stream__")
        return self._chunks[0]

    def __reduce__(self) -> Any:
        field = self._field()
        return _unpickled, (field, joined(field, self._chunks))

    def __arrow_c_schema__(self) -> Any:
        return self._chunks[0].schema_capsule()

    def __arrow_c_array__(self, requested_schema: Any = None) -> Tuple[Any, Any]:
        return self._single().capsules()

    def __arrow_c_stream__(self, requested_schema: Any = None) -> Any:
        return _native.stream_capsule(self._chunks[0], self._chunks)


# How many rows are read at once, and how many are shown.
_ROWS_AT_ONCE = 1024
_ROWS_SHOWN = 10


def column_over(chunks: Sequence[Array]) -> Column:
    """Return the column of one or more arrays of one type."""
    made = Column.__new__(Column)
    made._chunks = list(chunks)
    return made


def _unpickled(field: Field, plain: Plain) -> Column:
    return column_over([array_of(field, plain)])


def _of_batches(found: Tuple[Array, List[Array]]) -> Column:
    """Return the column of a stream, given an array without rows and the batches."""
    empty, batches = found
    return column_over(batches or [empty])


def select(column: Any, steps: Sequence[Step] = ()) -> Column:
    """Return the rows that the steps select of a column.

    Args:
        column: Any object with `__arrow_c_array__` or `__arrow_c_stream__`. The steps apply to all
            rows of a stream, end to end.
        steps: Slices, filters and takes. Each applies to the rows that those before it select.

    Returns:
        A column of the same type. It shares dictionaries and the data buffers of views.

    Raises:
        BrokenStep: A step is invalid. The exception has the step's number and the cause.
        ValueError: The column is invalid at a selected row. The exception names the buffer.
        OverflowError: Offsets of 32 bits would pass 2^31 - 1.
        TypeError: The column has neither method, or a step isn't a step.
        KeyError: No field has the name of a filter.

    >>> from vortex_select import Filter, Take, column
    >>> people = column([{"id": 5, "tags": ["a"]}, None, {"id": 7, "tags": []}])
    >>> select(people, [Filter([True, False, True]), Take([1, None, 0])]).to_pylist()
    [{'id': 7, 'tags': []}, None, {'id': 5, 'tags': ['a']}]
    """
    steps = list(steps)
    for k, step in enumerate(steps):
        if isinstance(step, Filter) and step.name is not None:
            return _select_by_field(_held(column), steps, k)
    images = images_of(steps)
    if isinstance(column, Column) and len(column._chunks) > 1:
        chunks = column._chunks
        return _of_batches(called(steps, _native.select_chunks, chunks[0], chunks, images))
    if hasattr(column, "__arrow_c_array__"):
        return column_over([called(steps, _native.select, borrowed(column), images)])
    if hasattr(column, "__arrow_c_stream__"):
        capsule = column.__arrow_c_stream__()
        return _of_batches(called(steps, _native.select_stream, capsule, images))
    raise _not_arrow(column)


def _not_arrow(column: Any) -> TypeError:
    found = type(column).__name__
    return TypeError(
        f"expected an object with __arrow_c_array__ or __arrow_c_stream__, got {found}"
    )


def _held(column: Any) -> Column:
    """Return the column of an object, of which a stream is read."""
    if isinstance(column, Column):
        return column
    if hasattr(column, "__arrow_c_array__"):
        return column_over([borrowed(column)])
    if hasattr(column, "__arrow_c_stream__"):
        return _of_batches(_native.read_stream(column.__arrow_c_stream__()))
    raise _not_arrow(column)


def _select_by_field(column: Column, steps: List[Step], number: int) -> Column:
    """Return the rows that steps select, of which the first filter by a field has this number."""
    name = cast(str, cast(Filter, steps[number]).name)
    field = column_over([with_field(chunk, name) for chunk in column._chunks])
    mask = filter_by_field(select(field, steps[:number])._chunks)
    return select(column, [*steps[:number], mask, *steps[number + 1 :]])


def check(column: Any) -> None:
    """Test every row of a column: offsets, views, type ids, codes, map entries and null counts.

    `select` tests the selected rows alone. The lengths of another producer's buffers can't be
    tested: the Arrow interface doesn't have them.

    Args:
        column: A `Column`, or any object with `__arrow_c_array__`.

    Raises:
        ValueError: The column is invalid. The exception names the buffer.

    >>> from vortex_select import column
    >>> check(column(["a", None]))
    """
    chunks = column._chunks if isinstance(column, Column) else [borrowed(column)]
    for chunk in chunks:
        chunk.check()


def column(values: Iterable[Any], type: Optional[str] = None) -> Column:
    """Return a column of the values.

    Args:
        values: Numbers, strings, bytes, lists, dicts, and `None` for nulls; or an array of numpy,
            of which numbers, bools and times are copied at once.
        type: The type, such as `list<utf8>`. By default it is that of the first value that isn't
            `None`. Union values go to the first child type that accepts them.

    Raises:
        OverflowError: A number is too large for the type. The exception has the row and the type.
        TypeError: A value is of another kind than the type, or there is no type for it.
        ValueError: A value doesn't fit the type for another reason, or the type isn't known.

    >>> column(["a", None], type="utf8").to_pylist()
    ['a', None]
    >>> column([[1], []]).type
    'list<int64>'
    >>> column([5, 300], type="int8")
    Traceback (most recent call last):
    OverflowError: row 1: expected int8 from -128 to 127, got 300
    """
    if _numpy.is_array(values) and type is None:
        parts = _numpy.buffers_of(values)
        if parts is not None:
            return from_buffers(*parts, trusted=True)
    given: List[Any] = cast(Any, values).tolist() if _numpy.is_array(values) else list(values)
    of = guessed(given) if type is None else type_of(type)
    return column_over([built(field_of_type(of), given)])


def _child_of(expected: Type, child: Any, what: str) -> Array:
    """Return the array of a child, which must be a column of the type that is expected."""
    if not isinstance(child, Column):
        found = child.__class__.__name__
        raise TypeError(f"{what}: expected a Column, got {found}")
    array = Column._single(child)
    found = spelled(field_of(array.node).type())
    if found != str(expected):
        raise ValueError(f"{what}: expected type {expected}, got {found}")
    return array


def _described(array: Array, field: Field) -> Array:
    """Return an array with the name and the flags of a field."""
    return array.described(field.name, field.flags)


def _with_fields(entries: Array, field: Field) -> Array:
    """Return the entries of a map, with a key and a value of the fields that the map has."""
    node = entries.node
    valid = node.buffers[0]
    bits = None if valid is None else Bits(valid, node.length, node.offset).words()
    children = list(map(_described, entries.split(), field.children))
    return array_over(field, (node.length, 0 if bits is None else -1, 0), [bits], children)


def _children_of(of: Type, field: Field, children: List[Any]) -> List[Array]:
    """Return the arrays of the children, with the names and flags of the type."""
    expected = of.children
    if len(children) != len(expected):
        raise ValueError(f"type {of}: expected {len(expected)} children, got {len(children)}")
    arrays = [
        _child_of(child, given, f"child {name!r}")
        for (name, child), given in zip(expected, children)
    ]
    arrays = list(map(_described, arrays, field.children))
    if of.format == "+m":
        arrays = [_with_fields(arrays[0], field.children[0])]
    return arrays


def _null_count(form: str, length: int, views: List[Optional[memoryview]]) -> int:
    """Return how many rows are null, or -1 if that isn't known."""
    if form == "n":
        return length
    has_validity = form[:2] != "+u" and bool(views) and views[0] is not None
    return -1 if has_validity else 0


# The buffers that say where rows are, by the format.
_PLACES: Dict[str, Tuple[int, ...]] = {
    **{form: (1,) for form in ("u", "U", "z", "Z", "+l", "+L", "+m", "vu", "vz")},
    **{form: (1, 2) for form in ("+vl", "+vL")},
}


def _fixed(view: memoryview) -> memoryview:
    """Return the same bytes in memory that nobody can write to."""
    is_fixed = view.readonly and type(view.obj) in (bytes, _native.Buffer)
    return view if is_fixed else memoryview(view.tobytes())


def _with_fixed_places(form: str, views: List[Optional[memoryview]]) -> None:
    """Copy the offsets, sizes, views and type ids that are in memory that may be written to."""
    places = _PLACES.get(form, (0, 1) if form[:2] == "+u" else ())
    for k in places:
        view = views[k] if k < len(views) else None
        if view is not None:
            views[k] = _fixed(view)


def from_buffers(
    type: str,
    length: int,
    buffers: Sequence[Optional[Buffer]],
    children: Sequence[Column] = (),
    dictionary: Optional[Column] = None,
    offset: int = 0,
    trusted: bool = False,
) -> Column:
    """Return a column over memory as it is, without a copy.

    Don't modify the buffers while the column, or anything exported from it, is alive. Offsets,
    sizes, views and type ids in memory that can be written are copied, so that no change of them
    leads outside of the other buffers.

    Args:
        type: The type, as `column` takes it.
        length: The number of rows.
        buffers: Those of the Arrow format, in its order. For view types, the list of the lengths
            of their data buffers is added.
        children: The child columns, which keep their memory too.
        dictionary: The values of a dictionary type.
        offset: The first row in the buffers.
        trusted: Whether `check`, which reads every row, is skipped. The lengths of buffers are
            tested anyway.

    Raises:
        ValueError: A buffer is missing or too short, or the column isn't valid.
        TypeError: A buffer has no bytes, or a child isn't a column.

    >>> from array import array
    >>> from_buffers("int32", 2, [None, array("i", [1, 2, 3])], offset=1).to_pylist()
    [2, 3]
    """
    of, length, offset = type_of(type), whole(length), whole(offset)
    if not (0 <= length < 2**60 and 0 <= offset < 2**60):
        raise ValueError(f"expected a length and an offset from 0 on, got {length} and {offset}")
    views = [None if data is None else view_of(data, "buffer") for data in list(buffers)]
    _with_fixed_places(of.format, views)
    field = field_of_type(of)
    arrays = _children_of(of, field, list(children))
    if (of.dictionary is None) != (dictionary is None):
        expected, got = ("none", "one") if of.dictionary is None else ("one", "none")
        raise ValueError(f"dictionary: expected {expected} for type {of}, got {got}")
    inner = None if of.dictionary is None else _child_of(of.dictionary, dictionary, "dictionary")
    if of.format in ("vu", "vz"):
        views.append(memoryview(lengths_of(b"" if data is None else data for data in views[2:])))
    numbers = length, _null_count(of.format, length, views), offset
    array = array_over(field, numbers, views, arrays, inner)
    if not trusted:
        array.check()
    return column_over([array])
