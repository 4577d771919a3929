"""Types, rows and columns: what a column of each layout means, and what its constructor refuses.

Written from docs/DEFINITIONS.md, docs/ERRORS.md and docs/DOCUMENT.md.  A row is None (a null), a bool,
bytes (a record or a text), a list of rows (a list or a map), a tuple of rows (a struct), or a
`Variant` (an id with a row).
"""
from dataclasses import dataclass
from typing import NamedTuple

WIDTHS = {'u8': 1, 'u16': 2, 'u32': 4, 'u64': 8, 'i8': 1, 'i16': 2, 'i32': 4, 'i64': 8,
          'f16': 2, 'f32': 4, 'f64': 8}
INTEGERS = ('u8', 'u16', 'u32', 'u64', 'i8', 'i16', 'i32', 'i64')
FLOATS = ('f16', 'f32', 'f64')


class NoMeaning(Exception):
    """A document, or a part of it, has no meaning; also what a constructor refuses."""


def refuse_unless(kept, why):
    """Refuses where a rule isn't kept."""
    if not kept:
        raise NoMeaning(why)


# Kinds: a type is a kind and whether it has null rows.

@dataclass(frozen=True)
class Null:
    pass


@dataclass(frozen=True)
class Bool:
    pass


@dataclass(frozen=True)
class Primitive:
    name: str


@dataclass(frozen=True)
class Decimal:
    precision: int
    scale: int
    width: int


@dataclass(frozen=True)
class Text:
    name: str           # utf8 or binary


@dataclass(frozen=True)
class List:
    element: 'Type'


@dataclass(frozen=True)
class Fixed:
    element: 'Type'
    size: int


@dataclass(frozen=True)
class Map:
    entry: 'Struct'     # of two fields, the key and the value


@dataclass(frozen=True)
class Struct:
    names: tuple
    types: tuple


@dataclass(frozen=True)
class Union:
    ids: tuple
    names: tuple
    types: tuple


@dataclass(frozen=True)
class Extension:
    name: str
    storage: object     # a kind


@dataclass(frozen=True)
class Type:
    kind: object
    nullable: bool


NULL = Type(Null(), True)


def also_nullable(type_, nullable):
    """The same kind, nullable also where that says so."""
    return Type(type_.kind, type_.nullable or nullable)


def is_flat(type_):
    return isinstance(type_.kind, (Null, Bool, Primitive, Decimal))


def is_integer(type_):
    return isinstance(type_.kind, Primitive) and type_.kind.name in INTEGERS


def is_unsigned(type_):
    return is_integer(type_) and type_.kind.name[0] == 'u'


def bounds(name):
    """The least and the greatest number of an integer type."""
    bits = 8 * WIDTHS[name]
    return (0, 2 ** bits - 1) if name[0] == 'u' else (-2 ** (bits - 1), 2 ** (bits - 1) - 1)


def record_of(width, number):
    """The lowest bytes of a number in two's complement, the lowest first."""
    return (number % 2 ** (8 * width)).to_bytes(width, 'little')


def number(name, record):
    """The number that a record spells."""
    return int.from_bytes(record, 'little', signed=name[0] == 'i')


LEAST_WIDTH = ((2, 1), (4, 2), (9, 4), (18, 8), (38, 16), (76, 32))


def decimal_kind(precision, scale, width):
    refuse_unless(1 <= precision <= 76 and -76 <= scale <= 76, 'decimal: digits or scale')
    least = next(width for digits, width in LEAST_WIDTH if precision <= digits)
    refuse_unless(width in (1, 2, 4, 8, 16, 32) and width >= least, 'decimal: width')
    return Decimal(precision, scale, width)


# Columns: a type, the rows, and which layout stores them.

class Variant(NamedTuple):
    id: int
    row: object


class Column(NamedTuple):
    layout: str
    type: Type
    rows: object        # a list, or a `Ramp`


class Ramp:
    """The rows 0, 1, 2 and so on, each its lowest bytes: made when they are read."""

    def __init__(self, width, length):
        self.width, self.length = width, length

    def __len__(self):
        return self.length

    def __getitem__(self, i):
        if not 0 <= i < self.length:
            raise IndexError(i)
        return record_of(self.width, i)


class Validity(NamedTuple):
    """Whether the type has nulls; and a bit a row, or None where each row is there."""
    nullable: bool
    bits: object = None

    def of(self, length):
        """For each of so many rows whether it is there; refused where it can't be theirs."""
        if self.bits is not None:
            refuse_unless(len(self.bits) == length, 'a validity of another length')
        return self.bits


NON_NULLABLE = Validity(False)
ALL_VALID = Validity(True)


class NoneValid:
    """The bits of `AllInvalid`, of any number of rows."""


ALL_INVALID = Validity(True, NoneValid)


def bits_of_column(column):
    """A validity that is a column: of bools without nulls."""
    refuse_unless(column.type == Type(Bool(), False), 'a validity of another type')
    return Validity(True, list(column.rows))


def shown(rows, validity):
    """The rows, and null in place of each that isn't there."""
    if validity.bits is NoneValid:
        return [None] * len(rows)
    bits = validity.of(len(rows))
    if bits is None:
        return rows
    return [row if bit else None for row, bit in zip(rows, bits)]


def stored(layout, kind, rows, validity):
    """A column of a layout that stores its rows in their places."""
    return Column(layout, Type(kind, validity.nullable), shown(rows, validity))


def null_column(length):
    return Column('Null', NULL, [None] * length)


def are_offsets(offsets, bound):
    """There is one; none is negative, below the one before, or past the bound."""
    return (len(offsets) > 0 and offsets[0] >= 0 and offsets[-1] <= bound
            and all(low <= high for low, high in zip(offsets, offsets[1:])))


def cut_at(offsets, items):
    """What lies from each offset up to the next."""
    refuse_unless(are_offsets(offsets, len(items)), 'offsets')
    return [items[low:high] for low, high in zip(offsets, offsets[1:])]


def varbin_column(kind, offsets, data, validity):
    return stored('VarBin', kind, cut_at(offsets, data), validity)


class InView(NamedTuple):
    """A view of a text of at most twelve bytes, which stands in itself."""
    text: bytes

    def text_in(self, _buffers):
        refuse_unless(len(self.text) <= 12, 'a view of more than twelve bytes')
        return self.text


class InBuffer(NamedTuple):
    """A view of a longer text."""
    length: int
    prefix: bytes
    buffer: int
    offset: int

    def text_in(self, buffers):
        refuse_unless(self.length > 12 and self.buffer < len(buffers), 'a view of no buffer')
        text = buffers[self.buffer][self.offset:self.offset + self.length]
        refuse_unless(len(text) == self.length, 'a view past its buffer')
        refuse_unless(text[:4] == self.prefix, 'a view with another prefix')
        return text


def views_column(kind, views, buffers, validity):
    return stored('VarBinView', kind, [view.text_in(buffers) for view in views], validity)


def list_column(offsets, elements, validity):
    rows = cut_at(offsets, list(elements.rows))
    return stored('List', List(elements.type), rows, validity)


def listview_column(offsets, sizes, elements, validity):
    refuse_unless(len(offsets) == len(sizes), 'sizes of another length than offsets')
    items, rows = list(elements.rows), []
    for offset, size in zip(offsets, sizes):
        refuse_unless(offset + size <= len(items), 'a list past the elements')
        rows.append(items[offset:offset + size])
    return stored('ListView', List(elements.type), rows, validity)


def fixed_column(size, length, elements, validity):
    refuse_unless(len(elements.rows) == size * length, 'more or fewer elements')
    items = list(elements.rows)
    rows = [items[i * size:(i + 1) * size] for i in range(length)]
    return stored('FixedSizeList', Fixed(elements.type, size), rows, validity)


def map_column(entries):
    """The rows of list views of entries, as maps."""
    entry = entries.type.kind.element
    refuse_unless(isinstance(entry.kind, Struct) and not entry.nullable, 'entries are no structs')
    refuse_unless(len(entry.kind.types) == 2, 'entries are no pairs')
    refuse_unless(not entry.kind.types[0].nullable, 'a nullable key')
    return Column('Map', Type(Map(entry.kind), entries.type.nullable), entries.rows)


def struct_column(length, names, fields, validity):
    refuse_unless(len(names) == len(fields), 'another number of names than of fields')
    refuse_unless(all(len(field.rows) == length for field in fields), 'a field of another length')
    kind = Struct(tuple(names), tuple(field.type for field in fields))
    rows = list(zip(*(field.rows for field in fields))) if fields else [()] * length
    return stored('Struct', kind, rows, validity)


def union_column(type_ids, variants, children, offsets):
    """A union of ids and columns: sparse without offsets, else dense."""
    ids = [id_ for id_, _ in variants]
    refuse_unless(ids and len(set(ids)) == len(ids), 'no variants, or two of one id')
    refuse_unless(len(children) == len(ids), 'another number of columns than of variants')
    refuse_unless(type_ids.type.kind == Primitive('u8'), 'type ids of another type')
    length = len(type_ids.rows)
    if offsets is None:
        refuse_unless(all(len(child.rows) == length for child in children), 'a column too short')
        offsets = range(length)
    refuse_unless(len(offsets) == length, 'another number of offsets')
    child_of, rows = dict(zip(ids, children)), []
    for record, offset in zip(type_ids.rows, offsets):
        if record is None:
            rows.append(None)
            continue
        refuse_unless(record[0] in child_of, 'no such variant')
        candidates = child_of[record[0]].rows
        refuse_unless(0 <= offset < len(candidates), 'an offset past its variant')
        rows.append(Variant(record[0], candidates[offset]))
    kind = Union(tuple(ids), tuple(name for _, name in variants), tuple(c.type for c in children))
    return Column('Union', Type(kind, type_ids.type.nullable), rows)


def extension_column(name, storage):
    kind = Extension(name, storage.type.kind)
    return Column('Extension', Type(kind, storage.type.nullable), storage.rows)


def constant_column(type_, row, length):
    return Column('Constant', type_, [row] * length)


def numbers_of(column):
    """The numbers of a column of integer type; None at a null, which has no payload."""
    name = column.type.kind.name
    return [None if row is None else number(name, row) for row in column.rows]


def dict_column(codes, values):
    """For each code the value that it names, and null for a null code."""
    refuse_unless(is_integer(codes.type), 'codes of another type')
    rows = []
    for code in numbers_of(codes):
        refuse_unless(code is None or 0 <= code < len(values.rows), 'a code past the values')
        rows.append(None if code is None else values.rows[code])
    return Column('Dict', also_nullable(values.type, codes.type.nullable), rows)


class Mask(NamedTuple):
    """How many rows there are, and which of them are selected, ascending."""
    length: int
    selected: object


def filter_column(child, mask):
    refuse_unless(mask.length == len(child.rows), 'a mask of another length')
    return Column('Filter', child.type, [child.rows[i] for i in mask.selected])
