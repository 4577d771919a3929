"""What a JSON value means as a document: columns, masks, steps and policies.

Written from docs/DOCUMENT.md.  Whatever isn't allowed there
raises `NoMeaning`.
"""
import re
from typing import NamedTuple

import blocks
import model
import steps
from model import NoMeaning, refuse_unless

MOST_ROWS = 16_777_216
MOST_U = 2 ** 64 - 1
HEX = re.compile(r'(?:[0-9a-fA-F]{2})*')
BITS = re.compile(r'[01]*')


class Document(NamedTuple):
    """A column, chunks or a file; the steps; how few values of a chunk are asked for by number."""
    source: object
    steps: list
    policy: dict


class Chunks(NamedTuple):
    """Rows behind a decoder: their column, and the number of the first one's value."""
    column: model.Column
    offset: int


# Parts of any form.

def members(value, needed, optional=()):
    """The members of an object that has these and no others."""
    refuse_unless(type(value) is dict, 'no object')
    refuse_unless(set(needed) <= set(value), 'a member is missing')
    refuse_unless(set(value) <= set(needed) | set(optional), 'a member too many')
    return value


def whole(value, least, most):
    refuse_unless(type(value) is int and least <= value <= most, 'no such number')
    return value


def count(value):
    return whole(value, 0, MOST_ROWS)


def text(value):
    refuse_unless(type(value) is str, 'no text')
    return value


def one_of(value, words):
    refuse_unless(type(value) is str and value in words, 'no such word')
    return value


def items(value):
    refuse_unless(type(value) is list, 'no list')
    return value


def hexadecimal(value, width=None):
    """The bytes of hexadecimal digits, two a byte; so many bytes where a width is given."""
    refuse_unless(HEX.fullmatch(text(value)), 'no hexadecimal digits')
    data = bytes.fromhex(value)
    refuse_unless(width is None or len(data) == width, 'another number of digits')
    return data


def bits(value):
    """The bits of a text of 0 and 1."""
    refuse_unless(BITS.fullmatch(text(value)), 'no bits')
    return [bit == '1' for bit in value]


def numbers(value, type_name):
    """Numbers in the range of an integer type."""
    return [whole(item, *model.bounds(type_name)) for item in items(value)]


def offsets_in(value, type_name):
    """Offsets or sizes, none of them negative, of an integer type."""
    most = model.bounds(one_of(type_name, model.INTEGERS))[1]
    return [whole(item, 0, most) for item in items(value)]


# Validities and values.

def validity_of(value):
    """What the member `validity` says, where it is there."""
    if 'validity' not in value:
        return model.NON_NULLABLE
    stated = value['validity']
    if type(stated) is list:
        refuse_unless(all(type(bit) is bool for bit in stated), 'no bools')
        return model.Validity(True, stated)
    if type(stated) is dict:
        return model.bits_of_column(column_of(stated))
    named = {'NonNullable': model.NON_NULLABLE, 'AllValid': model.ALL_VALID,
             'AllInvalid': model.ALL_INVALID}
    return named[one_of(stated, named)]


def row_of(value, kind):
    """A row that isn't null, as a value of a list spells it."""
    if kind == model.Bool():
        refuse_unless(type(value) is bool, 'no bool')
        return value
    if isinstance(kind, model.Primitive) and kind.name in model.INTEGERS:
        return model.record_of(model.WIDTHS[kind.name], whole(value, *model.bounds(kind.name)))
    if isinstance(kind, model.Primitive):
        return hexadecimal(value, model.WIDTHS[kind.name])
    if isinstance(kind, model.Decimal):
        return hexadecimal(value, kind.width)
    if kind == model.Text('utf8'):
        return text(value).encode('utf-8')
    return hexadecimal(value)


def values_of(value, kind):
    """The rows of the member `values`, and the validity beside them."""
    listed = items(value['values'])
    rows = [None if item is None else row_of(item, kind) for item in listed]
    if None not in rows:
        return rows, validity_of(value)
    refuse_unless('validity' not in value, 'a null beside a validity')
    return rows, model.ALL_VALID


def stored_values(layout, value, kind):
    """A column of a layout with a member `values`."""
    rows, validity = values_of(value, kind)
    return model.stored(layout, kind, rows, validity)


def named_kind(value, words):
    """The kind that the member `type` names, `decimal` by three numbers beside it."""
    name = one_of(value['type'], words)
    if name == 'decimal':
        return decimal_kind(value)
    if name in ('utf8', 'binary'):
        return model.Text(name)
    return {'bool': model.Bool(), 'null': model.Null()}.get(name) or model.Primitive(name)


DECIMAL = ('precision', 'scale', 'width')


def decimal_kind(value):
    most = 2 ** 64
    return model.decimal_kind(*(whole(value.get(name), -most, most) for name in DECIMAL))


# Columns, a function a layout.

def null_by(value):
    members(value, ('layout', 'len'))
    return model.null_column(count(value['len']))


def bool_by(value):
    members(value, ('layout', 'values'), ('validity', 'offset'))
    whole(value.get('offset', 0), 0, 7)
    if type(value['values']) is str:
        return model.stored('Bool', model.Bool(), bits(value['values']), validity_of(value))
    return stored_values('Bool', value, model.Bool())


def primitive_by(value):
    if 'ramp' in value:
        members(value, ('layout', 'type', 'ramp'), ('validity',))
        kind = named_kind(value, model.INTEGERS)
        return model.stored('Primitive', kind, ramp_of(value, kind), validity_of(value))
    members(value, ('layout', 'type', 'values'), ('validity',))
    return stored_values('Primitive', value, named_kind(value, model.WIDTHS))


def ramp_of(value, kind):
    return model.Ramp(model.WIDTHS[kind.name], count(value['ramp']))


def decimal_by(value):
    members(value, ('layout', 'values') + DECIMAL, ('validity',))
    return stored_values('Decimal', value, decimal_kind(value))


TEXTS = ('utf8', 'binary')


def varbin_by(value):
    if 'values' in value:
        members(value, ('layout', 'type', 'values'), ('validity',))
        return stored_values('VarBin', value, named_kind(value, TEXTS))
    members(value, ('layout', 'type', 'offsets', 'bytes'), ('validity', 'offset_type'))
    offsets = offsets_in(value['offsets'], value.get('offset_type', 'i32'))
    data = hexadecimal(value['bytes'])
    return model.varbin_column(named_kind(value, TEXTS), offsets, data, validity_of(value))


def views_by(value):
    if 'values' in value:
        members(value, ('layout', 'type', 'values'), ('validity',))
        return stored_values('VarBinView', value, named_kind(value, TEXTS))
    members(value, ('layout', 'type', 'views', 'buffers'), ('validity',))
    views = [view_of(view) for view in items(value['views'])]
    buffers = [hexadecimal(buffer) for buffer in items(value['buffers'])]
    return model.views_column(named_kind(value, TEXTS), views, buffers, validity_of(value))


def view_of(value):
    if type(value) is dict and 'inline' in value:
        return model.InView(hexadecimal(members(value, ('inline',))['inline']))
    members(value, ('len', 'prefix', 'buffer', 'offset'))
    length, buffer, offset = (whole(value[name], 0, 2 ** 32 - 1)
                              for name in ('len', 'buffer', 'offset'))
    return model.InBuffer(length, hexadecimal(value['prefix'], 4), buffer, offset)


def list_by(value):
    members(value, ('layout', 'offsets', 'elements'), ('validity', 'offset_type'))
    offsets = offsets_in(value['offsets'], value.get('offset_type', 'i64'))
    return model.list_column(offsets, column_of(value['elements']), validity_of(value))


def listview_by(value):
    members(value, ('layout', 'offsets', 'sizes', 'elements'), ('validity', 'offset_type'))
    offsets, sizes = (offsets_in(value[name], value.get('offset_type', 'i64'))
                      for name in ('offsets', 'sizes'))
    return model.listview_column(offsets, sizes, column_of(value['elements']), validity_of(value))


def fixed_by(value):
    members(value, ('layout', 'size', 'len', 'elements'), ('validity',))
    size = whole(value['size'], 0, 2 ** 32 - 1)
    elements = column_of(value['elements'])
    return model.fixed_column(size, count(value['len']), elements, validity_of(value))


def map_by(value):
    members(value, ('layout', 'entries'))
    entries = column_of(value['entries'])
    refuse_unless(entries.layout == 'ListView', 'entries of another layout')
    return model.map_column(entries)


def struct_by(value):
    members(value, ('layout', 'len', 'names', 'fields'), ('validity',))
    names = [text(name) for name in items(value['names'])]
    fields = [column_of(field) for field in items(value['fields'])]
    return model.struct_column(count(value['len']), names, fields, validity_of(value))


def union_by(value):
    members(value, ('layout', 'type_ids', 'variants', 'children'), ('offsets', 'offset_type'))
    refuse_unless('offsets' in value or 'offset_type' not in value, 'a type of no offsets')
    variants = [variant_of(variant) for variant in items(value['variants'])]
    children = [column_of(child) for child in items(value['children'])]
    offsets = None
    if 'offsets' in value:
        offsets = offsets_in(value['offsets'], value.get('offset_type', 'i32'))
    return model.union_column(column_of(value['type_ids']), variants, children, offsets)


def variant_of(value):
    members(value, ('id', 'name'))
    return whole(value['id'], 0, 255), text(value['name'])


def extension_by(value):
    members(value, ('layout', 'name', 'storage'))
    return model.extension_column(text(value['name']), column_of(value['storage']))


CONSTANTS = ('null', 'bool', 'decimal', *TEXTS, *model.WIDTHS)


def constant_by(value):
    parts = DECIMAL if value.get('type') == 'decimal' else ()
    members(value, ('layout', 'type', 'value', 'len', *parts), ('nullable',))
    kind = named_kind(value, CONSTANTS)
    is_null = kind == model.Null()
    nullable = value.get('nullable', is_null)
    refuse_unless(type(nullable) is bool and (nullable or not is_null), 'no such nullability')
    if value['value'] is None:
        refuse_unless(nullable, 'a null of a type without nulls')
        row = None
    else:
        refuse_unless(not is_null, 'a null that is there')
        row = row_of(value['value'], kind)
    return model.constant_column(model.Type(kind, nullable), row, count(value['len']))


def dict_by(value):
    members(value, ('layout', 'codes', 'values'))
    return model.dict_column(column_of(value['codes']), column_of(value['values']))


def filter_by(value):
    members(value, ('layout', 'child', 'mask'))
    return model.filter_column(column_of(value['child']), mask_of(value['mask']))


LAYOUTS = {
    'Null': null_by, 'Bool': bool_by, 'Primitive': primitive_by, 'Decimal': decimal_by,
    'VarBin': varbin_by, 'VarBinView': views_by, 'List': list_by, 'ListView': listview_by,
    'FixedSizeList': fixed_by, 'Map': map_by, 'Struct': struct_by, 'Union': union_by,
    'Extension': extension_by, 'Constant': constant_by, 'Dict': dict_by, 'Filter': filter_by,
}


def column_of(value):
    """The column that an object spells, by its layout."""
    refuse_unless(type(value) is dict, 'no object')
    return LAYOUTS[one_of(value.get('layout'), LAYOUTS)](value)


def chunks_of(value):
    """A column whose values lie behind a decoder."""
    parts = DECIMAL if type(value) is dict and value.get('type') == 'decimal' else ()
    if type(value) is dict and 'ramp' in value:
        members(value, ('type', 'offset', 'len', 'ramp'), ('validity',))
        kind = named_kind(value, model.INTEGERS)
        records = ramp_of(value, kind)
    else:
        members(value, ('type', 'offset', 'len', 'values', *parts), ('validity',))
        kind = named_kind(value, ('decimal', *model.WIDTHS))
        records = [row_of(item, kind) for item in items(value['values'])]
    offset, length = whole(value['offset'], 0, 1023), count(value['len'])
    refuse_unless(offset + length <= len(records), 'too few values')
    rows = [records[offset + i] for i in range(length)]
    return Chunks(model.stored('chunks', kind, rows, validity_of(value)), offset)


# Masks and indices.

def mask_of(value):
    if type(value) is str:
        return mask_by_bits(bits(value))
    refuse_unless(type(value) is dict, 'no mask')
    if 'bits' in value:
        members(value, ('bits', 'offset'))
        whole(value['offset'], 0, 7)
        return mask_by_bits(bits(value['bits']))
    length = count(value.get('len'))
    if 'set' in value:
        return model.Mask(length, set_of(members(value, ('len', 'set'))['set'], length))
    if 'runs' in value:
        return model.Mask(length, runs_of(members(value, ('len', 'runs'))['runs'], length))
    every = members(value, ('len', 'every'))['every']
    refuse_unless(type(every) is bool, 'no bool')
    return model.Mask(length, range(length if every else 0))


def mask_by_bits(bits_):
    return model.Mask(len(bits_), [i for i, bit in enumerate(bits_) if bit])


def set_of(value, length):
    """Positions, strictly ascending below a length."""
    positions = numbers(value, 'u64')
    refuse_unless(all(low < high for low, high in zip(positions, positions[1:])), 'no order')
    refuse_unless(not positions or positions[-1] < length, 'a position past the end')
    return positions


def runs_of(value, length):
    """The positions of runs, none empty, each from the end of the one before on."""
    positions, last = [], 0
    for run in items(value):
        start, end = pair(run)
        refuse_unless(last <= start < end <= length, 'no such run')
        positions.extend(range(start, end))
        last = end
    return positions


def pair(value):
    refuse_unless(len(numbers(value, 'u64')) == 2, 'no pair')
    return value


def flat_column(value):
    column = column_of(value)
    refuse_unless(model.is_flat(column.type), 'a column that is not flat')
    return column


def listed(value, type_name):
    """A column, or a list that stands for a `Primitive` of this type."""
    if type(value) is list:
        return column_of({'layout': 'Primitive', 'type': type_name, 'values': value})
    return column_of(value)


def indices_of(value):
    if type(value) is list:
        return listed(value, 'i64')
    if type(value) is dict and 'pieces' in value:
        return pieces_of(members(value, ('pieces',))['pieces'])
    return flat_column(value)


def pieces_of(value):
    parts = ('starts', 'lengths', 'multipliers')
    members(value, (*parts, 'len'))
    columns = [listed(value[part], 'u64') for part in parts]
    for column in columns:
        refuse_unless(model.is_unsigned(column.type) and not column.type.nullable, 'no numbers')
        refuse_unless(len(column.rows) == len(columns[0].rows), 'pieces of unequal number')
    return steps.Pieces(*(model.numbers_of(column) for column in columns), count(value['len']))


# Steps, policies and documents.

def step_of(value):
    refuse_unless(type(value) is dict and len(value) == 1, 'no step')
    name, part = next(iter(value.items()))
    if name == 'slice':
        return steps.Slice(*pair(part))
    if name == 'filter':
        return steps.Filter(mask_of(part))
    if name == 'filter_by':
        return steps.FilterBy(flat_column(part))
    if name == 'take':
        return steps.Take(indices_of(part))
    raise NoMeaning('no such step')


RATIOS = ('dense_w1', 'dense_w2', 'dense_w4', 'dense_w8', 'dense_other', 'cached_indices_max',
          'in_place_min', 'bool_sparse_below', 'reuse_two_max', 'reuse_more_max',
          'text_indices_below', 'list_indices_below')
SPARSE = {'sparse_w1': 16, 'sparse_w2': 32, 'sparse_w4': 64, 'sparse_other': 160}
NOT_ZERO = ('min_run_bytes', 'rank_lookup_divisor', 'rank_lookup_cap')
NUMBERS = ('min_average_run', 'crop_min', 'crop_factor', 'cached_list_size', 'big_filtered_len',
           'big_take_len', 'big_take_ratio', *NOT_ZERO)


def policy_of(value):
    """The sparse limits of a policy: nothing else of it is seen in an answer."""
    if value == 'vortex':
        return SPARSE
    refuse_unless(type(value) is dict, 'no policy')
    limits = dict(SPARSE)
    for name, stated in value.items():
        if name in RATIOS:
            refuse_unless(pair(stated)[1] != 0, 'a divisor of zero')
        elif name in SPARSE:
            limits[name] = whole(stated, 0, 160)
        else:
            whole(stated, 1 if one_of(name, NUMBERS) in NOT_ZERO else 0, MOST_U)
    return limits


def with_steps(value, source):
    """A document with this source, its steps and its policy."""
    listed_steps = [step_of(step) for step in items(value['steps'])]
    return Document(source, listed_steps, policy_of(value.get('policy', 'vortex')))


def document_of(value):
    """A document of rows."""
    if type(value) is dict and 'chunks' in value:
        members(value, ('chunks', 'steps'), ('policy',))
        return with_steps(value, chunks_of(value['chunks']))
    members(value, ('column', 'steps'), ('policy',))
    return with_steps(value, column_of(value['column']))


def file_document_of(value):
    """A document of a file."""
    members(value, ('file', 'steps'), ('policy',))
    listed_blocks = [hexadecimal(block) for block in items(value['file'])]
    refuse_unless(all(len(block) <= blocks.LONGEST for block in listed_blocks), 'a long block')
    return with_steps(value, listed_blocks)
