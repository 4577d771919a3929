"""Makes columns of a document: types, rows of a type, and the many forms that spell the same rows.

A row is spelled as in `model.py`, but a whole number is an int.  Rows come first and a form is
found for them, so that a column that is made is right by the way it is made, whatever nests in it.
"""
from model import (FLOATS, INTEGERS, WIDTHS, Bool, Decimal, Extension, Fixed, List, Map, Null,
                   Primitive, Struct, Text, Type, Union, Variant, bounds)

NAMES = ('a', 'b', 'id', '', 'a b', 'é', '"', '\\', '\n', 'x' * 20)
TEXTS = ('', 'a', 'bo', 'ann', 'twelve bytes', 'thirteen byte', 'a text of more than twelve bytes',
         'é', '\u20ac uro', '\U0001f600', '"q"', 'back\\slash', '\x00', '\t\x7f', ' ~ ', 'aaaaaaaaaaaaé')
BYTES = (b'\xff', b'\xc3', b'\xed\xa0\x80', b'\x80' * 13, b'no utf-8 \xfe in this text')
LEAST_WIDTH = ((2, 1), (4, 2), (9, 4), (18, 8), (38, 16), (76, 32))


def typed(kind, nullable):
    """The type of a kind; one that stores rows of the null kind has nulls."""
    stored = kind
    while isinstance(stored, Extension):
        stored = stored.storage
    return Type(kind, nullable or stored == Null())


def is_flat_or_text(kind):
    return isinstance(kind, (Null, Bool, Primitive, Decimal, Text))


def is_spelled(row):
    """A text may stand in JSON as it is."""
    try:
        row.decode('utf-8')
        return True
    except UnicodeDecodeError:
        return False


def fitting_types(numbers, signed=True):
    """The integer types that have all these numbers."""
    there = [number for number in numbers if number is not None]
    return [name for name in INTEGERS if (signed or name[0] == 'u')
            and all(bounds(name)[0] <= number <= bounds(name)[1] for number in there)]


class Columns:
    """Makes columns by the choices of a random source."""

    def __init__(self, random):
        self.random = random
        self.choice = random.choice

    def chance(self, likely):
        return self.random.random() < likely

    def below(self, bound):
        return self.random.randrange(bound)

    # Types.

    def type(self, depth):
        """A type that nests at most so deep."""
        return typed(self.kind(depth), self.chance(0.5))

    def flat_kind(self):
        return self.choice((Null, Bool, self.integer, self.integer, self.float, self.decimal))()

    def integer(self):
        return Primitive(self.choice(INTEGERS))

    def float(self):
        return Primitive(self.choice(FLOATS))

    def decimal(self):
        precision = 1 + self.below(76)
        least = next(width for digits, width in LEAST_WIDTH if precision <= digits)
        width = self.choice([width for _, width in LEAST_WIDTH if width >= least])
        return Decimal(precision, self.below(153) - 76, width)

    def kind(self, depth):
        if depth == 0 or self.chance(0.3):
            if self.chance(0.35):
                return Text(self.choice(('utf8', 'binary')))
            return self.flat_kind()
        return self.choice((self.list, self.fixed, self.map, self.struct, self.union,
                            self.extension))(depth - 1)

    def list(self, depth):
        return List(self.type(depth))

    def fixed(self, depth):
        return Fixed(self.type(depth), self.choice((0, 1, 2, 3)))

    def map(self, depth):
        key = self.type(depth)
        while typed(key.kind, False).nullable:
            key = self.type(depth)
        return Map(Struct((self.name(), self.name()), (Type(key.kind, False), self.type(depth))))

    def struct(self, depth):
        types = tuple(self.type(depth) for _ in range(self.choice((0, 1, 2, 2, 3))))
        return Struct(tuple(self.name() for _ in types), types)

    def union(self, depth):
        types = tuple(self.type(depth) for _ in range(self.choice((1, 2, 2, 3))))
        ids = tuple(self.random.sample((0, 1, 2, 7, 127, 128, 255), len(types)))
        return Union(ids, tuple(self.name() for _ in types), types)

    def extension(self, depth):
        return Extension(self.name(), self.kind(depth))

    def name(self):
        return self.choice(NAMES)

    # Rows.

    def rows(self, type_, n):
        """So many rows of a type; now and then all of them alike, or a ramp."""
        if self.chance(0.1):
            return [self.row(type_)] * n
        if isinstance(type_.kind, Primitive) and type_.kind.name in INTEGERS and self.chance(0.15):
            return list(range(n)) if n <= 127 else [self.row(type_) for _ in range(n)]
        return [self.row(type_) for _ in range(n)]

    def row(self, type_):
        if type_.nullable and self.chance(0.25):
            return None
        return self.row_of(type_.kind)

    def row_of(self, kind):
        """A row that isn't null, if the kind has one."""
        if isinstance(kind, Null):
            return None
        if isinstance(kind, Bool):
            return self.chance(0.5)
        if isinstance(kind, Primitive) and kind.name in INTEGERS:
            least, most = bounds(kind.name)
            return self.choice((least, most, max(least, -1), 0, 1, 2, 7, self.random.randint(least, most)))
        if isinstance(kind, Primitive):
            return self.random.randbytes(WIDTHS[kind.name])
        if isinstance(kind, Decimal):
            return self.random.randbytes(kind.width)
        if isinstance(kind, Text):
            return self.text(kind)
        return self.nested_row(kind)

    def text(self, kind):
        if kind.name == 'binary' or self.chance(0.05):
            return self.choice(BYTES) if self.chance(0.4) else self.random.randbytes(self.below(16))
        return self.choice(TEXTS).encode('utf-8')

    def nested_row(self, kind):
        if isinstance(kind, List):
            return [self.row(kind.element) for _ in range(self.below(4))]
        if isinstance(kind, Fixed):
            return [self.row(kind.element) for _ in range(kind.size)]
        if isinstance(kind, Map):
            return [self.row_of(kind.entry) for _ in range(self.below(3))]
        if isinstance(kind, Struct):
            return tuple(self.row(type_) for type_ in kind.types)
        if isinstance(kind, Union):
            i = self.below(len(kind.ids))
            return Variant(kind.ids[i], self.row(kind.types[i]))
        return self.row_of(kind.storage)

    # Columns of any layout.

    def column(self, type_, rows, depth=3):
        """A column of just this type and these rows, whose lazy layouts nest at most so deep."""
        forms = [self.stored] * 5
        if depth > 0 and len(rows) < 200:
            forms += [self.dict, self.filter]
        if self.may_be_constant(type_.kind, rows):
            forms += [self.constant] * 3
        return self.choice(forms)(type_, rows, depth)

    def may_be_constant(self, kind, rows):
        if not is_flat_or_text(kind) or any(row != rows[0] for row in rows):
            return False
        return kind != Text('utf8') or not rows or rows[0] is None or is_spelled(rows[0])

    def constant(self, type_, rows, _depth):
        kind, value = type_.kind, self.constant_value(type_, rows)
        made = {'layout': 'Constant', **self.constant_type(kind), 'value': value, 'len': len(rows)}
        if kind == Null():
            return {**made, **self.choice(({}, {'nullable': True}))}
        return {**made, **({'nullable': True} if type_.nullable else self.choice(({}, {'nullable': False})))}

    def constant_value(self, type_, rows):
        row = rows[0] if rows else self.row(type_)
        if isinstance(row, bytes) and type_.kind == Text('utf8') and not is_spelled(row):
            row = b''
        return None if row is None else self.value(type_.kind, row)

    def constant_type(self, kind):
        if isinstance(kind, Decimal):
            return {'type': 'decimal', **self.decimal_parts(kind)}
        return {'type': {Null(): 'null', Bool(): 'bool'}.get(kind) or kind.name}

    def decimal_parts(self, kind):
        return {'precision': kind.precision, 'scale': kind.scale, 'width': kind.width}

    def dict(self, type_, rows, depth):
        """A dictionary: its values have nulls, or its codes, or both."""
        by_values = by_codes = False
        if type_.nullable:
            by_values, by_codes = self.choice(((True, False), (False, True), (True, True)))
        values_type = typed(type_.kind, by_values)
        values = [self.row(values_type) for _ in range(self.below(3))]
        values += [row for row in self.some(rows) if row is not None or values_type.nullable]
        self.random.shuffle(values)
        codes = [self.code(row, values, values_type.nullable, by_codes) for row in rows]
        return {'layout': 'Dict', 'codes': self.numbers(codes, by_codes, depth - 1),
                'values': self.column(values_type, values, depth - 1)}

    def some(self, rows):
        return [row for row in rows if self.chance(0.5)]

    def code(self, row, values, in_values, in_codes):
        """The code of a row; the values grow where the row isn't among them."""
        if row is None and in_codes and not (in_values and self.chance(0.5)):
            return None
        there = [i for i, value in enumerate(values) if value == row]
        if not there:
            values.append(row)
            there = [len(values) - 1]
        return self.choice(there)

    def numbers(self, numbers, nullable, depth, signed=True):
        """A column of whole numbers, of a type that has them."""
        name = self.choice(fitting_types(numbers, signed))
        return self.column(Type(Primitive(name), nullable), numbers, depth)

    def filter(self, type_, rows, depth):
        """A lazy filter: rows that aren't shown stand between those that are."""
        child, bits = [], []
        for row in rows:
            hidden = self.choice((0, 0, 1, 2))
            child += [self.row(type_) for _ in range(hidden)] + [row]
            bits += [False] * hidden + [True]
        hidden = self.below(3)
        child += [self.row(type_) for _ in range(hidden)]
        return {'layout': 'Filter', 'child': self.column(type_, child, depth - 1),
                'mask': self.mask(bits + [False] * hidden)}

    def mask(self, bits):
        """A mask of these bits, in any of its forms."""
        text, n = ''.join('01'[bit] for bit in bits), len(bits)
        selected = [i for i, bit in enumerate(bits) if bit]
        forms = [text, {'bits': text, 'offset': self.below(8)}, {'len': n, 'set': selected},
                 {'len': n, 'runs': self.runs(selected)}]
        if len(selected) in (0, n):
            forms += [{'len': n, 'every': bool(selected) or n == 0 and self.chance(0.5)}] * 2
        return self.choice(forms)

    def runs(self, selected):
        """Runs of positions; some that touch stay apart."""
        runs = []
        for i in selected:
            if runs and runs[-1][1] == i and self.chance(0.8):
                runs[-1][1] = i + 1
            else:
                runs.append([i, i + 1])
        return runs

    # Columns that store their rows.

    def stored(self, type_, rows, depth):
        form = {Null: self.nulls, Bool: self.bools, Primitive: self.primitives,
                Decimal: self.decimals, Text: self.texts, List: self.lists, Fixed: self.fixed_lists,
                Map: self.maps, Struct: self.structs, Union: self.unions,
                Extension: self.extensions}[type(type_.kind)]
        return form(type_, rows, depth)

    def nulls(self, _type, rows, _depth):
        return {'layout': 'Null', 'len': len(rows)}

    def validity(self, type_, rows, depth):
        """The member `validity`, or none, that says which of the rows are there."""
        if not type_.nullable:
            return self.choice(({}, {'validity': 'NonNullable'}))
        bits = [row is not None for row in rows]
        forms = [bits]
        if depth > 0:
            forms.append(self.column(Type(Bool(), False), bits, depth - 1))
        if all(bits):
            forms.append('AllValid')
        if not any(bits):
            forms.append('AllInvalid')
        return {'validity': self.choice(forms)}

    def filled(self, type_, rows):
        """The rows, and any other in place of each null: it lies behind it."""
        there = [self.row_of(type_.kind) if row is None else row for row in rows]
        if type_.kind == Text('utf8'):
            return [row if is_spelled(row) else b'' for row in there]
        return there

    def values(self, type_, rows, depth):
        """The member `values` and perhaps `validity`: nulls stand among the values or beside them."""
        kind = type_.kind
        if None in rows and self.chance(0.5):
            return {'values': [None if row is None else self.value(kind, row) for row in rows]}
        return {'values': [self.value(kind, row) for row in self.filled(type_, rows)],
                **self.validity(type_, rows, depth)}

    def value(self, kind, row):
        """A row as a list of values spells it."""
        if not isinstance(row, bytes):
            return row
        return row.decode('utf-8') if kind == Text('utf8') else self.hex(row)

    def hex(self, data):
        return data.hex() if self.chance(0.8) else data.hex().upper()

    def bools(self, type_, rows, depth):
        made = {'layout': 'Bool', **self.values(type_, rows, depth)}
        if None not in made['values'] and self.chance(0.4):
            made['values'] = ''.join('01'[bit] for bit in made['values'])
        return {**made, **self.choice(({}, {'offset': self.below(8)}))}

    def primitives(self, type_, rows, depth):
        name = type_.kind.name
        made = {'layout': 'Primitive', 'type': name}
        if name in INTEGERS and self.chance(0.6) and self.is_ramp(name, rows):
            return {**made, 'ramp': len(rows), **self.validity(type_, rows, depth)}
        return {**made, **self.values(type_, rows, depth)}

    def is_ramp(self, name, rows):
        least, most = bounds(name)
        return all(row is None or row == (i - least) % (most - least + 1) + least
                   for i, row in enumerate(rows))

    def decimals(self, type_, rows, depth):
        return {'layout': 'Decimal', **self.decimal_parts(type_.kind), **self.values(type_, rows, depth)}

    def texts(self, type_, rows, depth):
        forms = [self.varbin, self.views]
        if type_.kind.name == 'binary' or all(row is None or is_spelled(row) for row in rows):
            forms.append(self.listed_texts)
        return self.choice(forms)(type_, rows, depth)

    def listed_texts(self, type_, rows, depth):
        return {'layout': self.choice(('VarBin', 'VarBinView')), 'type': type_.kind.name,
                **self.values(type_, rows, depth)}

    def offset_type(self, most, usual):
        """The member `offset_type`, or none, for offsets up to a number."""
        return self.choice(({'offset_type': self.choice(fitting_types([most]))}, {},
                            {'offset_type': usual}))

    def varbin(self, type_, rows, depth):
        data, offsets = self.random.randbytes(self.below(3)), []
        offsets.append(len(data))
        for row in self.filled_texts(type_, rows):
            data += row
            offsets.append(len(data))
        data += self.random.randbytes(self.below(3))
        return {'layout': 'VarBin', 'type': type_.kind.name, 'offsets': offsets,
                **self.offset_type(offsets[-1], 'i32'), 'bytes': self.hex(data),
                **self.validity(type_, rows, depth)}

    def filled_texts(self, type_, rows):
        return [self.text(type_.kind) if row is None else row for row in rows]

    def views(self, type_, rows, depth):
        buffers = [self.random.randbytes(self.below(4)) for _ in range(1 + self.below(2))]
        views = []
        for row in self.filled_texts(type_, rows):
            views.append(self.view(row, buffers))
        return {'layout': 'VarBinView', 'type': type_.kind.name, 'views': views,
                'buffers': [self.hex(buffer) for buffer in buffers],
                **self.validity(type_, rows, depth)}

    def view(self, row, buffers):
        if len(row) <= 12:
            return {'inline': self.hex(row)}
        buffer = self.below(len(buffers))
        if row not in buffers[buffer]:
            buffers[buffer] += row
        return {'len': len(row), 'prefix': self.hex(row[:4]), 'buffer': buffer,
                'offset': buffers[buffer].index(row)}

    def lists(self, type_, rows, depth):
        form = self.choice((self.lists_by_offsets, self.lists_by_views))
        return form(type_, rows, depth)

    def lists_by_offsets(self, type_, rows, depth):
        element = type_.kind.element
        elements = [self.row(element) for _ in range(self.below(3))]
        offsets = [len(elements)]
        for row in self.filled(type_, rows):
            elements += row
            offsets.append(len(elements))
        elements += [self.row(element) for _ in range(self.below(3))]
        return {'layout': 'List', 'offsets': offsets, **self.offset_type(offsets[-1], 'i64'),
                'elements': self.column(element, elements, depth - 1),
                **self.validity(type_, rows, depth)}

    def lists_by_views(self, type_, rows, depth):
        """List views, in any order, of which some share their elements."""
        element = type_.kind.element
        order = list(enumerate(self.filled(type_, rows)))
        self.random.shuffle(order)
        elements, offsets, begun = [], [0] * len(rows), []
        for i, row in order:
            offset = next((at for at, other in begun if other[:len(row)] == row), None)
            if offset is None or self.chance(0.3):
                elements += [self.row(element) for _ in range(self.below(2))]
                offset = len(elements)
                elements += row
                begun.append((offset, row))
            offsets[i] = offset
        sizes = [len(row) for _, row in sorted(order, key=lambda item: item[0])]
        return {'layout': 'ListView', 'offsets': offsets, 'sizes': sizes,
                **self.offset_type(len(elements), 'i64'),
                'elements': self.column(element, elements, depth - 1),
                **self.validity(type_, rows, depth)}

    def fixed_lists(self, type_, rows, depth):
        elements = [item for row in self.filled(type_, rows) for item in row]
        return {'layout': 'FixedSizeList', 'size': type_.kind.size, 'len': len(rows),
                'elements': self.column(type_.kind.element, elements, depth - 1),
                **self.validity(type_, rows, depth)}

    def maps(self, type_, rows, depth):
        entries = Type(List(Type(type_.kind.entry, False)), type_.nullable)
        return {'layout': 'Map', 'entries': self.lists_by_views(entries, rows, depth)}

    def structs(self, type_, rows, depth):
        kind, there = type_.kind, self.filled(type_, rows)
        fields = [self.column(field, [row[i] for row in there], depth - 1)
                  for i, field in enumerate(kind.types)]
        return {'layout': 'Struct', 'len': len(rows), 'names': list(kind.names), 'fields': fields,
                **self.validity(type_, rows, depth)}

    def unions(self, type_, rows, depth):
        kind = type_.kind
        ids = [None if row is None else row.id for row in rows]
        made = {'layout': 'Union',
                'type_ids': self.column(Type(Primitive('u8'), type_.nullable), ids, depth - 1),
                'variants': [{'id': id_, 'name': name} for id_, name in zip(kind.ids, kind.names)]}
        form = self.choice((self.sparse_children, self.dense_children))
        return {**made, **form(kind, rows, depth)}

    def sparse_children(self, kind, rows, depth):
        children = []
        for id_, type_ in zip(kind.ids, kind.types):
            child = [row.row if row is not None and row.id == id_ else self.row(type_) for row in rows]
            children.append(self.column(type_, child, depth - 1))
        return {'children': children}

    def dense_children(self, kind, rows, depth):
        """Columns of any length, in any order, and the place of each row."""
        children, places = [], [None] * len(rows)
        for id_, type_ in zip(kind.ids, kind.types):
            child = [self.row(type_) for _ in range(self.below(3))]
            for i in self.random.sample(range(len(rows)), len(rows)):
                if rows[i] is not None and rows[i].id == id_:
                    places[i] = self.code(rows[i].row, child, True, False)
            children.append(self.column(type_, child, depth - 1))
        most = max([place for place in places if place is not None], default=0)
        stated = self.offset_type(most, 'i32')
        free = bounds(stated.get('offset_type', 'i32'))[1]
        offsets = [self.choice((0, free)) if place is None else place for place in places]
        return {'children': children, 'offsets': offsets, **stated}

    def extensions(self, type_, rows, depth):
        storage = Type(type_.kind.storage, type_.nullable)
        return {'layout': 'Extension', 'name': type_.kind.name,
                'storage': self.column(storage, rows, depth - 1)}
