"""Makes documents and words for the program, each from a number: right ones, and spoiled ones."""
import random

import blocks
import spoil
from columns import Columns, fitting_types, typed
from model import Bool, Decimal, Extension, List, Primitive, Struct, Text, Type, bounds, is_integer

RATIOS = ('dense_w1', 'dense_w2', 'dense_w4', 'dense_w8', 'dense_other', 'cached_indices_max',
          'in_place_min', 'bool_sparse_below', 'reuse_two_max', 'reuse_more_max',
          'text_indices_below', 'list_indices_below')
SPARSE = ('sparse_w1', 'sparse_w2', 'sparse_w4', 'sparse_other')
NUMBERS = ('min_average_run', 'min_run_bytes', 'rank_lookup_divisor', 'rank_lookup_cap', 'crop_min',
           'crop_factor', 'cached_list_size', 'big_filtered_len', 'big_take_len', 'big_take_ratio')
WRONG_WORDS = ('', 'row', 'Rows', 'rows x', 'rows rows', 'file file', 'made', 'made x', 'made 7 8',
               'made -1', 'made 4294967296', 'made 00000000007', 'page', 'page 0', 'page 0 0',
               'page 1 00', 'page 0 1 2', 'page -1 1', 'page +1 1', 'page 1.0 1', 'page 0x1 1',
               'page 4294967296 1', 'page 1 4294967296', 'page 00000000001 1', 'pages 0 1',
               'rows 0 1', 'file 0', '--help', '-h', 'page \u0661 1', 'made \u0967')
MOST = 2 ** 64 - 1


def case(seed):
    """The words and the bytes of a number's document."""
    maker = Documents(random.Random(seed))
    return maker.case()


class Documents(Columns):
    """Makes documents: a source, steps over its rows, and a policy."""

    def case(self):
        form = self.random.choices(
            (self.rows_document, self.long_document, self.chunks_document, self.page_document,
             self.file_document, self.deep_document, self.wrong_words, self.made),
            (55, 8, 10, 14, 7, 1.5, 1, 0.15))[0]
        words, document = form()
        if document is None:
            return words, b''
        spoiled = self.chance(0.4)
        return words, spoil.spelled(self.random, document, spoiled)

    def document(self, source, n):
        """A source of so many rows, steps, and perhaps a policy."""
        steps = Steps(self.random).steps(n)
        policy = {'policy': self.policy()} if self.chance(0.2) else {}
        return {**source, 'steps': steps, **policy}

    def rows_document(self):
        depth = self.choice((0, 0, 1, 1, 2, 3, 4))
        n = self.below(21) if depth < 2 else self.below(7)
        type_ = self.type(depth)
        column = self.column(type_, self.rows(type_, n), max(depth, 2))
        return ['rows'], self.document({'column': column}, n)

    def page_document(self):
        """A page of structs, mostly of some without nulls."""
        depth = self.choice((0, 1, 2))
        n = self.below(13)
        type_ = typed(self.struct(depth), self.chance(0.08))
        make = self.structs if self.chance(0.9) else self.column
        column = make(type_, self.rows(type_, n), depth + 1)
        page = self.choice((0, 0, 0, 1, 1, 2, 3, n, 2 ** 32 - 1))
        length = self.choice((1, 2, 3, 3, 5, 20, 2 ** 32 - 1))
        return ['page', str(page), str(length)], self.document({'column': column}, n)

    def long_document(self):
        """Flat columns of some hundreds of rows, which words and tables of bits are made for."""
        n = self.choice((63, 64, 65, 127, 128, 200, 511, 513, 700, 1025, 2100))
        kind = self.choice((Bool(), self.integer(), self.integer(), Text('utf8'), List(self.type(0)),
                            Extension('long', self.integer())))
        type_ = typed(kind, self.chance(0.4))
        rows = self.long_rows(type_, n)
        column = self.choice((self.stored, self.filter, self.dict))(type_, rows, 1)
        return ['rows'], self.document({'column': column}, n)

    def long_rows(self, type_, n):
        if is_integer(type_) and self.chance(0.5):
            least, most = bounds(type_.kind.name)
            return [(i - least) % (most - least + 1) + least for i in range(n)]
        return [self.row(type_) for _ in range(n)]

    def chunks_document(self):
        """Rows behind a decoder."""
        kind = self.choice((self.integer, self.integer, self.float, self.decimal))()
        offset = self.choice((0, 0, 1, 5, 1023, self.below(1024)))
        n = self.choice((0, 1, 3, 17, 161, self.below(40), self.below(2500)))
        values = offset + n + self.choice((0, 0, 1, 30))
        parts = self.decimal_parts(kind) if isinstance(kind, Decimal) else {}
        made = {'type': 'decimal' if parts else kind.name, **parts, 'offset': offset, 'len': n}
        if is_integer(Type(kind, False)) and (values > 60 or self.chance(0.3)):
            made['ramp'] = values
        elif values < 60 or self.chance(0.1):
            made['values'] = [self.value(kind, self.row_of(kind)) for _ in range(values)]
        else:
            return self.chunks_document()
        rows = [None if self.chance(0.2) else 0 for _ in range(n)] if n < 60 else [0] * n
        validity = self.validity(Type(kind, self.chance(0.4) or None in rows), rows, int(n < 60))
        return ['rows'], self.document({'chunks': {**made, **validity}}, n)

    def file_document(self):
        """The blocks of a file, some of them damaged."""
        name = self.choice(blocks.TYPES)
        n = self.choice((0, 1, 3, 1023, 1024, 1025, 2048, self.below(2600)))
        digits = self.choice((0, 0, 1, 1, 2, 3, 8, bounds(name)[1].bit_length()))
        digits = min(digits, bounds(name)[1].bit_length())
        base = self.random.randint(0, bounds(name)[1] - 2 ** digits + 1)
        listed = blocks.file_of(name, [base + self.below(2 ** digits) for _ in range(n)])
        if self.chance(0.4):
            spoil.damage(self.random, listed)
        return ['file'], self.document({'file': [self.hex(block) for block in listed]}, n)

    def deep_document(self):
        """Layouts that nest about as deep as brackets may."""
        column = {'layout': 'Primitive', 'type': 'u8', 'values': [1, 2]}
        wraps = (lambda inner: {'layout': 'Extension', 'name': 'e', 'storage': inner},
                 lambda inner: {'layout': 'Filter', 'child': inner, 'mask': '11'},
                 lambda inner: {'layout': 'Dict', 'codes': {'layout': 'Primitive', 'type': 'u8', 'ramp': 2},
                                'values': inner},
                 lambda inner: {'layout': 'FixedSizeList', 'size': 1, 'len': 2, 'elements': inner},
                 lambda inner: {'layout': 'Struct', 'len': 2, 'names': ['s'], 'fields': [inner]})
        some = self.random.sample(wraps, 1 + self.below(3))
        for _ in range(self.choice((10, 40, 60, 100, 118, 120, 122, 123, 124, 125, 126, 127))):
            column = self.choice(some)(column)
        return ['rows'], self.document({'column': column}, 2)

    def wrong_words(self):
        words = self.choice(WRONG_WORDS).split()
        return words, {'column': {'layout': 'Null', 'len': 1}, 'steps': []}

    def made(self):
        seed = 999001 * self.below(4200) + self.choice((0, 1, 7, self.below(5000)))
        return ['made', str(seed)], None

    def policy(self):
        if self.chance(0.2):
            return 'vortex'
        fields = {}
        for name in self.random.sample(RATIOS + SPARSE + NUMBERS, self.below(6)):
            fields[name] = self.policy_field(name)
        return fields

    def policy_field(self, name):
        if name in RATIOS:
            return [self.choice((0, 1, 2, MOST)), self.choice((1, 1, 2, 20, MOST))]
        if name in SPARSE:
            return self.choice((0, 1, 2, 16, 159, 160))
        return self.choice((1, 1, 2, 3, 64, 1000, MOST))


class Steps(Columns):
    """Makes steps over so many rows: right ones, and now and then a broken one."""

    def steps(self, n):
        listed = []
        for _ in range(self.choice((0, 1, 1, 2, 2, 3, 4))):
            if self.chance(0.08):
                listed.append(self.broken(n))
                continue
            step, n = self.right(n)
            listed.append(step)
        return listed

    def right(self, n):
        """A step that is right over n rows, and how many it leaves."""
        return self.choice((self.slice, self.filter_step, self.filter_by, self.take_list,
                            self.take_column, self.take_pieces))(n)

    def slice(self, n):
        start = self.below(n + 1)
        end = self.random.randint(start, n)
        return {'slice': [start, end]}, end - start

    def bits(self, n):
        """Bits of any density, in runs or not."""
        dense, run = self.choice((0, 0.05, 0.5, 0.5, 0.95, 1)), self.choice((1, 1, 1, 5, 70))
        bits = []
        while len(bits) < n:
            bits += [self.chance(dense)] * (1 + self.below(run))
        return bits[:n]

    def filter_step(self, n):
        bits = self.bits(n)
        return {'filter': self.mask(bits)}, sum(bits)

    def filter_by(self, n):
        nullable = self.chance(0.5)
        bits = [None if nullable and self.chance(0.2) else bit for bit in self.bits(n)]
        column = self.column(Type(Bool(), nullable), bits, 2)
        return {'filter_by': column}, sum(bit is True for bit in bits)

    def picks(self, n, nullable):
        if n == 0:
            return [None] * self.below(4) if nullable else []
        return [None if nullable and self.chance(0.2) else self.below(n)
                for _ in range(self.below(12))]

    def take_list(self, n):
        picks = self.picks(n, self.chance(0.5))
        return {'take': picks}, len(picks)

    def take_column(self, n):
        nullable = self.chance(0.5)
        picks = self.picks(n, nullable)
        return {'take': self.numbers(picks, nullable, 2)}, len(picks)

    def take_pieces(self, n):
        pieces = [self.piece(n) for _ in range(self.below(4))]
        total = sum(length for _, length, _ in pieces)
        return {'take': self.pieces(pieces, total)}, total

    def piece(self, n):
        """A start, a length and a multiplier, all of whose numbers are below n."""
        start = self.below(n) if n else self.choice((0, 7))
        multiplier = self.choice((0, 1, 1, 1, 2, 3))
        most = 0 if n == 0 else 5 if multiplier == 0 else (n - 1 - start) // multiplier + 1
        length = self.below(min(most, 6) + 1)
        if length == 0:
            return self.choice((start, MOST)), 0, self.choice((multiplier, MOST))
        return start, length, multiplier

    def pieces(self, pieces, total):
        parts = list(zip(*pieces)) or [(), (), ()]
        named = zip(('starts', 'lengths', 'multipliers'), parts)
        return {'pieces': {**{name: self.part(list(numbers)) for name, numbers in named}, 'len': total}}

    def part(self, numbers):
        """A part of pieces: a list, or a column of whole numbers from 0 on."""
        return numbers if self.chance(0.6) else self.numbers(numbers, False, 1, signed=False)

    # Broken steps.

    def broken(self, n):
        return self.choice((self.bad_range, self.bad_mask, self.bad_column, self.no_bools,
                            self.no_indices, self.past_the_end, self.past_the_end,
                            self.unsound, self.piece_past_the_end))(n)

    def bad_range(self, n):
        return {'slice': self.choice(([1, 0], [0, n + 1], [n + 1, n + 1], [n, MOST], [MOST, 0]))}

    def bad_mask(self, n):
        return {'filter': self.mask(self.bits(self.choice((n + 1, max(n - 1, 0), 0, 2 * n))))}

    def bad_column(self, n):
        bits = self.bits(self.choice((n + 1, max(n - 1, 0), 0, 2 * n)))
        return {'filter_by': self.column(Type(Bool(), self.chance(0.5)), bits, 2)}

    def no_bools(self, n):
        type_ = typed(self.flat_kind(), self.chance(0.5))
        return {'filter_by': self.column(type_, self.rows(type_, self.choice((0, n))), 2)}

    def no_indices(self, n):
        type_ = typed(self.flat_kind(), self.chance(0.5))
        return {'take': self.column(type_, self.rows(type_, self.choice((0, 1, n))), 2)}

    def past_the_end(self, n):
        """Picks of which one is no position."""
        picks = self.picks(n, self.chance(0.5))
        for _ in range(1 + self.below(2)):
            bad = self.choice((n, n, n + 1, -1, -1, -128, -2 ** 63, 2 ** 63 - 1, 255, MOST))
            picks.insert(self.below(len(picks) + 1), bad)
        names = fitting_types(picks)
        if not names:
            return self.past_the_end(n)
        if 'i64' in names and self.chance(0.4):
            return {'take': picks}
        nullable = None in picks or self.chance(0.4)
        return {'take': self.column(Type(Primitive(self.choice(names)), nullable), picks, 2)}

    def unsound(self, n):
        pieces = [self.piece(n) for _ in range(1 + self.below(3))]
        total = sum(length for _, length, _ in pieces)
        if self.chance(0.5):
            return {'take': self.pieces(pieces, self.choice((total + 1, max(total - 1, 0))))}
        bad = self.choice(((MOST, 2, 1), (1, 2, MOST), (0, MOST, 0), (2 ** 63, 3, 2 ** 62),
                           (MOST, 1, MOST), (0, 2, MOST)))
        pieces.insert(self.below(len(pieces) + 1), bad)
        return {'take': self.pieces(pieces, min(total + bad[1], 1000))}

    def piece_past_the_end(self, n):
        pieces = [self.piece(n) for _ in range(self.below(3))]
        bad = self.choice(((n, 1, 0), (MOST, 1, 1), (0, n + 1, 1), (0, 2, max(n, 1)), (MOST, 2, 0)))
        pieces.insert(self.below(len(pieces) + 1), bad)
        return {'take': self.pieces(pieces, sum(length for _, length, _ in pieces))}
