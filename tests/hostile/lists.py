"""Documents of lists that hurt: views that overlap, one list taken many times, deep nesting, empty lists, and filler."""
from documents import MOST_ROWS, Document, spelled

MILLION = 1_000_000
LONGEST = 2**32 - 1
DEEP = 60
WIDE = 100_000


def ramp(rows):
    return {'layout': 'Primitive', 'type': 'u8', 'ramp': rows}


def constant(kind, value, rows):
    return {'layout': 'Constant', 'type': kind, 'nullable': value is None, 'value': value, 'len': rows}


def every(value, rows=MOST_ROWS):
    """The same row so many times: nulls, or the row of this number."""
    return {'take': constant('u32', value, rows)}


def lists(offsets, elements):
    return {'layout': 'List', 'offsets': offsets, 'elements': elements}


def fixed(size, rows, elements):
    return {'layout': 'FixedSizeList', 'size': size, 'len': rows, 'elements': elements}


# Columns of so many rows in few bytes.
FLAT = {
    'null': lambda rows: {'layout': 'Null', 'len': rows},
    'u8': ramp,
    'bool': lambda rows: constant('bool', True, rows),
    'utf8': lambda rows: constant('utf8', 'ab', rows),
    'list': lambda rows: fixed(1, rows, ramp(rows)),
    'dict': lambda rows: {'layout': 'Dict', 'codes': constant('u8', 0, rows), 'values': lists([0, 2], ramp(2))},
}


def flat(kind, rows):
    return FLAT[kind](rows)


def text(column, *steps):
    return spelled({'column': column, 'steps': list(steps)})


def overlapping(kind, *steps):
    """A million views, each of the same million elements."""
    return text({'layout': 'ListView', 'offsets': [0] * MILLION, 'sizes': [MILLION] * MILLION,
                 'elements': flat(kind, MILLION)}, *steps)


def repeated(kind, *steps):
    """One list of as many rows as there may be, taken as many times."""
    return text(lists([0, MOST_ROWS], flat(kind, MOST_ROWS)), every(0), *steps)


def fixed_within(depth, rows):
    """Lists of one element each, `depth` deep."""
    column = ramp(rows)
    for _ in range(depth):
        column = fixed(1, rows, column)
    return column


def lists_within(depth, rows):
    """The same of lists that offsets cut: each row is one list further in."""
    column = ramp(rows)
    for _ in range(depth):
        column = lists(list(range(rows + 1)), column)
    return column


def views_within(depth, rows):
    """The same of views, the last row first, under a validity."""
    column = ramp(rows)
    for _ in range(depth):
        column = {'layout': 'ListView', 'offsets': list(range(rows))[::-1], 'sizes': [1] * rows,
                  'offset_type': 'u32', 'elements': column}
    return column


def lazy_within(depth, rows):
    """Lists of one element, each of them under a dictionary and a filter that keeps all but the first."""
    column = ramp(rows + depth)
    for k in range(depth):
        left = rows + depth - k
        column = {'layout': 'Filter', 'mask': {'len': left, 'runs': [[1, left]]},
                  'child': fixed(1, left, column)}
    return column


def wide(fields, rows):
    """Structs of so many fields of bytes."""
    return {'layout': 'Struct', 'len': rows, 'names': [f'f{k}' for k in range(fields)],
            'fields': [ramp(rows)] * fields}


def coded(rows):
    """The numbers of a ramp of bytes, by a dictionary of as many codes."""
    return {'layout': 'Dict', 'codes': ramp(rows), 'values': ramp(256)}


def odd(rows):
    return {'filter': '01' * (rows // 2)}


def back(rows):
    return {'take': list(range(rows))[::-1]}


def filler(size, *steps, rows=MOST_ROWS, kind='u8'):
    """Nulls that are taken of a column of no rows."""
    return text(fixed(size, 0, flat(kind, 0)), every(None, rows), *steps)


def filler_within(depth, *steps):
    """The same of lists in lists of the longest size."""
    column = flat('u8', 0)
    for _ in range(depth):
        column = fixed(LONGEST, 0, column)
    return text(column, every(None), *steps)


ONE = {'slice': [7, 8]}


def ramp_row(rows):
    """`[0, 1, ..]` of a ramp of bytes."""
    return b'[' + b', '.join(b'%d' % (k % 256) for k in range(rows)) + b']\n'


def too_long(name, make, seconds=10, mib=9 << 10):
    """More than can be held: the whole answer, or its text."""
    return Document(name, make, status=6, seconds=seconds, mib=mib, printed=0)


def right(name, make, **more):
    return Document(name, make, **{'seconds': 5, 'mib': 1024, **more})


NULLS = 5 * MOST_ROWS
DOCUMENTS = [
    # a million views of the same million elements
    *(too_long(f'a million views of the same million {kind}', lambda kind=kind: overlapping(kind))
      for kind in ('null', 'u8', 'bool', 'utf8', 'list')),
    too_long('half of a million views of the same million u8', lambda: overlapping('u8', odd(MILLION))),
    right('one of a million views of the same million u8', lambda: overlapping('u8', ONE),
          seconds=2, front=b'list(u8)\n[0, 1, 2, ', printed=9 + len(ramp_row(MILLION))),
    right('one of a million views of the same million lists', lambda: overlapping('list', ONE),
          seconds=2, front=b'list(fixed(u8, 1))\n[[0], [1], ', printed=19 + len(ramp_row(MILLION)) + 2 * MILLION),

    # one list of 16,777,216 rows, 16,777,216 times
    *(too_long(f'16,777,216 times a list of 16,777,216 {kind}', lambda kind=kind: repeated(kind))
      for kind in ('null', 'u8', 'bool', 'utf8', 'list', 'dict')),

    # more elements than were ever taken at once, and each of them held
    right('4 times a list of 16,777,216 codes', lambda: text(lists([0, MOST_ROWS], coded(MOST_ROWS)), every(0, 4)),
          seconds=20, mib=2048, printed=9 + 4 * (1 + (len(ramp_row(256)) - 1) * (MOST_ROWS // 256))),

    # 10^12 cells of structs, by few picks of a short list
    too_long('1,000,000 times a list of 10 structs of 100,000 fields',
             lambda: text(lists([0, 10], wide(100_000, 10)), every(0, MILLION))),

    # deep
    *(right(f'{name} {depth} deep over {rows:,} rows{told}',
            lambda make=make, steps=steps, depth=depth, rows=rows: text(make(depth, rows), *steps(rows)),
            seconds=10, mib=2048)
      for name, make, depth, rows in (
          ('lists of one size', fixed_within, DEEP, WIDE),
          ('filtered lists of one size', lazy_within, DEEP // 2, WIDE),
          ('lists by offsets', lists_within, 20, WIDE),
          ('lists by offsets', lists_within, DEEP, 40_000),
          ('views', views_within, 17, WIDE))
      for told, steps in (
          ('', lambda rows: ()), (', filtered', lambda rows: (odd(rows),)), (', taken', lambda rows: (back(rows),)),
          (', filtered and taken', lambda rows: (odd(rows), back(rows // 2), odd(rows // 2))))),

    # empty
    *(right(f'{rows:,} lists of no elements{told}{done}',
            lambda rows=rows, count=count, steps=steps: text(lists([count] * (rows + 1), flat('u8', count)), *steps(rows)),
            seconds=3, mib=640, printed=9 + 3 * left(rows))
      for rows, count, told in ((2_000_000, 0, ''), (1_500_000, MILLION, ' in a million'))
      for done, steps, left in (
          ('', lambda rows: (), lambda rows: rows), (', filtered', lambda rows: (odd(rows),), lambda rows: rows // 2),
          (', taken 16,777,216 times', lambda rows: (every(5),), lambda rows: MOST_ROWS))),
    right('2,000,000 views of no elements', lambda: text(
        {'layout': 'ListView', 'offsets': [0] * 2_000_000, 'sizes': [0] * 2_000_000, 'elements': flat('u8', 0)}),
        printed=9 + 3 * 2_000_000),
    right('16,777,216 lists of size 0, taken as often', lambda: text(
        fixed(0, MOST_ROWS, flat('u8', 0)), every(5)),
        printed=13 + 3 * MOST_ROWS),

    # filler
    right('16,777,216 nulls of no list of the longest size', lambda: filler(LONGEST),
          front=b'fixed(u8, 4294967295)?\nnull\n', printed=23 + NULLS),
    right('the same of lists in lists', lambda: filler_within(2), printed=42 + NULLS),
    right('the same of lists 60 deep', lambda: filler_within(DEEP),
          printed=len('fixed(, 4294967295)') * DEEP + 4 + NULLS),
    right('the same, sliced', lambda: filler(LONGEST, {'slice': [5, MOST_ROWS]}), printed=23 + NULLS - 25),
    right('16,777,216 nulls of no list of 1,000', lambda: filler(1000), printed=17 + NULLS),
    right('the same of texts', lambda: filler(1000, kind='utf8'), printed=19 + NULLS),
]
