"""Documents of structs, maps and extensions that hurt: many fields, deep nesting, a map of a million rows, and dictionaries
of structs whose codes are lazy."""
from documents import MOST_ROWS
from lists import back, every, fixed, odd, ramp, right, text

MANY = 100_000
MILLION = 1_000_000
# How deep brackets may nest in a document.
BRACKETS = 127


def struct(names, fields, rows):
    return {'layout': 'Struct', 'len': rows, 'names': names, 'fields': fields}


def many_fields(count, rows, *steps):
    """A struct of so many fields."""
    names = [f'f{k}' for k in range(count)]
    return text(struct(names, [ramp(rows)] * count, rows), *steps)


def type_of(count):
    """How many bytes the line of its type has, but for its mark."""
    return len('struct{}\n') + sum(len(f'"f{k}": u8') for k in range(count)) + 2 * (count - 1)


def structs_within(depth, rows):
    """Structs of one field each, `depth` deep."""
    column = ramp(rows)
    for _ in range(depth):
        column = struct(['x'], [column], rows)
    return column


def mixed_within(depth, rows):
    """Structs of one list of one element, in turn."""
    column = ramp(rows)
    for k in range(depth):
        column = struct(['x'], [column], rows) if k % 2 else fixed(1, rows, column)
    return column


def deepest(make):
    """As deep as brackets may nest: two a struct, one for a list, two around the column."""
    depth = {structs_within: (BRACKETS - 2) // 2, mixed_within: (BRACKETS - 2) * 2 // 3}[make]
    return make(depth, 3)


def maps(rows):
    """Maps of one entry each."""
    entries = struct(['k', 'v'], [ramp(rows), ramp(rows)], rows)
    return {'layout': 'Map', 'entries': {'layout': 'ListView', 'offsets': list(range(rows)), 'sizes': [1] * rows,
                                         'elements': entries}}


def shrinking(depth, rows):
    """Dictionaries of structs whose codes are filters that lose a row each time."""
    left = rows
    column = struct(['x'], [ramp(left)], left)
    for _ in range(depth):
        codes = {'layout': 'Filter', 'mask': {'len': left, 'runs': [[0, left - 1]]},
                 'child': {'layout': 'Primitive', 'type': 'u32', 'ramp': left}}
        left -= 1
        column = struct(['y'], [{'layout': 'Dict', 'codes': codes, 'values': column}], left)
    return column


def extensions_within(depth, rows):
    column = ramp(rows)
    for k in range(depth):
        column = {'layout': 'Extension', 'name': f'e{k}', 'storage': column}
    return column


NULLS = 5 * MANY
DOCUMENTS = [
    right('100,000 fields of no rows', lambda: many_fields(MANY, 0), seconds=2, mib=384, printed=type_of(MANY)),
    right('and 100,000 nulls of it', lambda: many_fields(MANY, 0, every(None, MANY)), seconds=2, mib=384,
          printed=type_of(MANY) + 1 + NULLS),
    right('100,000 fields of a row, and 1,000 nulls of it', lambda: many_fields(MANY, 1, every(None, 1000)),
          seconds=3, mib=512, printed=type_of(MANY) + 1 + 5 * 1000),
    *(right(f'{name} as deep as brackets may nest{told}', lambda make=make, steps=steps: text(deepest(make), *steps),
            seconds=1, mib=128)
      for name, make in (('structs', structs_within), ('structs of lists', mixed_within))
      for told, steps in (('', ()), (', filtered and taken', ({'filter': '101'}, {'take': [1, None, 0]})))),
    *(right(f'structs {depth} deep over 100,000 rows{told}',
            lambda depth=depth, steps=steps: text(structs_within(depth, MANY), *steps), seconds=10, mib=2048)
      for depth in (1, 10, 60)
      for told, steps in (('', ()), (', filtered and taken', (odd(MANY), back(MANY // 2))))),
    right('a map of a million rows', lambda: text(maps(MILLION)), seconds=10, mib=2048),
    right('and taken from the last row on', lambda: text(maps(MILLION), back(MILLION)), seconds=10, mib=2048),
    *(right(f'dictionaries of structs by lazy codes {depth} deep over 100,000 rows',
            lambda depth=depth: text(shrinking(depth, MANY)), seconds=10, mib=2048)
      for depth in (1, 10, 30)),
    *(right(f'dictionaries of structs by lazy codes {depth} deep over 100,000 rows, taken',
            lambda depth=depth: text(shrinking(depth, MANY), back(MANY - depth)), seconds=10, mib=2048)
      for depth in (1, 10, 30)),
    right('extensions 120 deep over 16,777,216 rows', lambda: text(extensions_within(120, MOST_ROWS)), seconds=2,
          mib=192),
]
