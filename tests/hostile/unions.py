"""Documents of unions that hurt: 256 variants, rows that each name another variant than the row before, offsets that show one
row a million times, and unions in unions."""
from documents import MOST_ROWS
from lists import back, every, odd, ramp, right, text
from structs import BRACKETS, MANY, MILLION

VARIANTS = 256


def variants(count):
    return [{'id': k, 'name': f'v{k}'} for k in range(count)]


def union(ids, children, offsets=None, **more):
    column = {'layout': 'Union', 'type_ids': ids, 'variants': variants(len(children)), 'children': children, **more}
    if offsets is not None:
        column |= {'offsets': offsets, 'offset_type': 'u32'}
    return column


def sparse(count, rows):
    """Each row is of another variant than the row before: the ids go through all of them."""
    return union(ramp(rows), [ramp(rows)] * count)


def dense(rows):
    """The same of 256 variants, by offsets that go through their rows from the last on."""
    return union(ramp(rows), [ramp(rows)] * VARIANTS, list(range(rows - 1, -1, -1)))


def same_row(rows):
    """One row, shown so many times."""
    return union({'layout': 'Constant', 'type': 'u8', 'value': 0, 'len': rows}, [ramp(1)], [0] * rows)


def unions_within(depth, rows):
    """Unions of one variant each, `depth` deep."""
    column = ramp(rows)
    for _ in range(depth):
        column = union({'layout': 'Constant', 'type': 'u8', 'value': 0, 'len': rows}, [column])
    return column


def shrinking(depth, rows):
    """Dictionaries of unions whose codes are filters that lose a row each time."""
    left = rows
    column = sparse(VARIANTS, left)
    for _ in range(depth):
        codes = {'layout': 'Filter', 'mask': {'len': left, 'runs': [[0, left - 1]]},
                 'child': {'layout': 'Primitive', 'type': 'u32', 'ramp': left}}
        left -= 1
        column = union({'layout': 'Constant', 'type': 'u8', 'value': 0, 'len': left},
                       [{'layout': 'Dict', 'codes': codes, 'values': column}])
    return column


STEPS = (('', ()), (', filtered and taken', (odd(MANY), back(MANY // 2))))
DEEPEST = (BRACKETS - 2) // 2
DOCUMENTS = [
    *(right(f'256 variants of 100,000 rows, each row of another than the row before{told}',
            lambda steps=steps: text(sparse(VARIANTS, MANY), *steps), seconds=1, mib=128)
      for told, steps in STEPS),
    *(right(f'the same by offsets that fall{told}', lambda steps=steps: text(dense(MANY), *steps), seconds=1, mib=128)
      for told, steps in STEPS),
    right('256 variants of no rows, and 100,000 nulls of it', lambda: text(sparse(VARIANTS, 0), every(None, MANY)),
          seconds=1, mib=128),
    right('a million offsets of one row', lambda: text(same_row(MILLION)), seconds=1, mib=128),
    right('and taken from the last row on', lambda: text(same_row(MILLION), back(MILLION)), seconds=1, mib=192),
    right('one constant id over 16,777,216 rows',
          lambda: text(union({'layout': 'Constant', 'type': 'u8', 'value': 0, 'len': MOST_ROWS}, [ramp(MOST_ROWS)])),
          seconds=3, mib=256),
    *(right(f'unions {depth} deep over 100,000 rows{told}',
            lambda depth=depth, steps=steps: text(unions_within(depth, MANY), *steps), seconds=2, mib=128)
      for depth in (1, 10, 60)
      for told, steps in STEPS),
    right('unions as deep as brackets may nest', lambda: text(unions_within(DEEPEST, 3)), seconds=1, mib=128),
    *(right(f'unions of dictionaries by lazy codes {depth} deep over 100,000 rows',
            lambda depth=depth: text(shrinking(depth, MANY)), seconds=6, mib=320)
      for depth in (1, 10, 30)),
]
