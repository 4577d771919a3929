"""Pages of tables that hurt: many long columns, a page far behind, pages past every row, and steps that list all rows."""
from documents import MOST_ROWS
from lists import every, odd, ramp, right, text
from structs import MANY, struct

LAST = 2**32 - 1
COLUMNS = 100


def table(columns, rows, *steps):
    return text(struct([f'c{k}' for k in range(columns)], [ramp(rows)] * columns, rows), *steps)


def page(name, words, make, seconds, mib, **more):
    return right(name, make, words=f'page {words}', seconds=seconds, mib=mib, **more)


DOCUMENTS = [
    page('page 3 of 10 rows of 100 columns of 16,777,216 rows, sliced', '3 10',
         lambda: table(COLUMNS, MOST_ROWS, {'slice': [5, MOST_ROWS]}), 4, 2560),
    page('the last page of 10 rows of a column of 16,777,216 rows', '1677721 10', lambda: table(1, MOST_ROWS), 1, 128),
    page('the last page that words can name', f'{LAST} {LAST}', lambda: table(COLUMNS, MANY), 1, 128),
    page('page 0 of as many rows as words can name', f'0 {LAST}', lambda: table(1, MOST_ROWS), 6, 512),
    page('a page behind a filter of 16,777,216 rows', '9 10',
         lambda: table(1, MOST_ROWS, {'filter': {'len': MOST_ROWS, 'runs': [[1, MOST_ROWS - 1]]}}), 2, 512),
    page('a page of 16,777,216 nulls that are taken of 100 columns', '100 100',
         lambda: table(COLUMNS, MANY, every(None)), 2, 512),
    page('a page of 100,000 fields of no rows, of 100,000 nulls', '7 10',
         lambda: text(struct([f'f{k}' for k in range(MANY)], [ramp(0)] * MANY, 0), every(None, MANY)), 5, 1024),
]
