"""Flat columns and chunks that hurt: dictionaries of lazy filters over all rows there may be, steps that name all rows again
and again, and steps without number."""
from documents import MOST_ROWS, Document

# How deep lazy layouts nest.
DEEP = 50
# How many steps a document of takes has.
TAKES = 300_000


def ramp(rows):
    return {'layout': 'Primitive', 'type': 'u32', 'ramp': rows}


def all_of(rows):
    """A mask that keeps all rows."""
    return {'len': rows, 'every': True}


def lazy(depth, rows):
    """Dictionaries by ramps of codes over filters that keep all, so many layouts deep."""
    column = ramp(rows)
    for k in range(depth):
        column = {'layout': 'Filter', 'child': column, 'mask': all_of(rows)}
        if k % 2:
            column = {'layout': 'Dict', 'codes': ramp(rows), 'values': column}
    return column


def chunks(rows, steps):
    return {'chunks': {'type': 'u32', 'offset': 0, 'len': rows, 'ramp': rows}, 'steps': steps}


def all_rows_again(rows):
    """Steps that each name all rows, and then ten of them."""
    return [{'filter': all_of(rows)}, {'slice': [0, rows]}, {'take': ramp(rows)}, {'slice': [0, 10]}]


DOCUMENTS = [
    Document('dictionaries and filters 50 deep, five rows', lambda: {
        'column': lazy(DEEP, MOST_ROWS), 'steps': [{'slice': [0, 5]}]},
        seconds=9, mib=3072, printed=14, back=b'\n3\n4\n'),
    Document('chunks, steps that name all rows, ten rows', lambda: chunks(MOST_ROWS, all_rows_again(MOST_ROWS)),
             seconds=2, mib=640, printed=42, back=b'calls: Only(0,10)\n'),
    Document('300,000 takes of three rows', lambda: {
        'column': ramp(3), 'steps': [{'take': [2, 1, 0]}] * TAKES},
        seconds=3, mib=768, printed=10, back=b'\n0\n1\n2\n'),
]
