"""Texts that hurt: one of some megabytes that is picked many times or stands for every row, in a dictionary, in a name, and
list views that show the same text of lists again and again."""
from documents import MOST_ROWS, Document
from lists import constant, ramp

LONG = 1_000_000
WANTING = {'status': 6, 'seconds': 7, 'mib': 3072, 'printed': 0}
# A column of text is given up once 64 MiB of it are printed.
EARLY = {**WANTING, 'seconds': 1.5, 'mib': 768}


def of_one(values):
    """Every row that there may be, each the one value."""
    return {'column': {'layout': 'Dict', 'codes': constant('u8', 0, MOST_ROWS), 'values': values}, 'steps': []}


def views(count, elements):
    """List views that each show all elements."""
    return {'layout': 'ListView', 'offsets': [0] * count, 'sizes': [count] * count, 'elements': elements}


def named(rows):
    """Structs of one field with a long name."""
    return {'column': {'layout': 'Struct', 'len': rows, 'names': ['n' * LONG], 'fields': [{'layout': 'Null', 'len': rows}]},
            'steps': []}


DOCUMENTS = [
    Document('a text of 12 MB, picked 1,000 times', lambda: {
        'column': {'layout': 'VarBinView', 'type': 'utf8', 'values': ['w' * 12 * LONG]}, 'steps': [{'take': [0] * 1000}]},
        **EARLY),
    Document('a text of 4 MB, picked 10,000 times', lambda: {
        'column': {'layout': 'VarBin', 'type': 'utf8', 'values': ['x' * 4 * LONG]}, 'steps': [{'take': [0] * 10_000}]},
        **EARLY),
    Document('a constant of 1 MB for every row', lambda: {
        'column': constant('utf8', 'y' * LONG, MOST_ROWS), 'steps': []}, **EARLY),
    Document('a dictionary of one text for every row', lambda: of_one(
        {'layout': 'VarBinView', 'type': 'utf8', 'values': ['z' * (LONG // 10)]}), **EARLY),
    Document('a dictionary of one list for every row', lambda: of_one(
        {'layout': 'ListView', 'offsets': [0], 'sizes': [LONG // 10], 'elements': ramp(LONG // 10)}), **WANTING),
    Document('views of views of views, the first', lambda: {
        'column': views(1000, views(1000, views(1000, ramp(1000)))), 'steps': [{'slice': [0, 1]}]}, **WANTING),
    Document('structs with a name of 1 MB', lambda: named(MOST_ROWS), **WANTING),
    Document('a page of structs with a name of 1 MB', lambda: named(MOST_ROWS), words='page 100 3', seconds=1, mib=64,
             printed=4 * LONG + 50),
]
