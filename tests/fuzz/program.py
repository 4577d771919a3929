"""What the program answers: its words, the text that it prints, its statuses and its trace.

Written from docs/PROGRAM.md, docs/DOCUMENT.md and docs/DEFINITIONS.md.
"""
import re
from typing import NamedTuple

import blocks
import document
import json_text
import model
import steps

DONE, BROKEN, MALFORMED, WRONG_WORDS, TOO_LONG = 0, 1, 2, 3, 7
MOST_BYTES = 16_777_216
NUMBER = re.compile(r'[0-9]{1,10}')


class Answer(NamedTuple):
    """The status, what is printed, and the calls and reads that are left in the trace."""
    status: int
    text: bytes = b''
    trace: tuple = ()


def answer(words, data):
    """The answer to words and to what standard input holds."""
    command = command_of(words)
    if command is None:
        return Answer(WRONG_WORDS)
    if command[0] == 'made':
        return Answer(DONE, made_text(command[1]))
    if len(data) > MOST_BYTES:
        return Answer(TOO_LONG)
    try:
        return READERS[command[0]](json_text.read(data), *command[1:])
    except (json_text.NoValue, model.NoMeaning):
        return Answer(MALFORMED)
    except steps.Broken as broken:
        return Answer(BROKEN, f'{broken}\n'.encode())


def command_of(words):
    """The command that words name, and its numbers; None where they name none."""
    if words in (['rows'], ['file']):
        return tuple(words)
    numbers = [number_named(word) for word in words[1:]]
    if words[:1] == ['made'] and len(numbers) == 1 and None not in numbers:
        return ('made', *numbers)
    if words[:1] == ['page'] and len(numbers) == 2 and None not in numbers and numbers[1] != 0:
        return ('page', *numbers)
    return None


def number_named(word):
    """The number that one to ten digits write, where it is below 2^32."""
    if NUMBER.fullmatch(word) and int(word) < 2 ** 32:
        return int(word)
    return None


# The commands.

def answer_rows(value):
    read = document.document_of(value)
    if isinstance(read.source, document.Chunks):
        return answer_chunks(read)
    column = read.source
    picks = steps.walk(len(column.rows), read.steps)
    type_ = steps.type_after(column.type, read.steps)
    return Answer(DONE, text(type_, steps.at(None, column.rows, picks)))


def answer_chunks(read):
    column, offset = read.source
    picks = steps.walk(len(column.rows), read.steps)
    type_ = steps.type_after(column.type, read.steps)
    calls = steps.asked(offset, picks, sparse_limit(column.type.kind, read.policy))
    printed = text(type_, steps.at(None, column.rows, picks)) + calls_text(calls)
    return Answer(DONE, printed, tuple(calls))


def sparse_limit(kind, limits):
    """The greatest number of a chunk's values that are asked for by number, by their width."""
    width = kind.width if isinstance(kind, model.Decimal) else model.WIDTHS[kind.name]
    return limits.get(f'sparse_w{width}', limits['sparse_other'])


def answer_page(value, page, length):
    read = document.document_of(value)
    table = read.source
    is_table = isinstance(table, model.Column) and table.layout == 'Struct'
    model.refuse_unless(is_table and not table.type.nullable, 'no table')
    picks = steps.walk(len(table.rows), read.steps)
    kind = table.type.kind
    types = tuple(steps.type_after(type_, read.steps) for type_ in kind.types)
    nulls = (None,) * len(types)
    rows = steps.at(nulls, table.rows, picks[page * length:(page + 1) * length])
    return Answer(DONE, text(model.Type(model.Struct(kind.names, types), False), rows))


def answer_file(value):
    read = document.file_document_of(value)
    shape = blocks.shape_in(read.source[0]) if read.source else None
    model.refuse_unless(shape, 'no header')
    name, length = shape
    picks = steps.walk(length, read.steps)
    width, rows = model.WIDTHS[name], {}
    touched = sorted({pick // blocks.CHUNK for pick in picks if pick is not None})
    for block in touched:
        rows[block] = numbers_of_block(read.source, block + 1, width)
    type_ = steps.type_after(model.Type(model.Primitive(name), False), read.steps)
    shown = [None if pick is None else
             model.record_of(width, rows[pick // blocks.CHUNK][pick % blocks.CHUNK])
             for pick in picks]
    reads = [block + 1 for block in touched]
    line = ''.join(f' {block}' for block in reads)
    return Answer(DONE, text(type_, shown) + f'reads:{line}\n'.encode(), ('header', *reads))


def numbers_of_block(listed, block, width):
    model.refuse_unless(block < len(listed), 'a block that is not there')
    numbers = blocks.numbers_in(listed[block], width)
    model.refuse_unless(numbers is not None, 'a damaged block')
    return numbers


READERS = {'rows': answer_rows, 'page': answer_page, 'file': answer_file}


def draws(n, state):
    """So many draws from a state on."""
    drawn = []
    for _ in range(n):
        state = (state * 6364136223846793005 + 1442695040888963407) % 2 ** 64
        drawn.append(state >> 33)
    return drawn


def made_text(seed):
    """The line that a number gives."""
    n = 1000 + seed % 999001
    drawn = draws(n + (n - 20) + 500, seed)
    rows, bit_draws, index_draws = drawn[:n], drawn[n:-500], drawn[-500:]
    kept = [row for i, (row, bit) in enumerate(zip(rows[10:n - 10], bit_draws))
            if i == 0 or bit % 4 != 0]
    taken = [None if draw % 10 == 0 else kept[draw // 10 % len(kept)] for draw in index_draws]
    total = sum(row for row in taken if row is not None)
    return f'made {seed} rows {len(taken)} nulls {taken.count(None)} sum {total}\n'.encode()


# The text.

def text(type_, rows):
    """The type's line and a line a row."""
    lines = [type_text(type_)] + [row_text(type_.kind, row) for row in rows]
    return ''.join(f'{line}\n' for line in lines).encode('ascii')


def calls_text(calls):
    listed = [f' Whole({chunk})' if n is None else f' Only({chunk},{n})' for chunk, n in calls]
    return f'calls:{"".join(listed)}\n'.encode()


def quoted(data):
    """A text between quotation marks."""
    plain = (chr(byte) if 0x20 <= byte <= 0x7e and byte not in b'"\\' else f'\\x{byte:02x}'
             for byte in data)
    return f'"{"".join(plain)}"'


def quoted_name(name):
    return quoted(name.encode('utf-8'))


def type_text(type_):
    """A type with its mark: `?` behind a nullable one other than null."""
    marked = type_.nullable and type_.kind != model.Null()
    return kind_text(type_.kind) + ('?' if marked else '')


def kind_text(kind):
    if isinstance(kind, (model.Primitive, model.Text)):
        return kind.name
    if isinstance(kind, model.Decimal):
        return f'decimal({kind.precision},{kind.scale},{kind.width})'
    if isinstance(kind, model.List):
        return f'list({type_text(kind.element)})'
    if isinstance(kind, model.Fixed):
        return f'fixed({type_text(kind.element)}, {kind.size})'
    if isinstance(kind, model.Map):
        return f'map({", ".join(type_text(type_) for type_ in kind.entry.types)})'
    if isinstance(kind, model.Struct):
        return f'struct{{{", ".join(named_types(kind.names, kind.types))}}}'
    if isinstance(kind, model.Union):
        named = named_types(kind.names, kind.types)
        return f'union{{{", ".join(f"{id_} {part}" for id_, part in zip(kind.ids, named))}}}'
    if isinstance(kind, model.Extension):
        return f'ext({quoted_name(kind.name)}, {kind_text(kind.storage)})'
    return {model.Null(): 'null', model.Bool(): 'bool'}[kind]


def named_types(names, types):
    return [f'{quoted_name(name)}: {type_text(type_)}' for name, type_ in zip(names, types)]


def row_text(kind, row):
    if row is None:
        return 'null'
    if isinstance(kind, model.Extension):
        return row_text(kind.storage, row)
    if isinstance(kind, (model.List, model.Fixed, model.Map)):
        inner = kind.entry if isinstance(kind, model.Map) else kind.element.kind
        return f'[{", ".join(row_text(inner, item) for item in row)}]'
    if isinstance(kind, model.Struct):
        parts = (f'{quoted_name(name)}: {row_text(type_.kind, part)}'
                 for name, type_, part in zip(kind.names, kind.types, row))
        return f'{{{", ".join(parts)}}}'
    if isinstance(kind, model.Union):
        return f'{row.id}:{row_text(kind.types[kind.ids.index(row.id)].kind, row.row)}'
    if kind == model.Bool():
        return 'true' if row else 'false'
    return bytes_text(kind, row)


def bytes_text(kind, row):
    if kind == model.Text('utf8'):
        return quoted(row)
    if isinstance(kind, model.Primitive) and kind.name in model.INTEGERS:
        return str(model.number(kind.name, row))
    return f'0x{row.hex()}'
