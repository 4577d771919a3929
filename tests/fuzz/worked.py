"""Compares the evaluator with the rows of `crates/rows_of_documents`: words and documents, each with its answer.

A row's source may fail at the calls that it names, and its sink likewise: each read and each write
moves at most so many bytes, a read of none ends the document, and `finish` follows the last write.
"""
from pathlib import Path

import program

READING_FAILED, WRITING_FAILED = 4, 5
ROWS = Path(__file__).resolve().parents[2] / 'crates/rows_of_documents/stdin'


def rows(path):
    """Each row with the lines below it."""
    row, told = None, []
    for line in path.read_text(encoding='utf-8').split('\n')[:-1]:
        if line.startswith('='):
            told.append(line)
            continue
        if row is not None:
            yield row, told
        row, told = (None if line.startswith('#') else line), []
    if row is not None:
        yield row, told


def pieces(length, piece):
    """How many calls move so many bytes."""
    return -(-length // piece)


def given(row):
    """What a row gives, as lines."""
    words, piece, reads, writes, data = row.split('|', 4)
    words, piece, data = words.split(), int(piece), data.encode('utf-8')
    reads, writes = ([int(number) for number in field.split()] for field in (reads, writes))
    answer = program.answer(words, data)
    does_read = words[:1] != ['made'] and answer.status != program.WRONG_WORDS
    if does_read and any(call <= pieces(len(data), piece) for call in reads):
        return [f'= {READING_FAILED}']
    failed = [call for call in writes if call <= pieces(len(answer.text), piece)]
    if failed and answer.status in (program.DONE, program.BROKEN):
        written = answer.text[:min(failed) * piece]
        return lines(answer._replace(status=WRITING_FAILED, text=written))
    return lines(answer)


def lines(answer):
    *whole, rest = answer.text.decode('ascii').split('\n')
    shown = [f'= {answer.status}'] + [f'= {line}' if line else '=' for line in whole]
    if rest:
        shown.append(f'=\\ {rest}')
    return shown + [trace_line(entry) for entry in answer.trace]


def trace_line(entry):
    if entry == 'header':
        return '=? block 0'
    if isinstance(entry, int):
        return f'=? block {entry}'
    chunk, n = entry
    return f'=? {"all" if n is None else n} of {chunk}'


def compare():
    """Prints each row that gives other lines, and whether there was none."""
    agreed = differed = 0
    for row, told in rows(ROWS):
        shown = given(row)
        if shown == told:
            agreed += 1
            continue
        differed += 1
        print(f'{row[:2000]}\n  must give {told[:20]}\n  evaluator {shown[:20]}')
    print(f'worked: {agreed} agreed, {differed} differed')
    return differed == 0
