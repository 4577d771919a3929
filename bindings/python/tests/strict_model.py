"""The rules that Arrow's full validators add, read from the format's text in plain Python, and columns
that break them.
"""

import struct

from producer import Made
from vortex_select._reading import letters_of
from vortex_select._types import ids_of


def _bytes(data):
    return b"" if data is None else memoryview(data).tobytes()


def _numbers(data, letter):
    data, size = _bytes(data), struct.calcsize("<" + letter)
    return struct.unpack(f"<{len(data) // size}{letter}", data[: len(data) // size * size])


def is_null(of, made, row):
    """Whether a row, counted from the offset, is null."""
    at = made.offset + row
    if of.format == "n" or of.format[:2] == "+u" or made.buffers[0] is None:
        return of.format == "n"
    return not _bytes(made.buffers[0])[at // 8] >> at % 8 & 1


def _holds_views(made, rows):
    views, blocks = _bytes(made.buffers[1]), list(map(_bytes, made.buffers[2:-1]))
    for row in rows:
        view = views[16 * row : 16 * row + 16]
        size, prefix, which, at = struct.unpack("<i4sii", view)
        if 0 <= size <= 12:
            if any(view[4 + size :]):
                return False
        elif size < 0 or not 0 <= which < len(blocks) or at < 0 or at + size > len(blocks[which]):
            return False
        elif blocks[which][at : at + 4] != prefix:
            return False
    return True


def _holds_dense(of, made, rows):
    ids, offsets, last = ids_of(of.format), _numbers(made.buffers[1], "i"), {}
    for row in rows:
        which = _bytes(made.buffers[0])[row]
        if not last.get(which, 0) <= offsets[row] < made.children[ids.index(which)].length:
            return False
        last[which] = offsets[row]
    return True


def _holds_map(of, made, rows):
    entries, offsets = made.children[0], _numbers(made.buffers[1], "i")
    pair, span = of.children[0][1], range(offsets[rows.start], offsets[rows.stop]) if rows else ()
    keys, of_keys = entries.children[0], pair.children[0][1]
    nulls = (is_null(pair, entries, k) or is_null(of_keys, keys, entries.offset + k) for k in span)
    return len(pair.children) == 2 and not any(nulls)


def is_strict(of, made):
    """Whether a column obeys the rules, with its children and its dictionary."""
    form, rows = of.format, range(made.offset, made.offset + made.length)
    if made.null_count not in (-1, sum(is_null(of, made, row) for row in range(made.length))):
        return False
    if of.dictionary is not None:
        codes, inner = _numbers(made.buffers[1], letters_of(form)), made.dictionary
        known = all(0 <= codes[k] < inner.length or is_null(of, made, k - made.offset) for k in rows)
        return known and is_strict(of.dictionary, inner)
    if form in ("vu", "vz") and not _holds_views(made, rows):
        return False
    if form[:3] == "+ud" and not _holds_dense(of, made, rows):
        return False
    if form == "+m" and not _holds_map(of, made, rows):
        return False
    if form[:2] == "+v":
        starts, sizes = (_numbers(data, "q" if form == "+vL" else "i") for data in made.buffers[1:])
        if not all(min(starts[k], sizes[k]) >= 0 for k in rows):
            return False
        if not all(starts[k] + sizes[k] <= made.children[0].length for k in rows):
            return False
    return all(is_strict(child, below) for (_, child), below in zip(of.children, made.children))


def _with(data, dice, letter, number):
    """Return a buffer with another number in one place."""
    numbers = list(_numbers(data, letter))
    if numbers:
        numbers[dice.randrange(len(numbers))] = number
    return struct.pack(f"<{len(numbers)}{letter}", *numbers)


def damaged(dice, of, made):
    """Return a column with one number changed, in itself or in what is below it."""
    children, inner = list(made.children), made.dictionary
    if (children or inner) and dice.random() < 0.7:
        k = dice.randrange(len(children) + (inner is not None))
        if k == len(children):
            return made._replace(dictionary=damaged(dice, of.dictionary, inner))
        children[k] = damaged(dice, of.children[k][1], children[k])
        return made._replace(children=children)
    buffers, form, count = list(made.buffers), of.format, made.null_count
    if dice.random() < 0.2 or form == "n":
        return made._replace(null_count=dice.choice([-2, -1, 0, 1, made.length, count + 1]))
    if form[:2] != "+u" and buffers[0] is not None and dice.random() < 0.5:
        at = dice.randrange(8 * len(buffers[0])) if len(buffers[0]) else None
        bits = bytearray(buffers[0])
        if at is not None:
            bits[at // 8] ^= 1 << at % 8
        return made._replace(buffers=[bytes(bits), *buffers[1:]], null_count=dice.choice([-1, -1, count]))
    if form in ("vu", "vz"):
        buffers[1] = _with(buffers[1], dice, "B", dice.choice([0, 1, 12, 13, 255]))
    elif form[:2] == "+v":
        number, part = dice.choice([-1, 0, 1, 2, children[0].length]), dice.randrange(1, 3)
        buffers[part] = _with(buffers[part], dice, "q" if form == "+vL" else "i", number)
    elif form[:3] == "+ud":
        buffers[1] = _with(buffers[1], dice, "i", dice.choice([0, 0, 1, 2]))
    elif inner is not None:
        letter = letters_of(form)
        buffers[1] = _with(buffers[1], dice, letter, dice.choice([0, inner.length, 127]))
    return Made(made.length, count, made.offset, buffers, children, inner)
