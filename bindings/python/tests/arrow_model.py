"""Columns of every supported type, laid out in memory as crookedly as Arrow's format allows, and what
steps leave of their rows, by plain Python.
"""

import decimal
import random
import struct
from array import array

from producer import column_of, made_array
from vortex_select import Bits, Filter, Slice, Take, column
from vortex_select._arrays import field_of_type
from vortex_select._building import is_of, lengths_of, offsets_of, packed, viewed
from vortex_select._reading import letters_of
from vortex_select._types import Type, decimal_of, ids_of

FLAT = """n b c C s S i I l L e f g w:0 w:1 w:3 w:40 d:9,2 d:20,-3 d:38,4,256 d:5,1,32 tdD tdm tts ttm
ttu ttn tss: tsm:UTC tsu: tsn:Europe/Rome tDs tDn tiM tiD tin u U z Z vu vu vz""".split()
NESTED = ["+s", "+l", "+L", "+m", "+w:", "+vl", "+vL", "+us:", "+ud:"]
IDS = (("0",), ("7",), ("0", "1"), ("127", "3"), ("0", "1", "2"), ("5", "0", "90"))
TEXTS = ("", "a", "bo", "ann", "twelve bytes", "thirteen byte", "a text of more than these", "é", "\U0001f600")


def random_bytes(dice, count):
    """Return bytes, as `randbytes` of Python 3.9 does."""
    return dice.getrandbits(8 * count).to_bytes(count, "little") if count else b""


def _holds_nulls_alone(of):
    return of.format == "n" or (of.dictionary is not None and _holds_nulls_alone(of.dictionary))


def random_key(dice):
    """A type of a map's keys, which are never null."""
    while True:
        of = random_type(dice, 0)
        if not _holds_nulls_alone(of):
            return of


def random_type(dice, depth):
    """A type that is nested so deep at the most."""
    if depth and dice.random() < 0.6:
        form = dice.choice(NESTED)
        if form == "+s":
            names = dice.sample(["a", "b", "id", "", "é", "x y"], dice.randrange(4))
            return Type(form, tuple((name, random_type(dice, depth - 1)) for name in names))
        if form[:2] == "+u":
            ids = dice.choice(IDS)
            fields = tuple((f"f{number}", random_type(dice, depth - 1)) for number in ids)
            return Type(form + ",".join(ids), fields)
        if form == "+m":
            pair = ("key", random_key(dice)), ("value", random_type(dice, depth - 1))
            return Type(form, (("entries", Type("+s", pair)),))
        if form == "+w:":
            form += str(dice.randrange(4))
        return Type(form, (("item", random_type(dice, depth - 1)),))
    if dice.random() < 0.15:
        return Type(dice.choice("cCsSiIlL"), (), random_type(dice, max(depth - 1, 0)))
    return Type(dice.choice(FLAT))


def _number(dice, letter):
    if letter in "efd":
        return dice.randrange(-64, 64) / 4
    bits = 8 * struct.calcsize("<" + letter)
    least = 0 if letter.isupper() else -(2 ** (bits - 1))
    return dice.choice([least, 2**bits + least - 1, dice.randrange(least, 2**bits + least)])


def _flat_row(dice, form):
    letters = letters_of(form)
    if letters:
        numbers = tuple(_number(dice, letter) for letter in letters)
        return numbers if len(letters) > 1 else numbers[0]
    if form[:2] == "d:":
        precision, scale, bits = decimal_of(form)
        number = dice.randrange(-(2 ** min(bits - 1, 3 * precision)), 2 ** min(bits - 1, 3 * precision))
        return decimal.Decimal((int(number < 0), tuple(map(int, str(abs(number)))), -scale))
    if form[:2] == "w:":
        return bytes(dice.randrange(256) for _ in range(int(form[2:])))
    text = dice.choice(TEXTS)
    data = text if form[-1] in "uU" else text.encode(dice.choice(["utf-8", "utf-16"]))
    return {"b": dice.random() < 0.5, "n": None}.get(form, data)


def random_row(dice, of, may_be_null=True):
    form = of.format
    if form[:2] == "+u":
        return random_row(dice, dice.choice(of.children)[1], may_be_null)
    if form == "n" or (may_be_null and dice.random() < 0.2):
        return None
    if of.dictionary is not None:
        # One of a few, so that codes of any width serve.
        few = random.Random(f"{of} {dice.randrange(20)}")
        return random_row(few, of.dictionary, may_be_null)
    if form == "+s":
        return {name: random_row(dice, child) for name, child in of.children}
    if form == "+m":
        (_, key), (_, value) = of.children[0][1].children
        pairs = range(dice.randrange(4))
        return [(random_row(dice, key, False), random_row(dice, value)) for _ in pairs]
    if form[:1] == "+":
        items = int(form[3:]) if form[1] == "w" else dice.choice([0, 1, 2, 5])
        return [random_row(dice, of.children[0][1]) for _ in range(items)]
    return _flat_row(dice, form)


def _data(of, rows):
    """The bytes of values of a fixed width."""
    form = of.format
    letters = letters_of(form)
    if letters:
        return b"".join(struct.pack("<" + letters, *(row if len(letters) > 1 else [row])) for row in rows)
    if form[:2] == "d:":
        with decimal.localcontext() as context:
            context.prec = 100
            whole = [int(row.scaleb(decimal_of(form)[1])) for row in rows]
        size = decimal_of(form)[2] // 8
        return b"".join(number.to_bytes(size, "little", signed=True) for number in whole)
    return b"".join(rows)


class Layout:
    """Lays rows out: with an offset, rows around them, garbage under nulls and, where no row reads
    another's numbers, around the rows, first offsets above 0, lists that are views into one
    another, and a validity that may be absent where no row is null.

    If it is strict, views of strings and lists are valid under nulls too, as `check` asks for.
    """

    def __init__(self, dice, is_strict=False):
        self.dice, self.is_strict = dice, is_strict

    def array(self, of, rows):
        dice = self.dice
        before, behind = dice.choice([0, 0, 1, 3, 8, 11]), dice.randrange(3)
        around = [random_row(dice, of) for _ in range(before + behind)]
        every = around[:before] + list(rows) + around[before:]
        nulls = sum(row is None for row in rows)
        if of.format == "n":
            return made_array(len(rows), len(rows), before, [])
        if of.format[:2] == "+u":
            return made_array(len(rows), 0, before, *self.union(of, every))
        hidden = [random_row(dice, of, False) if row is None else row for row in every]
        is_there = [row is not None for row in every]
        valid = packed(is_there + [dice.random() < 0.5 for _ in range(dice.randrange(9))])
        if all(is_there) and dice.random() < 0.7:
            valid = None
        inside = range(before, before + len(rows))
        seen = [k in inside and (self.is_strict or row is not None) for k, row in enumerate(every)]
        buffers, children, inner = self.below(of, hidden, seen)
        count = nulls if valid is None else dice.choice([nulls, -1])
        return made_array(len(rows), count, before, [valid, *buffers], children, inner)

    def below(self, of, rows, seen):
        """The buffers behind the validity, the children and the dictionary."""
        form, dice = of.format, self.dice
        if of.dictionary is not None:
            return self.dictionary(of, rows)
        if form == "b":
            return [packed(rows) + random_bytes(dice, dice.randrange(3))], [], None
        if form in ("u", "U", "z", "Z"):
            data = [row.encode() if isinstance(row, str) else row for row in rows]
            front = random_bytes(dice, dice.choice([0, 0, 5]))
            offsets = offsets_of([len(front), *map(len, data)], form in "UZ")[1:]
            return [offsets, front + b"".join(data) + random_bytes(dice, dice.randrange(4))], [], None
        if form in ("vu", "vz"):
            return self.views(rows, seen), [], None
        if form[:2] == "+v":
            return (*self.list_views(of, rows, seen), None)
        if form == "+s":
            each = [[row[name] for row in rows] for name, _ in of.children]
            return [], [self.array(child, rows) for (_, child), rows in zip(of.children, each)], None
        if form[:1] == "+":
            return self.lists(of, rows)
        return [_data(of, rows) + random_bytes(dice, dice.randrange(4))], [], None

    def views(self, rows, seen):
        """Views, up to three buffers that they lead to, and how long these are."""
        dice, views = self.dice, []
        blocks = [random_bytes(dice, dice.choice([0, 5])) for _ in range(dice.randrange(1, 4))]
        for row, is_seen in zip(rows, seen):
            data, which = row.encode() if isinstance(row, str) else row, dice.randrange(len(blocks))
            at = blocks[which].find(data) if dice.random() < 0.5 else -1
            if at < 0:
                at = len(blocks[which])
                blocks[which] += data if len(data) > 12 else b""
            views.append(viewed(data, which, at) if is_seen else random_bytes(dice, 16))
        return [b"".join(views), *blocks, lengths_of(blocks)]

    def list_views(self, of, rows, seen):
        """Lists in any order, which lie in one another or begin where another ends, if they may."""
        dice, items, spans = self.dice, [], [None] * len(rows)
        for k in dice.sample(range(len(rows)), len(rows)):
            row = rows[k]
            known = [at for at in range(len(items) + 1) if items[at : at + len(row)] == row]
            at = dice.choice(known) if known and dice.random() < 0.7 else len(items)
            common = dice.randrange(min(len(items), len(row)) + 1)
            if at == len(items) and items[at - common :] == row[:common]:
                at -= common
            items += row[len(items) - at :]
            spans[k] = (at, len(row)) if seen[k] else (dice.choice([-1, 2**31 - 1, 5]),) * 2
        letter = "q" if of.format == "+vL" else "i"
        starts, sizes = (array(letter, [span[part] for span in spans]) for part in (0, 1))
        return [starts, sizes], [self.array(of.children[0][1], items)]

    def union(self, of, rows):
        """The buffers and the children of a union, of which each row may be in any that it fits."""
        dice, ids, is_dense = self.dice, ids_of(of.format), of.format[2] == "d"
        types, offsets, each = bytearray(), array("i"), [[] for _ in ids]
        for row in rows:
            fitting = [k for k, (_, child) in enumerate(of.children) if is_of(field_of_type(child), row)]
            chosen = dice.choice(fitting)
            for k, below in enumerate(each):
                for _ in range(dice.choice([0, 0, 1]) if is_dense else k != chosen):
                    below.append(random_row(dice, of.children[k][1]))
            types.append(ids[chosen])
            offsets.append(len(each[chosen]))
            each[chosen].append(row)
        children = [self.array(child, below) for (_, child), below in zip(of.children, each)]
        return [bytes(types), offsets] if is_dense else [bytes(types)], children

    def lists(self, of, rows):
        dice, child = self.dice, of.children[0][1]
        if of.format == "+m":
            (key, _), (value, _) = child.children
            rows = [[{key: pair[0], value: pair[1]} for pair in row] for row in rows]
        items = [item for row in rows for item in row]
        if of.format[1] == "w":
            return [], [self.array(child, items)], None
        front = [random_row(dice, child, False) for _ in range(dice.choice([0, 0, 3]))]
        offsets = offsets_of([len(front), *map(len, rows)], of.format == "+L")[1:]
        return [offsets], [self.array(child, front + items)], None

    def dictionary(self, of, rows):
        values = []
        for row in rows:
            if row not in values:
                values.append(row)
        self.dice.shuffle(values)
        codes = [values.index(row) for row in rows]
        return [_data(Type(of.format), codes)], [], self.array(of.dictionary, values)


def random_step(dice, rows):
    """A step over so many rows, mostly a good one, and what it means: as `after` takes it."""
    kind, is_bad = dice.randrange(3), dice.random() < 0.03
    if kind == 0:
        start = dice.randrange(rows + 1)
        end = dice.randrange(start, rows + 1)
        if is_bad:
            start, end = dice.choice([(end + 1, end), (start, rows + 1), (-1, rows), (0, 2**63), (0, 2**70)])
        return Slice(start, end), ("slice", start, end)
    if kind == 1:
        density = dice.choice([0, 0.1, 0.5, 0.9, 1])
        mask = [dice.random() < density for _ in range(rows + is_bad)]
        return _filter(dice, mask), ("filter", mask)
    count = dice.choice([0, 1, 7, 8, 9, dice.randrange(40)]) if rows else 0
    indices = [dice.randrange(rows) for _ in range(count)]
    if is_bad:
        indices.append(dice.choice([rows, -1, 2**40, 2**63, -(2**63)]))
    return _take(dice, indices)


def _filter(dice, mask):
    """A filter in one of the forms that there are, in some of which what isn't true may be null."""
    nulls = [value or dice.choice([None, False]) for value in mask]
    at = dice.randrange(9)
    placed = packed([True] * at + mask + [True] * dice.randrange(9))
    layout = Layout(dice)
    forms = [
        lambda: mask,
        lambda: tuple(nulls),
        lambda: memoryview(bytes(mask)).cast("?"),
        lambda: Bits(placed, len(mask), at),
        lambda: column(nulls, "bool"),
        lambda: wrapped(Type("b"), layout.array(Type("b"), nulls)),
    ]
    return Filter(dice.choice(forms)())


def _take(dice, indices):
    nulls = [None if dice.random() < 0.2 else index for index in indices]
    fitting = [
        form
        for form in "cCsSiIlL"
        if all(
            -(2 ** (8 * struct.calcsize("<" + letters_of(form)) - 1)) * form.islower() <= index
            < 2 ** (8 * struct.calcsize("<" + letters_of(form)) - form.islower())
            for index in indices
        )
    ]
    forms = [(indices, list), (nulls, iter)]
    if fitting:
        form = dice.choice(fitting)
        layout = Layout(dice)
        forms.append((indices, lambda some: array(letters_of(form), some)))
        forms.append((nulls, lambda some: wrapped(Type(form), layout.array(Type(form), some))))
    meant, make = dice.choice(forms)
    return Take(make(meant)), ("take", meant)


def wrapped(of, made, **more):
    """A column of an array."""
    return column_of(of, made, **more)


def after(rows, steps):
    """The rows that steps leave, or the first broken step and its cause."""
    for number, (kind, *said) in enumerate(steps):
        if kind == "slice":
            start, end = said
            if not 0 <= start <= end <= len(rows):
                return None, (number, "BadRange")
            rows = rows[start:end]
        elif kind == "filter":
            (mask,) = said
            if len(mask) != len(rows):
                return None, (number, "BadMask")
            rows = [row for row, kept in zip(rows, mask) if kept]
        else:
            (indices,) = said
            if any(index is not None and not 0 <= index < len(rows) for index in indices):
                return None, (number, "OutOfBounds")
            rows = [None if index is None else rows[index] for index in indices]
    return rows, None


def random_steps(dice, rows):
    """Up to four steps, and what they mean."""
    steps, said = [], []
    for _ in range(dice.randrange(5)):
        left, broken = after(list(range(rows)), said)
        if broken:
            break
        step, means = random_step(dice, len(left))
        steps.append(step)
        said.append(means)
    return steps, said
