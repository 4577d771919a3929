"""Steps over rows: which are broken, what they leave, and what a decoder is asked for.

Written from docs/DEFINITIONS.md and docs/DOCUMENT.md.
"""
from typing import NamedTuple

import model

CHUNK = 1024
MOST = 2 ** 64 - 1


class Pieces(NamedTuple):
    """A piecewise sequence: each piece is a start, a length and a multiplier."""
    starts: list
    lengths: list
    multipliers: list
    length: int

    def is_sound(self):
        """No last number and no sum of lengths passes 64 bits, and the sum is as declared."""
        lasts = (start + (length - 1) * multiplier
                 for start, length, multiplier in self.all() if length > 0)
        return sum(self.lengths) == self.length <= MOST and all(last <= MOST for last in lasts)

    def all(self):
        return zip(self.starts, self.lengths, self.multipliers)

    def numbers(self):
        return [start + j * multiplier
                for start, length, multiplier in self.all() for j in range(length)]


class Slice(NamedTuple):
    start: int
    end: int

    def broken(self, n):
        if not self.start <= self.end <= n:
            return f'BadRange {self.start}..{self.end} of {n}'

    def apply(self, picks):
        return picks[self.start:self.end]


class Filter(NamedTuple):
    mask: model.Mask

    def broken(self, n):
        if self.mask.length != n:
            return f'BadMask {self.mask.length} of {n}'

    def apply(self, picks):
        return [picks[i] for i in self.mask.selected]


class FilterBy(NamedTuple):
    column: model.Column

    def broken(self, n):
        if self.column.type.kind != model.Bool():
            return 'NotBool'
        if len(self.column.rows) != n:
            return f'BadMask {len(self.column.rows)} of {n}'

    def apply(self, picks):
        return [pick for pick, bit in zip(picks, self.column.rows) if bit]


class Take(NamedTuple):
    indices: object     # a column or pieces

    def broken(self, n):
        if isinstance(self.indices, Pieces):
            if not self.indices.is_sound():
                return 'BadPieces'
        elif not model.is_integer(self.indices.type):
            return 'InvalidIndices'
        for number in self.numbers():
            if number is not None and not 0 <= number < n:
                return f'OutOfBounds {number} of {n}'

    def numbers(self):
        if isinstance(self.indices, Pieces):
            return self.indices.numbers()
        return model.numbers_of(self.indices)

    def apply(self, picks):
        return [None if number is None else picks[number] for number in self.numbers()]

    def is_nullable(self):
        return not isinstance(self.indices, Pieces) and self.indices.type.nullable


class Broken(Exception):
    """The line of the first broken step."""


def walk(n, steps):
    """The composed picks, each a position or None."""
    picks = range(n)
    for k, step in enumerate(steps):
        cause = step.broken(len(picks))
        if cause:
            raise Broken(f'step {k}: {cause}')
        picks = step.apply(picks)
    return picks


def type_after(type_, steps):
    """Nullable also where a take is by a nullable column."""
    return model.also_nullable(type_, makes_nullable(steps))


def makes_nullable(steps):
    return any(isinstance(step, Take) and step.is_nullable() for step in steps)


def at(missing, rows, picks):
    """For each pick the row there, and what is missing at none."""
    return [missing if pick is None else rows[pick] for pick in picks]


def asked(offset, picks, limit):
    """For each chunk that holds a picked value its number, and how many where they are few."""
    counts = {}
    for value in {offset + pick for pick in picks if pick is not None}:
        counts[value // CHUNK] = counts.get(value // CHUNK, 0) + 1
    return [(chunk, n if n <= limit else None) for chunk, n in sorted(counts.items())]
