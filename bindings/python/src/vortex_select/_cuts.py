"""What steps over a column are of each of its parts, by numbers alone."""

from __future__ import annotations

from array import array as numbers_of
from typing import Optional, Sequence, Tuple

from . import _native

NULL = 2**64 - 1


def zeros(count: int) -> numbers_of[int]:
    """Return so many numbers of 64 bits, all of them 0."""
    return numbers_of("Q", bytes(8 * count))


def bounds_of(lengths: numbers_of[int]) -> numbers_of[int]:
    """Return where each part of these lengths begins, and where the last one ends.

    Raises:
        OverflowError: the parts have 2^64 rows or more.
    """
    bounds = zeros(len(lengths) + 1)
    _native.cut_bounds(lengths, bounds)
    return bounds


Cut = Tuple["numbers_of[int]", "numbers_of[int]", "numbers_of[int]"]


def slice_cut(lengths: numbers_of[int], start: int, end: int) -> Optional[Cut]:
    """Return the rows that each part keeps of a slice, by start and end, and how many they are.

    The result is None where the slice isn't within the rows.
    """
    starts, ends, left = (zeros(len(lengths)) for _ in range(3))
    if not _native.cut_slice(lengths, start, end, (starts, ends, left)):
        return None
    return starts, ends, left


def mask_cut(words: numbers_of[int], at: int, lengths: numbers_of[int]) -> numbers_of[int]:
    """Return how many rows of each part a mask keeps that begins at a bit of the words."""
    left = zeros(len(lengths))
    _native.cut_mask(words, at, lengths, left)
    return left


def picks_cut(places: numbers_of[int], bounds: numbers_of[int]) -> Sequence[numbers_of[int]]:
    """Return each part's own picks, one part behind another, where they end, and of each pick its
    part and which of that part's picks it is. At a null place, part and row are all ones.
    """
    own, parts, rows = (zeros(len(places)) for _ in range(3))
    ends = zeros(len(bounds) - 1)
    _native.cut_picks(places, bounds, (own, ends), (parts, rows))
    return own, ends, parts, rows
