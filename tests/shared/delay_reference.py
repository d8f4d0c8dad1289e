"""The delay between the onsets of two rows of values, written from docs/SPECIFICATION.md alone."""
from fractions import Fraction

from shared.onset_reference import onset_place, search_refusal

EXACT_FACTORS = (1, 2, 4, 8, 16)


def delay_refusal(length, other, m):
    """The refusal of two rows for their lengths or the factor, or None; whether a row is quiet is not asked here."""
    refusal = search_refusal(length, m) or search_refusal(other, m)
    return refusal or (None if m in EXACT_FACTORS else 19)


def measuring(first, second, m, threshold):
    """The number of the refusal, or else the delay as an exact fraction, and the two heights."""
    refusal = delay_refusal(len(first), len(second), m)
    if refusal:
        return refusal
    place, other = onset_place(first, threshold), onset_place(second, threshold)
    if place is None or other is None:
        return 20
    return Fraction(place - other, m), Fraction(first[place], 256), Fraction(second[other], 256)
