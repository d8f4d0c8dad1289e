"""The search for an onset in a row of values, written from docs/SPECIFICATION.md alone, and the floats of its answers as bits."""
import struct

from shared.reference import MOST_VALUES, factor_refusal

RUN = 8  # so many values in a row reach the threshold


def search_refusal(length, m):
    """The refusal of a search in a row of this length at this factor, or None."""
    if length == 0:
        return 1
    return 2 if length > MOST_VALUES else factor_refusal(m)


def onset_place(values, threshold):
    """The first place from which eight values in a row reach the threshold, or None."""
    place = bytes(value >= threshold for value in values).find(b"\1" * RUN)
    return None if place < 0 else place


def finding(values, m, threshold):
    """The number of the refusal, or else the position, which is None for a quiet row, and the height."""
    refusal = search_refusal(len(values), m)
    if refusal:
        return refusal
    place = onset_place(values, threshold)
    return (None, max(values) / 256) if place is None else (place / m, values[place] / 256)


def bits(number):
    """The 64 bits of a float, as a whole number."""
    return struct.unpack("<Q", struct.pack("<d", number))[0]


def number(word):
    """The float that 64 bits are."""
    return struct.unpack("<d", struct.pack("<Q", word))[0]
