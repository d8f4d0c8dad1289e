"""Coefficients for the tests, which are any numbers of 32 bits: rows, and pictures row after row; and positions of their values."""
import array
import itertools

from shared.reference import row_positions

LEAST, GREATEST = -(2**31), 2**31 - 1


def any_coefficients(rng, n):
    """All 32 bits, the limits among them, and in turn small numbers, whose values show the rounding."""
    kind = rng.randrange(4)
    if kind == 0:
        return [rng.choice((LEAST, GREATEST)) for _ in range(n)]
    if kind == 1:
        return small_numbers(rng, n)
    return [rng.choice((LEAST, LEAST + 1, GREATEST, rng.randint(LEAST, GREATEST))) for _ in range(n)]


def of_all_bits(rng, n):
    """Any coefficients, each as likely as another; faster, for large pictures."""
    return array.array("i", rng.randbytes(4 * n)).tolist()


def small_numbers(rng, n):
    return [rng.randint(-40, 40) for _ in range(n)]


def without_least(coefficients):
    """The coefficients with -2 ** 31 + 1 for -2 ** 31, which has no opposite of 32 bits."""
    return [max(coefficient, LEAST + 1) for coefficient in coefficients]


def random_place(rng, side, j):
    """A place of a side from which a position with this numerator is on the data."""
    return rng.randrange(side if j == 0 else side - 1)


def some_positions(rng, width, height, m, count):
    """Random positions and all that lie at or beside a corner."""
    across, down = row_positions(width, m), row_positions(height, m)
    corners = itertools.product(sorted({*across[:2], *across[-2:]}), sorted({*down[:2], *down[-2:]}))
    return list(corners) + [(rng.choice(across), rng.choice(down)) for _ in range(count)]
