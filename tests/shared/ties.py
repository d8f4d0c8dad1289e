"""Ties, where a fraction is as near to one whole number as to the next: rules for them that are wrong, by which a test shows that its cases tell
the right one from them, how coefficients are changed so that their weighted sum at a position is at a tie, or beside one, and coefficients found
so."""
import itertools
from functools import lru_cache
from math import gcd

from shared.coefficients import GREATEST, LEAST
from shared.reference import ROUNDINGS, nearest, negated, picture_sum, row_sum, terms
from shared.running import demand_equal

# ----- Wrong rules -----


def is_tie(numerator, denominator):
    return 2 * numerator % (2 * denominator) == denominator


def toward_zero(numerator, denominator):
    """The nearest whole number, a tie going toward zero."""
    found = nearest(numerator, denominator)
    if not is_tie(numerator, denominator):
        return found
    return found - 1 if numerator > 0 else found + 1


def upward(numerator, denominator):
    """The nearest whole number, a tie going up."""
    return (nearest if numerator > 0 else toward_zero)(numerator, denominator)


def downward(numerator, denominator):
    """The nearest whole number, a tie going down."""
    return (toward_zero if numerator > 0 else nearest)(numerator, denominator)


def to_even(numerator, denominator):
    """The nearest whole number, a tie going to the even one."""
    return (toward_zero if nearest(numerator, denominator) % 2 == 1 else nearest)(numerator, denominator)


WRONG_RULES = (upward, downward, toward_zero, to_even)


def with_rule(place, rule):
    """The roundings of R forward, of R backward and of the coefficient, with this rule in one place, by its number from 0."""
    return tuple(rule if i == place else rounding for i, rounding in enumerate(ROUNDINGS))


# ----- Coefficients with another sum -----


def combination(weights, total):
    """Whole numbers whose weighted sum is this total, which the greatest common divisor of the weights divides."""
    found = []
    for i, weight in enumerate(weights[:-1], 1):
        rest = gcd(*weights[i:])
        common = gcd(weight, rest)
        number = total // common * pow(weight // common, -1, rest // common) % (rest // common)
        total -= weight * number
        found.append(number)
    return [*found, total // weights[-1]]


@lru_cache(maxsize=2**14)
def weights_on(k, j, m, n):
    """The places of a row of n on which a weight at k + j/m falls, and these weights."""
    found = {}
    for weight, place in terms(k, j, m, n):
        found[place] = found.get(place, 0) + weight
    return tuple(found), tuple(found.values())


def row_step(k, j, m, n):
    """The least step between two sums of a row of n at k + j/m."""
    return gcd(*weights_on(k, j, m, n)[1])


def raised_row(coefficients, k, j, m, more):
    """These coefficients, changed by little, so that their sum at k + j/m is by so much greater. The least step divides that number."""
    places, on_places = weights_on(k, j, m, len(coefficients))
    every, rest = divmod(more, 6 * m**3)
    changed = list(coefficients)
    for place, number in zip(places, combination(on_places, rest)):
        changed[place] += every + number
    return changed


def picture_step(width, height, x, y, m):
    return row_step(*x, m, width) * row_step(*y, m, height)


def raised_picture(coefficients, width, x, y, m, more):
    """The same for a picture: the change is shared out among the rows, and then in each row among its places."""
    columns, across = weights_on(*x, m, width)
    rows, down = weights_on(*y, m, len(coefficients) // width)
    step = gcd(*across)
    every, rest = divmod(more, 36 * m**6)
    changed = list(coefficients)
    for row, part in zip(rows, combination(down, rest // step)):
        in_row, left = divmod(part * step, 6 * m**3)
        for column, number in zip(columns, combination(across, left)):
            changed[width * row + column] += every + in_row + number
    return changed


# ----- Coefficients at ties -----

# The value of coefficients that are all c is c/16, so these meet a tie at every position: of numbers above and below 0, and at the limits.
TIES = (8, -8, 24, -24, 40, -40, LEAST + 8, GREATEST - 7)


def near_ties(count):
    """Coefficients that are all at a tie but for one, which is 1 above or below it."""
    for tie, place, step in itertools.product(TIES, range(count), (-1, 1)):
        yield [tie + (step if i == place else 0) for i in range(count)]


# What ties are found near: small numbers, any of 32 bits, and both limits. What is found differs from these by less than SOLVED.
SOLVED = 2**16
NEAR = (
    lambda rng: rng.randint(-40, 40),
    lambda rng: rng.randint(LEAST + SOLVED, GREATEST - SOLVED),
    lambda rng: rng.choice((LEAST + SOLVED, GREATEST - SOLVED)),
)

# The sign of a tie, and whether the number away from zero is odd.
KINDS = tuple(itertools.product((1, -1), (0, 1)))


class Ties:
    """Finds coefficients whose sum, divided by the unit, is a tie of a given kind, near some numbers. With steps other than 0 the sum lies that many
    of the least steps beside the tie."""

    def __init__(self, rng):
        self.rng = rng

    def solved(self, count, sum_of, unit, kind, near, beside, raised):
        """So many coefficients, whose sum is by this number beside a tie."""
        sign, odd = kind
        start = [near(self.rng) for _ in range(count)]
        size = sum_of(start) * sign
        if size < 0:
            start, size = negated(start), -size
        whole = size // unit + 1
        whole += (whole + odd) % 2
        tie = sign * (whole * unit - unit // 2)
        coefficients = raised(start, tie + beside - sign * size)
        demand_equal("the tie, and the sum", [2 * tie, sum_of(coefficients)], [sign * (2 * whole - 1) * unit, tie + beside])
        return coefficients

    def row(self, n, k, j, m, kind, near, steps=0):
        """A row of n with a tie at k + j/m."""
        return self.solved(
            n,
            lambda row: row_sum(row, k, j, m),
            96 * m**3,
            kind,
            near,
            steps * row_step(k, j, m, n),
            lambda row, more: raised_row(row, k, j, m, more),
        )

    def long_row(self, m, kind, near, steps=0):
        """A row that has a tie at 4j + 1 + j/m for every numerator j."""
        return [coefficient for j in range(m) for coefficient in self.row(4, 1, j, m, kind, near, steps)]

    def picture(self, width, height, x, y, m, kind, near, steps=0):
        return self.solved(
            width * height,
            lambda picture: picture_sum(picture, width, x, y, m),
            576 * m**6,
            kind,
            near,
            steps * picture_step(width, height, x, y, m),
            lambda picture, more: raised_picture(picture, width, x, y, m, more),
        )
