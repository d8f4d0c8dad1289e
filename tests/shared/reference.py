"""The operations in whole numbers and fractions, written from docs/SPECIFICATION.md alone: transforms and values to the last bit, the exact
solution of the mirrored equations and the exact spline for the distances, and the refusals by lengths, sides, pitches and factors."""
import array
from fractions import Fraction
from functools import lru_cache

POLE = 575416509  # Z
MARGIN = 20
LONGEST_ROW = 4096
LONGEST_SIDE = 512
GREATEST_PITCH = 4096
FACTORS = range(1, 17)
MOST_VALUES = (LONGEST_ROW - 1) * FACTORS[-1] + 1
MOST_ENLARGED = 1048576


def work_words(line):
    """How many words of work a transform takes whose longest line has so many numbers."""
    return line + 2 * MARGIN


def nearest(numerator, denominator):
    """The whole number nearest to the fraction, a tie going away from zero, so that opposite fractions have opposite ones. The denominator is any
    whole number above 0. R(a) is nearest(a, 2 ** 31)."""
    size = (2 * abs(numerator) + denominator) // (2 * denominator)
    return -size if numerator < 0 else size


def negated(numbers):
    return [-number for number in numbers]


def mirrored(index, n):
    """The place that an index reads in a row of n."""
    if n == 1:
        return 0
    index %= 2 * (n - 1)
    return 2 * (n - 1) - index if index > n - 1 else index


def least_slice(width, height, pitch):
    """How many numbers a slice has at least in which the pixels of a picture stand: it may end behind the last pixel."""
    return (height - 1) * pitch + width


def picture_pixels(numbers, width, height, pitch):
    """The pixels of a picture, row after row, out of a slice in which each row starts a pitch behind the one before."""
    return [numbers[y * pitch + x] for y in range(height) for x in range(width)]


# ----- Transforms -----


# The roundings of R forward, of R backward and of the coefficient. Others, and other margins than MARGIN, are given only to show that a case tells
# them from these.
ROUNDINGS = (nearest, nearest, nearest)


def recursions(t, roundings=ROUNDINGS, margin=MARGIN):
    """Both recursions over one line of internal numbers, and the coefficients."""
    forward, backward, last = roundings
    n = len(t)
    p = {-margin - 1: 0}
    for k in range(-margin, n + margin):
        p[k] = t[mirrored(k, n)] - forward(POLE * p[k - 1], 2**31)
    b = {n + margin: 0}
    for k in range(n + margin - 1, -margin - 1, -1):
        b[k] = backward(POLE * (p[k] - b[k + 1]), 2**31)
    return p, b, [last(6 * b[k], 16) for k in range(n)]


def row_coefficients(samples, roundings=ROUNDINGS, margin=MARGIN):
    return recursions([65536 * sample for sample in samples], roundings, margin)[2]


def column_coefficients(coefficients, roundings=ROUNDINGS):
    """A column of what the first pass of a picture has left, after the second."""
    return recursions([16 * coefficient for coefficient in coefficients], roundings)[2]


def by_rows_then_columns(line_of_row, line_of_column, numbers, width):
    """A picture, row after row, with one function applied to each row and then another to each column of the result."""
    rows = [line_of_row(numbers[start : start + width]) for start in range(0, len(numbers), width)]
    columns = [line_of_column(list(column)) for column in zip(*rows)]
    return [number for row in zip(*columns) for number in row]


def picture_coefficients(pixels, width, in_rows=ROUNDINGS, in_columns=ROUNDINGS):
    return by_rows_then_columns(
        lambda row: row_coefficients(row, in_rows), lambda column: column_coefficients(column, in_columns), pixels, width
    )


# ----- The exact solution -----


def exact_row(samples):
    """The exact solution of a row of whole numbers: whole numbers over one common denominator, which depends on the length alone.

    The last number is left open and the equations are followed to the left, so that each number is particular + factor * last; the equation at
    0 then gives the last number. The solution is put into every equation before it is used.
    """
    n = len(samples)
    if n == 1:
        return [samples[0]], 1
    particular = [0] * n
    factor = [0] * n
    factor[n - 1] = 1
    particular[n - 2] = 3 * samples[n - 1]
    factor[n - 2] = -2
    for k in range(n - 2, 0, -1):
        particular[k - 1] = 6 * samples[k] - 4 * particular[k] - particular[k + 1]
        factor[k - 1] = -4 * factor[k] - factor[k + 1]
    last = 6 * samples[0] - 4 * particular[0] - 2 * particular[1]
    denominator = 4 * factor[0] + 2 * factor[1]
    if denominator < 0:
        last, denominator = -last, -denominator
    numerators = [0] * n
    numerators[n - 1] = last
    numerators[n - 2] = 3 * samples[n - 1] * denominator - 2 * last
    for k in range(n - 2, 0, -1):
        numerators[k - 1] = 6 * samples[k] * denominator - 4 * numerators[k] - numerators[k + 1]
    for k in range(n):
        left, right = numerators[mirrored(k - 1, n)], numerators[mirrored(k + 1, n)]
        if left + 4 * numerators[k] + right != 6 * samples[k] * denominator:
            raise AssertionError(f"the exact solution of a row of {n} does not solve its equation {k}")
    return numerators, denominator


def exact_picture(pixels, width):
    """The exact solution of a picture: the columns of the numerators of the rows, over the product of the two denominators."""
    height = len(pixels) // width
    denominator = exact_row([0] * width)[1] * exact_row([0] * height)[1]
    return by_rows_then_columns(lambda row: exact_row(row)[0], lambda column: exact_row(column)[0], pixels, width), denominator


def as_fractions(exact):
    numerators, denominator = exact
    return [Fraction(numerator, denominator) for numerator in numerators]


def greatest_distance(scale, numerators, denominator, found):
    """The greatest distance of what was found to so many times the exact fractions, and its place."""
    distances = [abs(scale * numerator - number * denominator) for numerator, number in zip(numerators, found)]
    place = max(range(len(distances)), key=distances.__getitem__)
    return Fraction(distances[place], denominator), place


# ----- Values between samples -----


@lru_cache(maxsize=2**10)
def weights(j, m):
    return (m - j) ** 3, 3 * j**3 - 6 * j**2 * m + 4 * m**3, -3 * j**3 + 3 * j**2 * m + 3 * j * m**2 + m**3, j**3


@lru_cache(maxsize=2**17)
def terms(k, j, m, n):
    """Each weight at k + j/m that is not 0, and the place of a row of n that it falls on."""
    return [(weight, mirrored(k - 1 + i, n)) for i, weight in enumerate(weights(j, m)) if weight != 0]


def row_sum(numbers, k, j, m):
    """6m³ times the spline with these coefficients at k + j/m. The coefficients may be the library's or numerators of the exact solution."""
    return sum(weight * numbers[place] for weight, place in terms(k, j, m, len(numbers)))


def row_value(coefficients, k, j, m):
    return nearest(row_sum(coefficients, k, j, m), 96 * m**3)


def row_positions(n, m):
    """The positions of a zoom, each as its k and j."""
    return [divmod(i, m) for i in range((n - 1) * m + 1)]


def row_values(coefficients, m):
    return [row_value(coefficients, k, j, m) for k, j in row_positions(len(coefficients), m)]


def picture_sum(numbers, width, x, y, m):
    """36m⁶ times the spline with these coefficients at x and y, each a pair of k and j."""
    across = terms(*x, m, width)
    down = terms(*y, m, len(numbers) // width)
    return sum(u * v * numbers[width * row + column] for v, row in down for u, column in across)


def picture_value(coefficients, width, x, y, m):
    return nearest(picture_sum(coefficients, width, x, y, m), 576 * m**6)


def enlarged_sides(width, height, m):
    """How many values an enlarged picture has in a row and in a column."""
    return (width - 1) * m + 1, (height - 1) * m + 1


# What makes any 32-bit number 0 or greater.
LIFT = 2**31


def weighted(j, m, numbers):
    """The sum of four numbers with the weights at j/m."""
    return sum(weight * number for weight, number in zip(weights(j, m), numbers))


def enlarged_values(coefficients, width, m):
    """The picture value at every position of an enlarged picture, row after row.

    This is written for speed, and tests/enlarge compares it with picture_value() before it uses it. Each sum of sixteen products is taken along the
    height first and then along the width, without a rounding between, which gives the same whole number. A row, mirrored by as much as is read
    beyond its ends, is one whole number with a coefficient to every 64 bits, so that one product weights all of them. For this each coefficient
    has LIFT added, which makes it 0 or greater; no sum then passes 64 bits, and each is too great by LIFT times the sum of the weights.
    """
    places = [mirrored(index, width) for index in range(-1, width + 2)]
    rows = []
    for start in range(0, len(coefficients), width):
        lifted = array.array("Q", [coefficients[start + place] + LIFT for place in places])
        rows.append(int.from_bytes(lifted.tobytes(), "little"))
    unit, zero = 576 * m**6, 36 * m**6 * LIFT
    down = zero - unit // 2
    values = []
    for k, j in row_positions(len(rows), m):
        sums = weighted(j, m, [rows[mirrored(index, len(rows))] for index in range(k - 1, k + 3)])
        shifted = [sums >> 64 * i for i in range(4)]
        line = [0] * ((width - 1) * m + 1)
        for i in range(m):
            # The last place has a value only at the numerator 0.
            count = width if i == 0 else width - 1
            at = (weighted(i, m, shifted) % 2 ** (64 * count)).to_bytes(8 * count, "little")
            # Half a unit more and then down; below 0 less by the least step, so that a tie goes away from zero.
            line[i::m] = [(number - down - (number < zero)) // unit for number in array.array("Q", at)]
        values += line
    return values


# ----- Refusals by lengths, sides, pitches and factors -----


def length_refusal(n):
    """The refusal of a row of n, or None."""
    if n == 0:
        return 1
    return 2 if n > LONGEST_ROW else None


def sides_refusal(width, height):
    """The refusal of a picture with these sides, or None."""
    return None if 1 <= width <= LONGEST_SIDE and 1 <= height <= LONGEST_SIDE else 3


def pixels_refusal(count, width, height, pitch):
    """The refusal of a picture whose pixels stand in a slice of so many numbers, or None."""
    stand_there = width <= pitch <= GREATEST_PITCH and count >= least_slice(width, height, pitch)
    return sides_refusal(width, height) or (None if stand_there else 4)


def coefficients_refusal(count, width, height, pitch):
    """The refusal of a picture whose coefficients are read from a slice of so many numbers, or None: they are closely packed and fill it."""
    fill_it = pitch == width and count == width * height
    return sides_refusal(width, height) or (None if fill_it else 4)


def factor_refusal(m):
    return None if m in FACTORS else 7
