"""What the tests share that lend coefficients to the library and compare the values that it answers or writes."""
import ctypes
from contextlib import contextmanager
from fractions import Fraction

from shared import running
from shared.reference import greatest_distance, negated, picture_sum, work_words
from shared.running import Slice, Wrong, filled, shown

PICTURE_DISTANCE = Fraction(15, 16)

# Numbers at the ends of 64 bits, and some that would be allowed if only their low bits were read, or the low bits of 16 times them.
HUGE = (2**28, 2**31, 2**32, 2**32 + 1, 2**32 + 2, 2**60, 2**63 - 1, 2**63, 2**63 + 1, 2**64 - 3, 2**64 - 2, 2**64 - 1)


class Row:
    """A row of coefficients that is lent to many calls, as a slice of this kind."""

    def __init__(self, coefficients, kind=Slice):
        self.coefficients = list(coefficients)
        self.lent = kind(ctypes.c_int32, self.coefficients)
        self.n = self.lent.length


class Picture(Row):
    """A picture of coefficients, which are closely packed."""

    def __init__(self, coefficients, width, kind=Slice):
        super().__init__(coefficients, kind)
        self.width = width
        self.height = self.n // width
        self.description = (self.width, self.height, self.width)


class LendingTests(running.LibraryTests):
    """What the groups call and compare."""

    @contextmanager
    def lent(self, name, data):
        """Lends a row or picture to the calls inside; afterwards its coefficients must be unchanged."""
        try:
            yield data
            data.lent.demand("coefficients", [])
        except Wrong as wrong:
            sides = f", {data.width} x {data.height}" if isinstance(data, Picture) else ""
            raise Wrong(f"{name}{sides}, {data.n} coefficients {shown(data.coefficients)}: {wrong}") from None

    def row(self, name, coefficients):
        return self.lent(name, Row(coefficients))

    def picture(self, name, coefficients, width, kind=Slice):
        return self.lent(name, Picture(coefficients, width, kind))

    @contextmanager
    def opposite_pictures(self, name, coefficients, width):
        """Lends a picture, and another with the opposite coefficients."""
        with self.picture(name, coefficients, width) as picture, self.picture(f"{name}, negated", negated(coefficients), width) as other:
            yield picture, other

    def answer(self, operation, data, sizes):
        """What an operation that gives one value answers. The sizes are its parameters after the slice."""
        self.calls += 1
        self.say(f"{operation} of {data.n} coefficients and {sizes}")
        return self.library.functions[operation](*data.lent.words(), *sizes)

    def demand_answer(self, operation, data, sizes, expected):
        answer = self.answer(operation, data, sizes)
        if answer != expected:
            raise Wrong(f"{operation} with {sizes} answers {answer} and should answer {expected}")

    def written(self, operation, data, sizes, room, kind=Slice):
        """What an operation that writes values answers, and its buffer of this length afterwards. The sizes are its parameters between the slices."""
        self.calls += 1
        self.say(f"{operation} of {data.n} coefficients and {sizes} into {room} values")
        buffer = kind(ctypes.c_int32, filled(room, 1000))
        return self.library.functions[operation](*data.lent.words(), *sizes, *buffer.words()), buffer

    def demand_written(self, operation, data, sizes, room, expected, values, kind=Slice):
        """The answer must be this one, and the buffer start with these values and be unchanged beyond them."""
        answer, buffer = self.written(operation, data, sizes, room, kind)
        case = f"{operation} with {sizes} into {room} values"
        if answer != expected:
            raise Wrong(f"{case} answers {answer} and should answer {expected}")
        try:
            buffer.demand("values", values)
        except Wrong as wrong:
            raise Wrong(f"{case}: {wrong}") from None

    def demand_opposite_written(self, operation, data, other, sizes, room):
        """What is written of opposite coefficients: the same count of opposite values, or the same refusal."""
        answer, buffer = self.written(operation, data, sizes, room)
        self.demand_written(operation, other, sizes, room, answer, negated(buffer.numbers()[: max(answer, 0)]))

    def transformed_row(self, samples):
        """The coefficients of these samples by the library's transform, which tests/transforms compares."""
        return self.transformed("row_transform", samples, (), len(samples))

    def transformed_picture(self, pixels, width):
        height = len(pixels) // width
        return self.transformed("picture_transform", pixels, (width, height, width), max(width, height))

    def transformed(self, operation, samples, sizes, line):
        n = len(samples)
        self.say(f"{operation} of {n}")
        read = Slice(ctypes.c_int16, samples)
        coefficients = Slice(ctypes.c_int32, [0] * n)
        work = Slice(ctypes.c_int64, [0] * work_words(line))
        answer = self.library.functions[operation](*read.words(), *sizes, *coefficients.words(), *work.words())
        if answer != n:
            raise Wrong(f"{operation} of {n} answers {answer}")
        return coefficients.numbers()

    def near_picture(self, exact, width, m, positions, values):
        numerators, denominator = exact
        sums = [picture_sum(numerators, width, x, y, m) for x, y in positions]
        distance, place = greatest_distance(256, sums, 36 * m**6 * denominator, values)
        self.within(distance, PICTURE_DISTANCE, f"the value at {positions[place]} with factor {m}")
