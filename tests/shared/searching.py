"""What the tests of onsets and of delays share: rows of values that are lent to the library, and what stands in floats that it writes."""
import ctypes
import math
import os
from contextlib import contextmanager

from shared import running
from shared.onset_reference import bits, number
from shared.reference import work_words
from shared.running import Slice, Wrong, shown

LEAST, GREATEST = -(2**31), 2**31 - 1

# The bits that floats hold before a call, in turn: a number that is no answer, -0, and NaNs that are quiet, signalling, and all ones.
HELD = (bits(math.pi), bits(-0.0), 0x7FF8000012345678, 0x7FF0000087654321, 2**64 - 1)

# Factors that are refused, some of which would be allowed if only their low bits were read.
REFUSED_FACTORS = (0, 17, 18, 31, 32, 255, 256, 257, 272, 2**16, 2**16 + 1, 2**31, 2**32, 2**32 + 1, 2**32 + 16, 2**63, 2**63 + 1, 2**64 - 1)


def example_clip(name):
    """The factor and the samples of a text of examples/."""
    with open(os.path.join(running.ROOT, "examples", name), encoding="ascii") as file:
        m, *samples = map(int, file)
    return m, samples


class HighSlice(Slice):
    """A lent slice between guards that reach every threshold."""

    def held(self, kind, guard, numbers):
        return super().held(kind, [GREATEST] * len(guard), numbers)


class Part:
    """A part of a slice that is lent: what must not change is compared with the slice."""

    def __init__(self, whole, start, end):
        self.lent = ctypes.c_void_p(whole.lent.value + start * ctypes.sizeof(ctypes.c_int32))
        self.length = end - start

    def words(self):
        return self.lent, self.length


class Row:
    """A row of values that is lent to many calls."""

    def __init__(self, name, lent, values):
        self.name = name
        self.lent = lent
        self.values = values

    def put(self, place, value, count=1):
        """Another value in this place before the next call, or in as many from there on."""
        for at in range(place, place + count):
            self.values[at] = value
            self.lent.put(at, value)

    def part(self, start, end):
        """A part of this row, as a row in the same memory."""
        return Row(f"its values from {start} to {end}", Part(self.lent, start, end), self.values[start:end])


class SearchTests(running.LibraryTests):
    """What the groups lend and call. FLOATS has the names of the floats that the operation may write."""

    FLOATS = ()

    def __init__(self, library):
        super().__init__(library)
        self.floats = [Slice(ctypes.c_uint64, [0]) for _ in self.FLOATS]

    def held(self):
        """Puts bits into the floats, which are others in each call."""
        words = [HELD[self.calls // len(HELD) ** i % len(HELD)] for i in range(len(self.FLOATS))]
        for slot, word in zip(self.floats, words):
            slot.put(0, word)
        return words

    def in_words(self, answer, words):
        """An answer and the bits of the floats."""
        return f"{answer}, with " + ", ".join(f"{name} {word:#018x}, which is {number(word)}" for name, word in zip(self.FLOATS, words))

    def demand_answer(self, operation, arguments, case, demanded):
        """A call. What is demanded are the answer and the bits of the floats afterwards."""
        answer = self.library.functions[operation](*arguments, *(slot.lent for slot in self.floats))
        found = answer, [slot.numbers()[0] for slot in self.floats]
        if found != demanded:
            raise Wrong(f"the answer {case} is {self.in_words(*found)}, and should be {self.in_words(*demanded)}")
        for name, slot, word in zip(self.FLOATS, self.floats, demanded[1]):
            slot.demand(name, [word])

    @contextmanager
    def lent(self, row):
        """Lends a row to the calls inside; afterwards its values must be unchanged."""
        try:
            yield row
            row.lent.demand("values", [])
        except Wrong as wrong:
            raise Wrong(f"{row.name}: {wrong}") from None

    def row(self, name, values, kind=Slice):
        values = list(values)
        return self.lent(Row(f"{name}, {len(values)} values {shown(values)}", kind(ctypes.c_int32, values), values))

    def zoomed(self, samples, m):
        """The values of these samples by the library's transform and zoom, which tests/transforms and tests/values compare."""
        n = len(samples)
        read, coefficients = Slice(ctypes.c_int16, samples), Slice(ctypes.c_int32, [0] * n)
        work, values = Slice(ctypes.c_int64, [0] * work_words(n)), Slice(ctypes.c_int32, [0] * ((n - 1) * m + 1))
        self.say(f"transform and zoom of {n} samples at factor {m}")
        transformed = self.library.functions["row_transform"](*read.words(), *coefficients.words(), *work.words())
        zoomed = self.library.functions["row_zoom"](*coefficients.words(), m, *values.words())
        if (transformed, zoomed) != (n, values.length):
            raise Wrong(f"transform and zoom of {n} samples at factor {m} answer {transformed} and {zoomed}")
        return values.numbers()
