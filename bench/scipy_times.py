"""Measures scipy on the data of data.rs.

'scipy_times.py version' prints the version of scipy. 'scipy_times.py NAME REPETITIONS' prints two times in microseconds: the minimum of one case
over its repetitions, and what the same call takes on the smallest data, which is nearly all Python's and not scipy's own work. For a case of
which scipy has no such operation it prints '-' twice.
"""
import sys
import time

import numpy
import scipy
from scipy import ndimage

WAVE = numpy.array([0, 5, 8, 5, 0, -5, -8, -5], numpy.int64)
SECTION = 512
FACTOR = 16


def numbers(repetition, places):
    """64 pseudo-random bits for each place: the output function of splitmix64 over a counter."""
    bits = (numpy.uint64(repetition << 32) | places.astype(numpy.uint64)) * numpy.uint64(0x9E3779B97F4A7C15)
    bits = (bits ^ (bits >> numpy.uint64(30))) * numpy.uint64(0xBF58476D1CE4E5B9)
    bits = (bits ^ (bits >> numpy.uint64(27))) * numpy.uint64(0x94D049BB133111EB)
    return bits ^ (bits >> numpy.uint64(31))


def samples(repetition, shape):
    """The samples (or pixels) of one repetition."""
    places = numpy.arange(numpy.prod(shape)).reshape(shape)
    random = numbers(repetition, places)
    if repetition % 2 == 0:
        return (random >> numpy.uint64(48)).astype(numpy.int16)
    faint = (random >> numpy.uint64(55)).astype(numpy.int64) - 256
    choice = numbers(repetition, (1 << 31) + places // SECTION)
    height = 8192 + (choice >> numpy.uint64(50)).astype(numpy.int64)
    since = places % SECTION - (choice % numpy.uint64(448)).astype(numpy.int64)
    inside = (since >= 0) & (since < 64)
    since = numpy.where(inside, since, 0)
    click = numpy.where(inside, (height * WAVE[since % 8]) >> (3 + since // 8), 0)
    return (faint + click).astype(numpy.int16)


def positions(repetition, first, n, factor, count):
    """The positions of one repetition along a row or a side of n, as fill_positions of main.rs makes them."""
    chosen = numbers(repetition, first + numpy.arange(count)) % numpy.uint64((n - 1) * factor + 1)
    return chosen.astype(numpy.float64) / factor


def filtered(data):
    """The coefficients of a row or a picture in float64."""
    transform = ndimage.spline_filter1d if data.ndim == 1 else ndimage.spline_filter
    return transform(data, order=3, output=numpy.float64, mode="mirror")


class Transform:
    """spline_filter1d of a row or spline_filter of a picture, from 16-bit samples."""

    def __init__(self, shape):
        self.shape = shape
        self.output = numpy.zeros(shape, numpy.float64)
        self.filter = ndimage.spline_filter1d if len(shape) == 1 else ndimage.spline_filter

    def load(self, repetition):
        self.data = samples(repetition, self.shape)

    def call(self):
        self.filter(self.data, order=3, output=self.output, mode="mirror")


class Band(Transform):
    """The same of a band, which is a view of the first columns of a picture that is four times as wide."""

    def load(self, repetition):
        height, width = self.shape
        self.data = samples(repetition, (height, 4 * width))[:, :width]


class PackedBand(Band):
    """The same of a band that is closely packed."""

    def load(self, repetition):
        super().load(repetition)
        self.data = self.data.copy()


class Zoom:
    """map_coordinates of coefficients in float64, which are made outside the time, at every position of the zoom."""

    def __init__(self, shape):
        (n,) = self.shape = shape
        self.positions = numpy.arange((n - 1) * FACTOR + 1).reshape(1, -1) / FACTOR
        self.output = numpy.zeros(self.positions.shape[1], numpy.float64)

    def load(self, repetition):
        self.data = filtered(samples(repetition, self.shape))

    def call(self):
        ndimage.map_coordinates(self.data, self.positions, output=self.output, order=3, prefilter=False, mode="mirror")


class Values(Zoom):
    """The same at as many positions as there are calls in main.rs, all in one call; on the smallest data there are only a few."""

    # Where the numbers of the positions begin, by the dimension. The last dimension is x.
    FIRST = {1: (1 << 30,), 2: (3 << 30, 1 << 30)}

    def __init__(self, shape):
        self.shape = shape
        self.count = min(4096, int(numpy.prod(shape)))
        self.output = numpy.zeros(self.count, numpy.float64)

    def load(self, repetition):
        super().load(repetition)
        sides = zip(self.FIRST[len(self.shape)], self.shape)
        self.positions = numpy.array([positions(repetition, first, n, FACTOR, self.count) for first, n in sides])


class Enlarge:
    """zoom of coefficients in float64, which are made outside the time, to every position of the enlarged picture."""

    FACTOR = FACTOR

    def __init__(self, shape):
        self.shape = shape
        larger = [(n - 1) * self.FACTOR + 1 for n in shape]
        # scipy multiplies the shape by these and rounds. Without grid_mode the first and the last positions of both are the same.
        self.zoom = [many / n for many, n in zip(larger, shape)]
        self.output = numpy.zeros(larger, numpy.float64)

    def load(self, repetition):
        self.pixels = samples(repetition, self.shape)
        self.data = filtered(self.pixels)

    def call(self):
        # Of an output of another shape scipy says so, and ends.
        ndimage.zoom(self.data, self.zoom, output=self.output, order=3, mode="mirror", prefilter=False, grid_mode=False)

    def check(self):
        """The value at each pixel is the pixel, which it is only if the positions are those of the enlarged picture."""
        if not numpy.allclose(self.output[:: self.FACTOR, :: self.FACTOR], self.pixels, rtol=0, atol=1 / 256):
            sys.exit("the zoom does not return the pixels")


class EnlargeTwice(Enlarge):
    """The same at factor 2."""

    FACTOR = 2


# Each case: the call, the shape of its data, where a picture's height comes first, and a shape so small that only the call itself takes time.
# Enlarged at factor 16 that one has 289 values, which take a part of the time.
CASES = {
    "row_transform": (Transform, (4096,), (2,)),
    "picture_transform": (Transform, (512, 512), (2, 2)),
    "picture_transform_packed": (PackedBand, (512, 128), (2, 2)),
    "picture_transform_band": (Band, (512, 128), (2, 2)),
    "row_zoom": (Zoom, (4096,), (2,)),
    "row_value": (Values, (4096,), (2,)),
    "picture_value": (Values, (512, 512), (2, 2)),
    "picture_enlarge_16": (Enlarge, (64, 64), (2, 2)),
    "picture_enlarge_2": (EnlargeTwice, (512, 512), (2, 2)),
}


def least(operation, shape, repetitions):
    case = operation(shape)
    times = []
    for repetition in range(repetitions):
        case.load(repetition)
        case.output.fill(-1.0)
        start = time.perf_counter_ns()
        case.call()
        times.append(time.perf_counter_ns() - start)
        if hasattr(case, "check"):
            case.check()
    return min(times) / 1000


def main():
    if sys.argv[1] == "version":
        print(scipy.__version__)
        return
    if sys.argv[1] not in CASES:
        print("- -")
        return
    operation, shape, small = CASES[sys.argv[1]]
    repetitions = int(sys.argv[2])
    print(f"{least(operation, shape, repetitions):.2f} {least(operation, small, repetitions):.2f}")


if __name__ == "__main__":
    main()
