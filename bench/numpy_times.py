"""Measures the search for an onset with numpy, for orientation.

'numpy_times.py version' prints the version of numpy. 'numpy_times.py NAME REPETITIONS' prints a time in microseconds, or '-' for a case that
it does not have: the minimum over the repetitions. Each repetition has a fresh row of noise, of which the values at the places of the case reach
the threshold and no others do.
"""
import sys
import time

import numpy

COUNT = 65521
FACTOR = 16
RUN = 8
THRESHOLD = 256 * 4096

PLACES = numpy.arange(COUNT)

# At which places the values of each case reach the threshold.
CASES = {
    "onset_none": PLACES < 0,
    "onset_end": PLACES >= COUNT - RUN,
    "onset_seven_of_eight": PLACES % 8 >= 1,
    "onset_seven_of_nine": PLACES % 9 >= 2,
}


def find(values, threshold):
    """The position and the height of the onset, or the greatest height. A run of eight is two of four, and these are two of two each."""
    one = values >= threshold
    two = one[:-1] & one[1:]
    four = two[:-2] & two[2:]
    eight = four[:-4] & four[4:]
    place = eight.argmax()
    if eight[place]:
        return place / FACTOR, values[place] / 256
    return values.max() / 256


def least(reached, repetitions):
    generator = numpy.random.default_rng(COUNT)
    times = []
    for _ in range(repetitions):
        distances = generator.integers(0, 32768, COUNT, numpy.int32)
        values = numpy.where(reached, THRESHOLD + distances, THRESHOLD - 1 - distances)
        start = time.perf_counter_ns()
        find(values, THRESHOLD)
        times.append(time.perf_counter_ns() - start)
    return min(times) / 1000


def main():
    if sys.argv[1] == "version":
        print(numpy.__version__)
    elif sys.argv[1] in CASES:
        print(f"{least(CASES[sys.argv[1]], int(sys.argv[2])):.2f}")
    else:
        print("-")


if __name__ == "__main__":
    main()
