"""Measures the reading of files by Python's module wave, for orientation.

'wave_times.py version' prints the version of Python. 'wave_times.py NAME REPETITIONS' prints a time in microseconds, or '-' for a case that reads
no file: the minimum over the repetitions of what one file takes, from its bytes in memory to its rate and an array of its samples. Each
repetition has fresh files.
"""
import array
import io
import platform
import random
import sys
import time
import wave

# How many samples a file of each case has.
CASES = {"wav_read": 4096, "wav_read_short": 64}

FILES = 16
RATE = 96000


def file_of(samples):
    """The file that wave writes, which has the same chunks as those of files.rs."""
    file = io.BytesIO()
    with wave.open(file, "wb") as clip:
        clip.setparams((1, 2, RATE, len(samples) // 2, "NONE", "not compressed"))
        clip.writeframes(samples)
    return file.getvalue()


def read(file):
    with wave.open(io.BytesIO(file)) as clip:
        return clip.getframerate(), array.array("h", clip.readframes(clip.getnframes()))


def least(count, repetitions):
    generator = random.Random(count)
    times = []
    for _ in range(repetitions):
        files = [file_of(generator.randbytes(2 * count)) for _ in range(FILES)]
        start = time.perf_counter_ns()
        for file in files:
            read(file)
        times.append(time.perf_counter_ns() - start)
    return min(times) / FILES / 1000


def main():
    if sys.argv[1] == "version":
        print(platform.python_version())
    elif sys.argv[1] in CASES:
        print(f"{least(CASES[sys.argv[1]], int(sys.argv[2])):.2f}")
    else:
        print("-")


if __name__ == "__main__":
    main()
