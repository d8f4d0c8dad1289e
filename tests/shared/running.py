"""How an outside test builds what it tests, lends buffers, calls the library and counts its groups.

What is tested is a program, or the library, or the plotter above it: the crate harness or delay_harness, built by the kit and linked into a shared
library. A group of comparisons counts as one test and runs in a process of its own, so that a crash or a call that never returns fails that group
only.
"""
import argparse
import collections
import ctypes
import mmap
import os
import random
import shutil
import signal
import subprocess
import sys
import tempfile
import time
import traceback
from fractions import Fraction
from importlib.machinery import SourceFileLoader
from importlib.util import module_from_spec, spec_from_loader

SECONDS_FOR_A_GROUP = 60
ROOT = os.path.dirname(os.path.dirname(os.path.dirname(os.path.abspath(__file__))))

SLICE = [ctypes.c_void_p, ctypes.c_size_t]
SIZE = [ctypes.c_size_t]
VALUE = [ctypes.c_int32]
FLOAT = [ctypes.c_void_p]  # where it is written
STATE = 2 * [ctypes.c_void_p]  # where the marks of a turn-taker are, and the station served last

# The parameters of each exported function, which is harness_ and this name. Every one returns 64 bits.
PARAMETERS = {
    "row_transform": 3 * SLICE,
    "picture_transform": SLICE + 3 * SIZE + 2 * SLICE,
    "row_value": SLICE + 3 * SIZE,
    "row_zoom": SLICE + SIZE + SLICE,
    "picture_value": SLICE + 8 * SIZE,
    "picture_enlarge": SLICE + 4 * SIZE + SLICE,
    "wav_read": 2 * SLICE,
    "onset_find": SLICE + SIZE + VALUE + 2 * FLOAT,
    "delay_between": 2 * SLICE + SIZE + VALUE + 3 * FLOAT,
    "announce": STATE + SIZE,
    "turn": STATE,
}


class Wrong(Exception):
    """A result that is not as specified."""


class Slice:
    """A lent slice between two guards: the numbers before it and after it belong to nobody and must not change."""

    GUARD = 16

    def __init__(self, kind, numbers):
        self.length = len(numbers)
        low = -(2 ** (8 * ctypes.sizeof(kind) - 1))
        guard = [low + 12345 + i for i in range(self.GUARD)]
        self.memory = self.held(kind, guard, list(numbers))
        self.before = type(self.memory).from_buffer_copy(self.memory)
        self.lent = ctypes.c_void_p(ctypes.addressof(self.memory) + self.GUARD * ctypes.sizeof(kind))

    def held(self, kind, guard, numbers):
        """The numbers in memory, and the guards; of a number too great for its kind the low bits."""
        together = guard + numbers + guard
        memory = (kind * len(together))()
        memory[:] = together
        return memory

    def words(self, length=None):
        """How the slice is passed, or as much of its start."""
        return self.lent, self.length if length is None else length

    def numbers(self):
        return self.memory[self.GUARD : self.GUARD + self.length]

    def put(self, place, number):
        """Another number in this place before the next call."""
        self.memory[self.GUARD + place] = self.before[self.GUARD + place] = number

    def same_bytes(self, start, end):
        """Whether nothing has changed in these places; a comparison of bytes is faster than one of numbers."""
        size = ctypes.sizeof(self.memory._type_)
        now, before = [memoryview(memory).cast("B")[size * start : size * end] for memory in (self.memory, self.before)]
        return now == before

    def demand(self, name, written):
        """The slice must now start with what is written there and be unchanged beyond it; so must both guards."""
        written, end = list(written), self.GUARD + len(written)
        if self.memory[self.GUARD : end] == written and self.same_bytes(0, self.GUARD) and self.same_bytes(end, len(self.memory)):
            return
        expected = self.before[:]
        expected[self.GUARD : self.GUARD + len(written)] = written
        now = self.memory[:]
        if now != expected:
            at = next(i for i, pair in enumerate(zip(now, expected)) if pair[0] != pair[1])
            place = at - self.GUARD
            where = "" if 0 <= place < self.length else f", which is outside the slice of {self.length},"
            raise Wrong(f"{name}[{place}]{where} is {now[at]} and should be {expected[at]}")


def protect(start, size, access):
    """Leaves this access to the pages from a start on."""
    if ctypes.CDLL(None).mprotect(ctypes.c_void_p(start), ctypes.c_size_t(size), access) != 0:
        raise OSError("the access to a page could not be changed")


class LastSlice(Slice):
    """A lent slice at the end of memory, with a guard before it: what follows it can be neither read nor written, and a call that does so ends by
    a signal."""

    def held(self, kind, guard, numbers):
        together = guard + numbers
        array = kind * len(together)
        size = ctypes.sizeof(array)
        room = -(-size // mmap.PAGESIZE) * mmap.PAGESIZE
        memory = array.from_buffer(mmap.mmap(-1, room + mmap.PAGESIZE), room - size)
        memory[:] = together
        protect(ctypes.addressof(memory) + size, mmap.PAGESIZE, 0)
        return memory


class FirstSlice(Slice):
    """A lent slice at the start of memory, without guards: what is before it can be neither read nor written."""

    GUARD = 0

    def held(self, kind, guard, numbers):
        array = kind * len(numbers)
        memory = array.from_buffer(mmap.mmap(-1, mmap.PAGESIZE + max(1, ctypes.sizeof(array))), mmap.PAGESIZE)
        memory[:] = numbers
        protect(ctypes.addressof(memory) - mmap.PAGESIZE, mmap.PAGESIZE, 0)
        return memory


class ReadOnlySlice(LastSlice):
    """A lent slice at the end of memory that cannot be written: a call that writes, even what stands there, ends by a signal."""

    def held(self, kind, guard, numbers):
        memory = super().held(kind, guard, numbers)
        before = ctypes.addressof(memory) % mmap.PAGESIZE
        protect(ctypes.addressof(memory) - before, before + ctypes.sizeof(memory), mmap.PROT_READ)
        return memory


class Sparse:
    """A lent slice of zeros, but for some parts by their places. Only the pages of these parts take memory."""

    # MAP_NORESERVE of Linux, which not every Python names.
    NO_RESERVE = 0x4000

    def __init__(self, kind, length, parts=()):
        self.length = length
        self.memory = mmap.mmap(-1, length * ctypes.sizeof(kind), flags=mmap.MAP_PRIVATE | mmap.MAP_ANONYMOUS | self.NO_RESERVE)
        self.start = (kind * 4096).from_buffer(self.memory)
        self.parts = dict(parts)
        for place, part in self.parts.items():
            self.memory[place : place + len(part)] = part

    def words(self):
        return ctypes.c_void_p(ctypes.addressof(self.start)), self.length

    def demand(self, name, written):
        """What is written must stand at the start, before zeros, if the slice had no parts; the parts must be unchanged."""
        expected = [*written, *[0] * (4096 - len(written))]
        if not self.parts and self.start[:] != expected:
            raise Wrong(f"{name} are {self.start[:8]} and should be {expected[:8]}")
        for place, part in self.parts.items():
            if self.memory[place : place + len(part)] != part:
                raise Wrong(f"{name} have changed at {place}")


def filled(count, start):
    """What stands in a buffer before a call: numbers that are all different and not 0."""
    return range(start, start + count)


def shown(numbers):
    start = ", ".join(map(str, numbers[:40]))
    return f"({start})" if len(numbers) <= 40 else f"({start}, ...)"


def demand_equal(name, found, expected):
    """For what the specification says in so many words."""
    if found != expected:
        raise Wrong(f"{name}: {found}, and the specification says {expected}")


class Library:
    """The exported functions by their names, and all that was linked."""

    def __init__(self, file):
        self.linked = ctypes.CDLL(file)
        self.functions = {}
        for operation, types in PARAMETERS.items():
            function = getattr(self.linked, "harness_" + operation, None)
            if function is not None:
                function.argtypes = types
                function.restype = ctypes.c_int64
                self.functions[operation] = function


class Tests:
    """What every group has: what its process says last, and what is printed with the group: its seed, its calls, how many of these were accepted
    where that is counted, and the greatest distance found."""

    CALLS = "calls"

    def __init__(self):
        # The call in progress, which the parent prints after a crash, or the summary of a group.
        self.in_progress = mmap.mmap(-1, 4096)
        self.seed = None
        self.calls = 0
        self.met = collections.Counter()
        self.greatest = Fraction(0)

    def say(self, case):
        self.in_progress.seek(0)
        self.in_progress.write(case.encode()[:4000] + b"\0")

    def said(self):
        return self.in_progress[:].split(b"\0")[0].decode(errors="replace")

    def random(self, seed):
        self.seed = seed
        return random.Random(seed)

    def within(self, distance, limit, what):
        self.greatest = max(self.greatest, distance)
        if distance > limit:
            raise Wrong(f"{what} lies {float(distance)} units from the exact one, more than {limit}")

    def demand_met(self, *outcomes):
        """The cases were of all these kinds: accepted, or answered so, or refused with this number."""
        missing = [outcome for outcome in outcomes if self.met[outcome] == 0]
        if missing:
            raise Wrong(f"no case of this group is of the kinds {missing}")

    def summary(self):
        seed = f"seed {self.seed}, " if self.seed is not None else ""
        calls = f"{self.calls} {self.CALLS}, " if self.calls > 0 else ""
        accepted = f"{self.met['accepted']} accepted, " if self.met["accepted"] > 0 else ""
        return seed + calls + accepted + (f"greatest distance {float(self.greatest):.4f}, " if self.greatest > 0 else "")


class LibraryTests(Tests):
    """What the groups have that call the library."""

    def __init__(self, library):
        super().__init__()
        self.library = library


class Count:
    """The groups that passed and failed, and the name of the test in front of each line."""

    def __init__(self, label):
        self.label = label
        self.passed = 0
        self.failed = 0

    def say(self, what):
        print(f"{self.label}: {what}", flush=True)

    def add(self, passes, what):
        if passes:
            self.passed += 1
        else:
            self.failed += 1
        self.say(what)

    def finish(self):
        print(f"{self.passed} passed, {self.failed} failed")
        sys.exit(0 if self.failed == 0 else 1)


def run_in_child(group, tests, count):
    """What the child process of a group does. It never returns."""
    signal.alarm(SECONDS_FOR_A_GROUP)
    status = 1
    try:
        group(tests)
        tests.say(tests.summary())
        status = 0
    except Wrong as wrong:
        count.say(f"FAILED: {wrong}")
    except BaseException:
        traceback.print_exc(file=sys.stdout)
    sys.stdout.flush()
    os._exit(status)


def run_group(name, group, tests, count):
    """Runs a group in a child process; only exit status 0 is a pass."""
    tests.say("no call")
    start = time.monotonic()
    sys.stdout.flush()
    child = os.fork()
    if child == 0:
        run_in_child(group, tests, count)
    status = os.waitstatus_to_exitcode(os.waitpid(child, 0)[1])
    if status < 0:
        count.say(f"FAILED: ended by signal {-status} ({signal.Signals(-status).name}) in the case: {tests.said()}")
    seconds = f"{time.monotonic() - start:.1f} s"
    count.add(status == 0, f"{name}: passed ({tests.said()}{seconds})" if status == 0 else f"{name}: FAILED ({seconds})")


def example(name):
    """A script of examples/, as a module."""
    loader = SourceFileLoader(name, os.path.join(ROOT, "examples", name))
    module = module_from_spec(spec_from_loader(loader.name, loader))
    loader.exec_module(module)
    return module


def up_to_date(file):
    """Whether a file was built after all that it can be built of, sources and kit, was last changed."""
    if not os.path.exists(file):
        return False
    made = os.sep + "out"
    sources = [os.path.join(folder, name) for folder, _, names in os.walk(os.path.join(ROOT, "crates")) if made not in folder for name in names]
    changed = [os.path.join(ROOT, "crates.txt"), os.path.realpath(shutil.which("rt")), *sources]
    return all(os.path.getmtime(source) < os.path.getmtime(file) for source in changed)


def built(count, crate, command, name):
    """The file of this name that a command of the kit builds in a crate's folder, where it is not up to date; None, with a failure counted, if that
    cannot be done."""
    folder = os.path.join(ROOT, "crates", crate)
    file = os.path.join(folder, "out", name)
    if up_to_date(file):
        return file
    done = subprocess.run(command.split(), cwd=folder, stdout=subprocess.PIPE, stderr=subprocess.STDOUT, text=True)
    if done.returncode != 0 or not os.path.exists(file):
        print(done.stdout, end="")
        count.add(False, f"FAILED: '{command}' in {folder} ended with status {done.returncode}")
        return None
    return file


def file_to_test(count, what, option, crate, command, name, tools=()):
    """The file that the command line names by this option, or the one of this tree, built; None, with a failure counted, if there is none."""
    parser = argparse.ArgumentParser(description=what)
    parser.add_argument("--" + option, metavar="FILE", help=f"test this {option} and build none in its place")
    given = vars(parser.parse_args())[option]
    for tool in tools if given else (*tools, "rt"):
        if shutil.which(tool) is None:
            count.add(False, f"FAILED: the command '{tool}' is not on the PATH")
    if given and not os.path.isfile(given):
        count.add(False, f"FAILED: there is no file '{given}'")
    if count.failed > 0:
        return None
    return os.path.abspath(given) if given else built(count, crate, command, name)


def archive(crate):
    """A crate, the command of the kit that builds its static library, and that library's name."""
    return crate, "rt lib", f"lib{crate}.a"


def main(label, what, kind, definitions, groups, sources=(), crate="harness", beside=()):
    """Tests what a crate exports: runs the group of the test's own definitions and then, with a fresh object of this kind of tests each, the
    groups of every operation. The sources are C files of tests/shared that are linked with it, and beside it are crates of this tree that the
    groups call too."""
    count = Count(label)
    tested = file_to_test(count, what, "library", *archive(crate), ("cc", "rt") if beside else ("cc",))
    archives = [tested, *(built(count, *archive(other)) for other in beside)] if tested else [None]
    if None in archives:
        count.finish()
    with tempfile.TemporaryDirectory() as room:
        shared = os.path.join(room, f"{label}.so")
        files = [os.path.join(ROOT, "tests", "shared", source) for source in sources]
        linked = subprocess.run(["cc", "-O2", "-fPIC", "-shared", "-o", shared, *files, "-Wl,--whole-archive", *archives, "-Wl,--no-whole-archive"])
        if linked.returncode != 0:
            count.add(False, "FAILED: no shared library could be made of the static one")
            count.finish()
        library = Library(shared)
        run_group("the definitions in this test", definitions, kind(library), count)
        for operation, named in groups.items():
            if operation not in library.functions:
                count.add(False, f"FAILED: harness_{operation} is not exported")
                continue
            for name, group in named:
                run_group(f"{operation}, {name}", group, kind(library), count)
    count.finish()
