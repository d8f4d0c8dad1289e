"""Reading a clip from a WAVE file in memory, written from docs/SPECIFICATION.md alone, and how the tests build such files."""
from shared.reference import length_refusal

LEAST_FORMAT = 16


def number(part):
    """The number that bytes are, the lowest first."""
    return int.from_bytes(part, "little")


def bodies(file):
    """The bodies of the first "fmt " chunk and of the first "data" chunk, or None for a file that is refused as 11."""
    if file[:4] != b"RIFF" or file[8:12] != b"WAVE" or number(file[4:8]) != len(file) - 8:
        return None
    form, start = None, 12
    while start + 8 <= len(file):
        name, size = file[start : start + 4], number(file[start + 4 : start + 8])
        body = file[start + 8 : start + 8 + size]
        start += 8 + size + size % 2
        if start > len(file):
            return None
        if name == b"data":
            return None if form is None or len(form) < LEAST_FORMAT else (form, body)
        if name == b"fmt " and form is None:
            form = body
    return None


def reading(file, room):
    """The number of the refusal if a file is read into a sample slice of this length, or else its samples and its rate."""
    found = bodies(file)
    if found is None:
        return 11
    form, content = found
    if (number(form[:2]), number(form[2:4]), number(form[14:16])) != (1, 1, 16):
        return 12
    count = len(content) // 2
    if len(content) % 2 == 1 or room < count:
        return 13
    samples = [int.from_bytes(content[2 * i : 2 * i + 2], "little", signed=True) for i in range(count)]
    return length_refusal(count) or (samples, number(form[4:8]))


# ----- Files -----


def field(value, size):
    """A number as so many bytes."""
    return value.to_bytes(size, "little")


def chunk(name, body, size=None, pad=None):
    """A chunk; its size and its pad byte, if they are given, may be wrong."""
    return name + field(len(body) if size is None else size, 4) + body + (bytes(len(body) % 2) if pad is None else pad)


def file_of(*chunks, size=None):
    """A file of these chunks; its size, if it is given, may be wrong."""
    content = b"WAVE" + b"".join(chunks)
    return b"RIFF" + field(len(content) if size is None else size, 4) + content


def plain_format(rate=96000, tag=1, channels=1, bits=16, more=b""):
    """The body of a "fmt " chunk, with more bytes after the sixteen; its byte rate and block alignment are those of the rest."""
    block = channels * bits // 8
    return field(tag, 2) + field(channels, 2) + field(rate, 4) + field(rate * block % 2**32, 4) + field(block % 2**16, 2) + field(bits, 2) + more


def content_of(samples):
    """The body of a "data" chunk."""
    return b"".join(field(sample % 2**16, 2) for sample in samples)
