"""Segments to read: random ones, spoiled in many ways, and the cuts and changes of a sample. All chance comes from the generator that is handed in."""
from __future__ import annotations

from random import Random
from typing import NamedTuple

from segment import CHUNK, END, ENTRY, IMAGE_LIMIT, chunk_bytes, crc32c

MAX_ID = 2**64 - 1
FILE_IDS = (0, 1, 5, 7, 255, 256, 2**32, 2**63, MAX_ID)
DATA_LENGTHS = (0, 0, 1, 2, 3, 4, 5, 7, 8, 9, 16, 17, 30, 60)
OFTEN_MARKS = bytes(range(256)) + bytes([0, ENTRY, CHUNK, END]) * 256
WRONG_LENGTHS = (0, 1, 20, 65_536, 2**31, 2**32 - 5, 2**32 - 4, 2**32 - 1)


class Segment(NamedTuple):
    """A segment's bytes, and the file id to read it with."""

    image: bytes
    file_id: int


class Addition(NamedTuple):
    """What is appended to a segment."""

    entry_id: int
    texts: list[bytes]


# ---- parts of a segment


def noise(rnd: Random, count: int) -> bytes:
    """Any bytes, and marks more often than others."""
    return bytes(rnd.choices(OFTEN_MARKS, k=count))


def some_id(rnd: Random, file_id: int) -> int:
    """Mostly an id that may stand in the file: the file's own, the next, the last; also the one below, and any."""
    return rnd.choice((file_id, file_id, min(file_id + 1, MAX_ID), MAX_ID, max(file_id - 1, 0), rnd.randrange(2**64)))


def header(rnd: Random) -> bytes:
    """A header with some version info."""
    v = rnd.choice((0, 0, 0, 1, 3, 255, rnd.randrange(256)))
    return b"okw\0" + bytes([v]) + noise(rnd, v)


def chunk(rnd: Random) -> bytes:
    """A chunk; now and then its length or its CRC is wrong."""
    data = noise(rnd, rnd.choice(DATA_LENGTHS))
    n, crc = len(data), crc32c(data)
    if rnd.random() < 0.05:
        n = rnd.choice(WRONG_LENGTHS)
    if rnd.random() < 0.08:
        crc ^= 1 << rnd.randrange(32)
    return chunk_bytes(n, data, crc)


def cut_header(rnd: Random) -> bytes:
    """An 02 with too few bytes for a length."""
    return bytes([CHUNK]) + bytes(rnd.randrange(4))


def entry_end(rnd: Random) -> bytes:
    """Mostly an 03; else nothing, or another byte."""
    return rnd.choices((bytes([END]), b"", bytes([rnd.randrange(256)])), (8, 1, 1))[0]


def stray(rnd: Random) -> bytes:
    """Mostly nothing; else marks and chunks behind an entry that has ended."""
    ends = bytes([END]) * rnd.randrange(1, 4)
    return rnd.choices((b"", ends, chunk(rnd), chunk(rnd) + ends, cut_header(rnd)), (16, 2, 1, 1, 1))[0]


def entry(rnd: Random, file_id: int) -> bytes:
    """An entry, and what may stand behind it."""
    lead = bytes([ENTRY]) + some_id(rnd, file_id).to_bytes(8, "little")
    chunks = b"".join(chunk(rnd) for _ in range(rnd.choice((0, 1, 1, 2, 3, 6))))
    return lead + chunks + entry_end(rnd) + stray(rnd)


def tail(rnd: Random) -> bytes:
    """What ends a file: nothing, zeros as a preallocation leaves them, any bytes, a header that is cut."""
    return rnd.choices((b"", bytes(rnd.randrange(80)), noise(rnd, rnd.randrange(30)), cut_header(rnd)), (4, 3, 2, 1))[0]


# ---- spoiling


def shortened(rnd: Random, image: bytes) -> bytes:
    """The image, cut anywhere."""
    return image[: rnd.randrange(len(image) + 1)]


def changed(rnd: Random, image: bytes) -> bytes:
    """The image with one to four bytes changed."""
    spoiled = bytearray(image)
    for _ in range(rnd.choice((1, 1, 2, 4))):
        spoiled[rnd.randrange(len(image))] = noise(rnd, 1)[0]
    return bytes(spoiled)


def changed_header(rnd: Random, image: bytes) -> bytes:
    """The image with one of its first five bytes changed."""
    i = rnd.randrange(5)
    return image[:i] + noise(rnd, 1) + image[i + 1 :]


def widened(rnd: Random, image: bytes) -> bytes:
    """The image with a few bytes put in."""
    i = rnd.randrange(len(image) + 1)
    return image[:i] + noise(rnd, rnd.randrange(5)) + image[i:]


def replaced(rnd: Random, image: bytes) -> bytes:
    """Any bytes, at most as many as the image has."""
    return noise(rnd, rnd.randrange(len(image)))


def kept(rnd: Random, image: bytes) -> bytes:
    """The image as it is."""
    return image


# ---- whole segments


def random_segment(rnd: Random) -> Segment:
    """Entries, well made or not, in a file that may be spoiled; now and then it is read with another id than it was made with."""
    file_id = rnd.choice(FILE_IDS + (rnd.randrange(2**64),))
    entries = b"".join(entry(rnd, file_id) for _ in range(rnd.choice((0, 1, 1, 2, 3, 5, 8))))
    spoil = rnd.choices((kept, shortened, changed, changed_header, widened, replaced), (8, 4, 5, 1, 1, 1))[0]
    image = spoil(rnd, header(rnd) + entries + tail(rnd))
    if rnd.random() < 0.1:
        file_id = some_id(rnd, file_id)
    return Segment(image, file_id)


def roomy_segment(rnd: Random) -> Segment:
    """A random segment, mostly with room behind it."""
    segment = random_segment(rnd)
    return segment._replace(image=segment.image + bytes(rnd.choice((0, 10, 40, 120, 6000))))


def random_addition(rnd: Random, file_id: int) -> Addition:
    """An entry to append: up to three texts, of bytes that an argument can hold, so no 0; some are longer than okw's staging."""
    lengths = [rnd.choice((0, 1, 5, 20, 40, 40, 40, 5000)) for _ in range(rnd.randrange(1, 4))]
    texts = [rnd.randbytes(length).replace(b"\0", b" ") for length in lengths]
    return Addition(some_id(rnd, file_id), texts)


def largest_segments() -> list[Segment]:
    """A fresh segment of the largest size, and one with a byte more."""
    return [Segment(b"okw\0\0".ljust(size, b"\0"), 7) for size in (IMAGE_LIMIT, IMAGE_LIMIT + 1)]


def truncations(image: bytes) -> list[bytes]:
    """Every beginning of the image, and the image."""
    return [image[:end] for end in range(len(image) + 1)]


def byte_changes(rnd: Random, image: bytes) -> list[bytes]:
    """For each byte of the image: it is made each of the marks, 0, 255 and any other."""
    changes = []
    for i in range(len(image)):
        values = {0, ENTRY, CHUNK, END, 255, rnd.randrange(256)} - {image[i]}
        changes += [image[:i] + bytes([value]) + image[i + 1 :] for value in sorted(values)]
    return changes
