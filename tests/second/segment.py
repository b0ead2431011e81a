"""The second reader: document 01's reading of a segment, said once more, and the bytes that an append makes.

Its rules are document 01's and not taken from the code: a docstring quotes the rule that a part is, and the names are the document's.
"""
from __future__ import annotations

import copy
from dataclasses import dataclass
from enum import Enum

IMAGE_LIMIT = 1_048_576
"""Ranges (12): "image at most 1,048,576 bytes"."""

ENTRY, CHUNK, END = 0x01, 0x02, 0x03
"""The marks: "Entry: 01, id (8 bytes), chunks, 03", "Chunk: 02, length n (4 bytes), n bytes, CRC-32C of those n bytes (4 bytes)"."""


# ---- numbers and sums


def number(data: bytes) -> int:
    """The rule: "Numbers are little-endian"."""
    return int.from_bytes(data, "little")


def crc_table() -> list[int]:
    """What eight turns make of each byte: "reflected polynomial 0x82F63B78"."""
    table = []
    for byte in range(256):
        register = byte
        for _ in range(8):
            register = (register >> 1) ^ (0x82F63B78 if register & 1 else 0)
        table.append(register)
    return table


CRC_TABLE = crc_table()


def crc32c(data: bytes) -> int:
    """The sum: "register all ones at the start, complemented at the end"."""
    register = 0xFFFFFFFF
    for byte in data:
        register = (register >> 8) ^ CRC_TABLE[(register ^ byte) & 0xFF]
    return register ^ 0xFFFFFFFF


# ---- what is met in a reading


class Refused(Exception):
    """A refusal by its number; with 9 and 10 comes the offset of the refused chunk's 02."""

    def __init__(self, no: int, mark: int = 0) -> None:
        super().__init__(no, mark)
        self.no = no
        self.mark = mark


class Over(Enum):
    """How an entry's chunks are over: "03 is passed and ends the entry, any other byte or none is an aborted entry"."""

    COMPLETE = "complete"
    ABORTED = "aborted"


@dataclass(frozen=True)
class Chunk:
    """A chunk, as much of it as the image holds: the offset of its 02, n, the data that is present, the stored CRC where it is not cut."""

    mark: int
    n: int
    data: bytes
    stored_crc: int | None

    @property
    def right(self) -> bool:
        """The CRC check, where nothing is cut: yes or no."""
        return self.stored_crc == crc32c(self.data)


@dataclass(frozen=True)
class Entry:
    """An entry: where it begins, its id, what reading it whole answers, and its chunks; the last of these may be a header that is cut."""

    offset: int
    id: int
    verdict: Over | Refused
    chunks: list[Chunk | Refused]


@dataclass(frozen=True)
class Reading:
    """A whole reading: the version info, the entries in turn with a 9 that comes between them, and `valid_until` at the end."""

    version_info: bytes
    met: list[Entry | Refused]
    valid_until: int


def chunk_at(image: bytes, mark: int) -> Chunk:
    """The chunk whose 02 is at mark: "min(asked, owed, present) bytes" of data, n of them asked; no CRC "if fewer than 4 remain"."""
    n = number(image[mark + 1 : mark + 5])
    stored = image[mark + 5 + n : mark + 9 + n]
    return Chunk(mark, n, image[mark + 5 : mark + 5 + n], number(stored) if len(stored) == 4 else None)


# ---- the reader


@dataclass
class Reader:
    """The reader "holds the caller's image and a place in it". Calls without the entry that they need (6) are not made here."""

    image: bytes
    file_id: int
    place: int
    valid_until: int
    chunk: Chunk | None = None
    entry_is_current: bool = False

    def byte(self) -> int | None:
        """The byte at the place, or none."""
        return self.image[self.place] if self.place < len(self.image) else None

    def enter_chunk(self) -> Chunk:
        """At an 02: "02 with fewer than 5 bytes: 9, place at the image's end, no entry current"."""
        mark = self.place
        if len(self.image) - mark < 5:
            self.place = len(self.image)
            self.entry_is_current = False
            raise Refused(9, mark)
        self.place = mark + 5
        self.chunk = chunk_at(self.image, mark)
        return self.chunk

    def leave_chunk(self) -> None:
        """The rule: "Leaving a chunk puts the place at its 02 + 9 + n, in exact arithmetic, even past the image. Skipping checks no CRC"."""
        if self.chunk is not None:
            self.place = self.chunk.mark + 9 + self.chunk.n
            self.chunk = None

    def skip_chunks(self) -> None:
        """The rule: "look for chunks and skip them until something else than a chunk is met; a 03 met there is passed, a cut chunk header answers 9"."""
        while self.byte() == CHUNK:
            self.enter_chunk()
            self.leave_chunk()
        if self.byte() == END:
            self.place += 1

    def next_entry(self) -> int | None:
        """The next entry's id, or none where the reading has ended.

        Calls for an entry "first leave an open chunk". "If an entry is current", its chunks are skipped. "Then `valid_until` becomes the place, and 9 bytes
        are read. Fewer than 9, a lead byte other than 1, or an id below the file id: the reading has ended. Ids need not rise. An ended reader stays at
        `valid_until`".
        """
        self.leave_chunk()
        if self.entry_is_current:
            self.skip_chunks()
        self.valid_until = self.place
        lead = self.image[self.place : self.place + 9]
        if len(lead) < 9 or lead[0] != ENTRY or number(lead[1:]) < self.file_id:
            return None
        self.place += 9
        self.entry_is_current = True
        return number(lead[1:])

    def next_chunk(self) -> Chunk | Over:
        """The next chunk, or how the chunks are over.

        Calls for a chunk "first leave an open chunk". "02 is a chunk, 03 is passed and ends the entry, any other byte or none is an aborted entry and is not
        passed. After 03 the entry stays current, so stray 02 or 03 bytes that follow are passed by the next call for an entry".
        """
        self.leave_chunk()
        if self.byte() == CHUNK:
            return self.enter_chunk()
        if self.byte() == END:
            self.place += 1
            return Over.COMPLETE
        return Over.ABORTED

    def whole_entry(self) -> Over:
        """The whole entry, "from the next chunk on": complete, "or aborted, or 9 for any cut, or 10".

        The rule: "Each chunk is tested before the next. After 10, or 9 for data or CRC, the place is the refused chunk's 02 + 9 + n and the entry stays
        current".
        """
        while True:
            met = self.next_chunk()
            if isinstance(met, Over):
                return met
            self.leave_chunk()
            if met.stored_crc is None:
                raise Refused(9, met.mark)
            if not met.right:
                raise Refused(10, met.mark)


def open_reader(image: bytes, file_id: int) -> Reader:
    """The order of refusals: "Opening a reader: 12, 1 (five bytes), 2, 3, 1 (version info)". Then "`valid_until` starts at 5 + v"."""
    if len(image) > IMAGE_LIMIT:
        raise Refused(12)
    if len(image) < 5:
        raise Refused(1)
    if image[:3] != bytes.fromhex("6F 6B 77"):
        raise Refused(2)
    if image[3] != 0:
        raise Refused(3)
    start = 5 + image[4]
    if len(image) < start:
        raise Refused(1)
    return Reader(image, file_id, place=start, valid_until=start)


# ---- a whole reading


def chunks_ahead(reader: Reader) -> list[Chunk | Refused]:
    """The chunks of the entry that the reader has just entered, one call after the other, whatever their CRCs; the reader stays where it is."""
    ahead = copy.copy(reader)
    found: list[Chunk | Refused] = []
    while True:
        try:
            met = ahead.next_chunk()
        except Refused as cut:
            return found + [cut]
        if isinstance(met, Over):
            return found
        found.append(met)


def read_entry(reader: Reader, entry_id: int) -> Entry:
    """The entry that the reader has just entered, read whole; its first byte is at `valid_until`."""
    offset, chunks = reader.valid_until, chunks_ahead(reader)
    try:
        verdict: Over | Refused = reader.whole_entry()
    except Refused as refused:
        verdict = refused
    return Entry(offset, entry_id, verdict, chunks)


def read_segment(image: bytes, file_id: int) -> Reading:
    """Entry after entry, each whole, going on after a refused one, until the reading has ended."""
    reader = open_reader(image, file_id)
    version_info = image[5 : reader.place]
    met: list[Entry | Refused] = []
    while True:
        try:
            entry_id = reader.next_entry()
        except Refused as cut:
            met.append(cut)
            continue
        if entry_id is None:
            return Reading(version_info, met, reader.valid_until)
        met.append(read_entry(reader, entry_id))


# ---- an append


def chunk_bytes(n: int, data: bytes, crc: int) -> bytes:
    """The format: "Chunk: 02, length n (4 bytes), n bytes, CRC-32C of those n bytes (4 bytes)"."""
    return bytes([CHUNK]) + n.to_bytes(4, "little") + data + crc.to_bytes(4, "little")


def append(image: bytes, file_id: int, entry_id: int, texts: list[bytes]) -> bytes:
    """One entry more at `valid_until`, in a file that keeps its size; what stands behind stays.

    okw opens its writer with the file's size as file length, image size and preallocation (docs/DECISIONS.md), so that an opening changes no byte.

    Opening a writer: "validated length ≤ file length", else 12. "Begin: 12, 6, 7, 5", where 7 is "entry id below the segment id", and "room needs logical
    position + 10 ≤ image size". "Begin chunk of n (in an entry): logical position + n + 10 ≤ image size".
    """
    start = read_segment(image, file_id).valid_until
    if start > len(image):
        raise Refused(12)
    if entry_id < file_id:
        raise Refused(7)
    if start + 10 > len(image):
        raise Refused(5)
    entry = bytes([ENTRY]) + entry_id.to_bytes(8, "little")
    for text in texts:
        if start + len(entry) + len(text) + 10 > len(image):
            raise Refused(5)
        entry += chunk_bytes(len(text), text, crc32c(text))
    entry += bytes([END])
    return image[:start] + entry + image[start + len(entry) :]
