"""What okw prints of a reading: the lines of `okw list`, `okw show` and `okw append`, from what the second reader finds.

The form of the lines is okw's own, as tests/okw/*.txt show it; what stands in them comes from segment.py.
"""
from __future__ import annotations

import re

from segment import IMAGE_LIMIT, Chunk, Entry, Over, Reading, Refused, append, read_segment

MEANINGS = {
    1: "fewer than 5 header bytes, or fewer than the version info's length after them",
    2: "the first three header bytes differ",
    3: "the fourth header byte is not 0",
    5: "no room",
    7: "entry id below the segment id",
    9: "a chunk's header, data or CRC is cut by the image's end",
    10: "stored CRC differs, in reading a whole entry",
    12: "an argument outside its range",
}


# ---- parts of a line


def counted(count: int, what: str) -> str:
    """As `1 byte`, `2 bytes`."""
    return f"{count} {what}" if count == 1 else f"{count} {what}s"


def hexed(data: bytes) -> str:
    """As `6f 6b 77`."""
    return data.hex(" ")


def with_meaning(no: int) -> str:
    """As `5 (no room)`."""
    return f"{no} ({MEANINGS[no]})"


def not_opened(refused: Refused) -> str:
    """Why a file is not read at all; a 12 is its size."""
    return with_meaning(refused.no) + (f": a segment has at most {IMAGE_LIMIT} bytes" if refused.no == 12 else "")


def last_line(name: str, why: str) -> str:
    """The last line where the file is refused, or where nothing is."""
    return f"refused: FILE {name}: {why}" if why else "ok"


# ---- entries and chunks


def chunk_line(chunk: Chunk | Refused) -> str:
    """The offset of the 02, the length, and the stored CRC with its verdict, or what is cut."""
    start = f"  chunk at {chunk.mark}: "
    if isinstance(chunk, Refused):
        return start + "header cut"
    start += counted(chunk.n, "byte")
    if chunk.stored_crc is not None:
        return start + f", crc {chunk.stored_crc:08x}, " + ("right" if chunk.right else "wrong")
    if len(chunk.data) == chunk.n:
        return start + ", CRC cut"
    return start + f", cut: {len(chunk.data)} of them are there"


def dump_lines(chunk: Chunk | Refused) -> list[str]:
    """The data of a chunk: the offset in the file, sixteen bytes in hex, the same as text."""
    if isinstance(chunk, Refused):
        return []
    lines = []
    for i in range(0, len(chunk.data), 16):
        row = chunk.data[i : i + 16]
        text = "".join(chr(byte) if 32 <= byte < 127 else "." for byte in row)
        lines.append(f"    {chunk.mark + 5 + i:7}  {hexed(row):47}  |{text}|")
    return lines


def entry_line(entry: Entry) -> str:
    """The offset, the id, the verdict, and how many chunks and data bytes are there."""
    verdict = entry.verdict.value if isinstance(entry.verdict, Over) else "refused " + with_meaning(entry.verdict.no)
    data = sum(len(chunk.data) for chunk in entry.chunks if isinstance(chunk, Chunk))
    return f"entry at {entry.offset}: id {entry.id}, {verdict}, {counted(len(entry.chunks), 'chunk')}, {counted(data, 'byte')}"


def first_refusal(met: list[Entry | Refused]) -> str:
    """The first refusal in what was met, of an entry or between entries; nothing where there is none."""
    for item in met:
        verdict = item.verdict if isinstance(item, Entry) else item
        if isinstance(verdict, Refused):
            return with_meaning(verdict.no)
    return ""


# ---- okw list


def reading_lines(reading: Reading, size: int) -> list[str]:
    """The entries with their chunks, a 9 between them, and the two lines that end a segment."""
    lines = []
    for item in reading.met:
        if isinstance(item, Refused):
            lines.append(f"cut at {item.mark}: refused {with_meaning(item.no)}")
        else:
            lines.append(entry_line(item))
            lines += [chunk_line(chunk) for chunk in item.chunks]
    lines.append(f"valid_until {reading.valid_until}" + (", past the file" if reading.valid_until > size else ""))
    info = reading.version_info
    lines.append(f"version info, {counted(len(info), 'byte')}" + (": " + hexed(info) if info else ""))
    return lines


def segment_lines(name: str, image: bytes, file_id: int) -> tuple[list[str], str]:
    """The lines of one segment of a list, and why it is refused; nothing where it is not."""
    head = f"segment {name}, id {file_id}, {counted(len(image), 'byte')}"
    try:
        reading = read_segment(image, file_id)
    except Refused as refused:
        why = not_opened(refused)
        return [f"segment {name}: {why}"] if refused.no == 12 else [head, f"refused {why}"], why
    return [head] + reading_lines(reading, len(image)), first_refusal(reading.met)


def list_lines(files: list[tuple[str, bytes, int]]) -> list[str]:
    """All lines of `okw list` over files, each with its name, bytes and id; the last line names the first that is refused."""
    lines, last = [], "ok"
    for name, image, file_id in files:
        more, why = segment_lines(name, image, file_id)
        lines += more
        if last == "ok":
            last = last_line(name, why)
    return lines + [last]


# ---- okw show


def show_lines(name: str, image: bytes, file_id: int, entry_id: int) -> list[str]:
    """All lines of `okw show`: the entries with the id, and the bytes of their chunks."""
    try:
        reading = read_segment(image, file_id)
    except Refused as refused:
        return [last_line(name, not_opened(refused))]
    shown = [item for item in reading.met if isinstance(item, Entry) and item.id == entry_id]
    if not shown:
        return [f"refused: ENTRY {entry_id}: expected the id of an entry in the segment"]
    lines = []
    for entry in shown:
        lines.append(entry_line(entry))
        for chunk in entry.chunks:
            lines += [chunk_line(chunk)] + dump_lines(chunk)
    return lines + [last_line(name, first_refusal(shown))]


# ---- okw append


def past_the_file(image: bytes, file_id: int) -> str:
    """Why nothing is appended where the reading ends past the file: the last entry is cut, or a chunk behind it.

    What was met last is then an entry, since a 9 between entries leaves the place at the image's end.
    """
    reading = read_segment(image, file_id)
    entry = reading.met[-1]
    what = "a chunk behind the entry" if entry.verdict is Over.COMPLETE else "the entry"
    return f"{with_meaning(12)}: {what} at {entry.offset} is cut, the valid bytes would end at {reading.valid_until}, past the file"


def append_lines(name: str, image: bytes, file_id: int, entry_id: int, texts: list[bytes]) -> tuple[list[str], bytes]:
    """The line of `okw append`, and the file's bytes afterwards: a refusal leaves them as they were."""
    try:
        return ["ok"], append(image, file_id, entry_id, texts)
    except Refused as refused:
        if refused.no == 7:
            return [f"refused: ENTRY_ID {entry_id}: {with_meaning(7)}"], image
        if refused.no == 12 and len(image) <= IMAGE_LIMIT:
            return [last_line(name, past_the_file(image, file_id))], image
        return [last_line(name, not_opened(refused))], image


# ---- the kinds of lines

KINDS = {
    "list": {
        "1": r"^refused 1 \(",
        "2": r"^refused 2 \(",
        "3": r"^refused 3 \(",
        "12": r"^segment .*: 12 \(",
        "complete": r"^entry .*, complete, ",
        "aborted": r"^entry .*, aborted, ",
        "9": r"^entry .*, refused 9 \(",
        "10": r"^entry .*, refused 10 \(",
        "9 between entries": r"^cut at ",
        "right": r"^  chunk .*, right$",
        "wrong": r"^  chunk .*, wrong$",
        "header cut": r"^  chunk .*: header cut$",
        "data cut": r"^  chunk .* of them are there$",
        "CRC cut": r"^  chunk .*, CRC cut$",
        "past the file": r"^valid_until .*, past the file$",
    },
    "append": {
        "ok": r"^ok$",
        "1": r"^refused: FILE .*: 1 \(",
        "2": r"^refused: FILE .*: 2 \(",
        "3": r"^refused: FILE .*: 3 \(",
        "5": r"^refused: FILE .*: 5 \(",
        "7": r"^refused: ENTRY_ID .*: 7 \(",
        "12 size": r"^refused: FILE .*: 12 .*: a segment has ",
        "12 entry cut": r"^refused: FILE .*: 12 .*: the entry at ",
        "12 chunk behind cut": r"^refused: FILE .*: 12 .*: a chunk behind ",
    },
    "show": {
        "ok": r"^ok$",
        "no entry": r"^refused: ENTRY ",
        "1": r"^refused: FILE .*: 1 \(",
        "2": r"^refused: FILE .*: 2 \(",
        "3": r"^refused: FILE .*: 3 \(",
        "9": r"^refused: FILE .*: 9 \(",
        "10": r"^refused: FILE .*: 10 \(",
        "12": r"^refused: FILE .*: 12 \(",
    },
}
"""For each command the kinds of lines that a run must meet, each with the pattern of such a line."""


def kinds_met(command: str, lines: list[str]) -> dict[str, int]:
    """How often each kind stands in the lines."""
    text = "\n".join(lines)
    return {kind: len(re.findall(pattern, text, re.MULTILINE)) for kind, pattern in KINDS[command].items()}
