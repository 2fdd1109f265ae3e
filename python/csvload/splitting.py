"""Where a large file is cut by the program's `split`, and its parts as the program reads them."""

import errno
import os
from collections.abc import Iterator, Mapping
from typing import BinaryIO, NamedTuple, Optional, Union

from .finding import parts_of, text_of
from .running import Option, run, words_of

# So many bytes of a part are held.
PIECE = 1 << 20


class Part(NamedTuple):
    """A part of a file: its first byte, its length, and the physical line in which it begins."""

    byte: int
    length: int
    line: int


class Split(NamedTuple):
    """What all parts of a file have: the file as it was when it was cut, the words of each part, and the bytes and lines of the
    head, which stands before each."""

    file: str
    state: Optional[tuple[int, int]]
    words: list[str]
    head: int
    lines: int


def split_of(file: str, size: int, options: Mapping[str, Option]) -> tuple[Split, list[Part]]:
    """Cuts a file at the first row behind each multiple of the size, under the options that are given."""
    state = state_of(file)
    report = run(["split", file, f"size={size}", *words_of(options)]).decode("utf-8", "replace")
    lines = [[text_of(part) for part in parts_of(line)] for line in report.split("\n")]
    ((_, *words),) = [line for line in lines if line[0] == "words"]
    ((head, head_lines),) = [(int(line[1]), int(line[2])) for line in lines if line[0] == "head"]
    # All is found, so that the least sample does.
    words = [word for word in words if not word.startswith("sample_size=")] + ["sample_size=1"]
    parts = [Part(*map(int, line[2:5])) for line in lines if line[0] == "part"]
    return Split(file, state, words, head, head_lines), parts


def pieces_of(source: BinaryIO, part: Part, split: Split) -> Iterator[bytes]:
    """The head, and the part behind it."""
    for place, left in (0, split.head), (part.byte, part.length):
        source.seek(place)
        while left and (piece := source.read(min(PIECE, left))):
            yield piece
            left -= len(piece)


def state_of(file: Union[str, int]) -> Optional[tuple[int, int]]:
    """By what a change of a file is told, which can be an open one; none where it isn't there, as the program says then."""
    try:
        found = os.stat(file)
    except OSError:
        return None
    return found.st_size, found.st_mtime_ns


def check_unchanged(source: BinaryIO, split: Split) -> None:
    """Raises OSError where the file isn't as it was when it was cut."""
    if state_of(source.fileno()) != split.state:
        raise OSError(errno.ESTALE, "it was changed since it was cut into parts", split.file)
