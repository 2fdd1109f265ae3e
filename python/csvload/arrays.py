"""What the program writes by `to=npz`: an archive of NumPy's arrays, read as it stands by the standard library."""

import os
import re
import tempfile
import zipfile
from collections.abc import Iterable, Iterator, Sequence
from contextlib import contextmanager
from typing import BinaryIO, NamedTuple, Optional

from .running import run

# Bytes of a member's own head in the archive up to its name, and of the front of an array up to its description.
MEMBER_HEAD, ARRAY_FRONT = 30, 10
REJECTS = "reject_errors/"


class Column(NamedTuple):
    """A column as it is kept: its type, the bytes of its values, those that mark its nulls where it has any, and of texts their
    bytes end to end, of which the values are the ends."""

    kind: str
    values: bytearray
    nulls: Optional[bytearray]
    texts: bytearray


class Archive:
    """The arrays in a file, each by its name."""

    def __init__(self, file: BinaryIO) -> None:
        self.file = file
        with zipfile.ZipFile(file) as archive:
            self.places = {it.filename[: -len(".npy")]: (it.header_offset, it.file_size) for it in archive.infolist()}

    def columns(self) -> Iterator[tuple[str, Column]]:
        """The columns by their names, in order."""
        for key, kind in zip(self.plain_texts(":names"), self.plain_texts(":types")):
            yield re.sub("%(..)", lambda found: chr(int(found[1], 16)), key), self.column(key, kind)

    def rejects(self) -> Iterator[tuple[str, Column]]:
        """The columns of the stored rejects by their names; none where they aren't stored."""
        for name in self.places:
            key, _, part = name.partition(":")
            if key.startswith(REJECTS) and part in ("", "ends"):
                yield key[len(REJECTS) :], self.column(key, "VARCHAR" if part else "BIGINT")

    def column(self, key: str, kind: str) -> Column:
        """The column of a key."""
        nulls = self.values(f"{key}:null") if f"{key}:null" in self.places else None
        if kind == "VARCHAR":
            return Column(kind, self.values(f"{key}:ends"), nulls, self.values(f"{key}:bytes"))
        return Column(kind, self.values(key), nulls, bytearray())

    def plain_texts(self, name: str) -> list[str]:
        """The texts of a name, none of which is null."""
        return [text.decode() for text in slices(self.values(f"{name}:bytes"), self.values(f"{name}:ends"))]

    def values(self, name: str) -> bytearray:
        """The values of an array, in memory of their own."""
        place, size = self.places[name]
        head = self.read(place, MEMBER_HEAD)
        # Behind it stand the name and another field, of these lengths.
        place += MEMBER_HEAD + sum(int.from_bytes(head[at : at + 2], "little") for at in (26, 28))
        before = ARRAY_FRONT + int.from_bytes(self.read(place, ARRAY_FRONT)[8:], "little")
        return self.read(place + before, size - before)

    def read(self, place: int, size: int) -> bytearray:
        """So many bytes from a place on."""
        made = bytearray(size)
        self.file.seek(place)
        self.file.readinto(made)
        return made


def numbers(values: bytearray) -> list[int]:
    """Numbers of eight bytes each."""
    return memoryview(values).cast("q").tolist()


def slices(texts: bytearray, values: bytearray) -> list[bytes]:
    """The texts that end there."""
    whole, ends = bytes(texts), numbers(values)
    return [whole[start:end] for start, end in zip([0, *ends], ends)]


@contextmanager
def archive_of(words: Sequence[str], given: Optional[Iterable[bytes]] = None, folder: Optional[str] = None) -> Iterator[Archive]:
    """The archive that the program writes by these words, while it is read; its file lies in the folder, or where temporary ones
    do. What is given, in pieces, is standard input."""
    with tempfile.TemporaryDirectory(dir=folder) as made:
        place = os.path.join(made, "table.npz")
        with open(place, "wb") as into:
            run([*words, "to=npz"], given, into)
        with open(place, "rb") as file:
            yield Archive(file)
