"""Calls of the program: options as its words, and its refusals as an exception."""

import contextlib
import errno
import os
import platform
import subprocess
from collections.abc import Iterable, Mapping, Sequence
from typing import BinaryIO, Optional, Union

Option = Union[bool, int, str, Sequence[str], Mapping[str, str]]

# What the answer is, and where it goes, isn't the caller's to choose.
FIXED = ("to", "table", "output")


class Refused(Exception):
    """The file wasn't read: `status` is the program's own, the text what it told a person.

    >>> import csvload
    >>> try:
    ...     csvload.read("absent.csv")
    ... except csvload.Refused as refused:
    ...     print(refused.status, refused)
    2 csvload: 'absent.csv' isn't there
    """

    def __init__(self, status: int, text: str) -> None:
        super().__init__(status, text)
        self.status = status
        self.text = text

    def __str__(self) -> str:
        return self.text


def value_of(name: str, value: Option) -> str:
    """An option's value as the program has it.

    >>> value_of("header", True), value_of("skip", 3), value_of("delim", ";")
    ('true', '3', ';')
    >>> value_of("nulls", ["", "NA"]), value_of("column_types", {"zip": "VARCHAR", "n": "BIGINT"})
    (',NA', 'zip:VARCHAR,n:BIGINT')
    """
    if isinstance(value, bool):
        return "true" if value else "false"
    if isinstance(value, (int, str)):
        return str(value)
    if isinstance(value, Mapping):
        parts = [f"{key}:{kind}" for key, kind in value.items()]
    elif isinstance(value, Sequence) and not isinstance(value, bytes):
        parts = [str(part) for part in value]
    else:
        raise TypeError(f"{name} takes a truth value, a number, a text, a list or a dict, not {value!r}")
    # The program cuts there, so this would be another list.
    for part in parts:
        if "," in part:
            raise ValueError(f"{name} can't have a comma in a part of its list: {part!r}")
    return ",".join(parts)


def words_of(options: Mapping[str, Option]) -> list[str]:
    """The options as words, in their order."""
    for name in options:
        if name in FIXED:
            raise TypeError(f"{name} is no option here")
    return [f"{name}={value_of(name, value)}" for name, value in options.items()]


def name_of(file: Union[str, os.PathLike[str]]) -> str:
    """A file's name as a word: else it could be an option's. `-` alone is standard input."""
    name = os.fspath(file)
    return f"./{name}" if name.startswith("-") and name != "-" else name


def run(words: Sequence[str], given: Optional[Iterable[bytes]] = None, into: Union[int, BinaryIO] = subprocess.PIPE) -> bytes:
    """Calls the program: what it wrote, unless that goes into a file. What is given, in pieces and only where what is written goes
    into a file, is its standard input, else the caller's.

    Where the status isn't 0 that raises Refused, and where there is no program FileNotFoundError, which names the machine.
    """
    program = os.environ.get("CSVLOAD", "csvload")
    try:
        stdin = None if given is None else subprocess.PIPE
        process = subprocess.Popen([program, *words], stdin=stdin, stdout=into, stderr=subprocess.PIPE)
    except FileNotFoundError:
        lack = f"there is no such program on {platform.node()}, neither on PATH nor where CSVLOAD says"
        raise FileNotFoundError(errno.ENOENT, lack, program) from None
    with process:
        # Where it doesn't read to the end its status says why.
        with contextlib.suppress(BrokenPipeError):
            for piece in given or ():
                process.stdin.write(piece)
        written, told = process.communicate()
    if process.returncode:
        raise Refused(process.returncode, told.decode("utf-8", "replace").strip())
    return written or b""
