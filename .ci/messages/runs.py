"""How a run of the program is looked at: its status, its text, and what it says to a person.

CSVLOAD names the program. A run has a folder of its own, with the files that it is given.
"""

import os
import pathlib
import subprocess
import tempfile
from typing import NamedTuple

PROGRAM = os.environ["CSVLOAD"]


class Case(NamedTuple):
    """A run: its words, what it reads, and what is wanted of it. `text` is the whole text, or its beginning before `..`."""

    words: list[str | bytes]
    status: int
    said: str
    text: bytes | None = None
    files: dict[str, bytes] = {}
    given: bytes = b""


def same(got: object, wanted: object, words: object) -> None:
    assert got == wanted, f"{words}: {got!r}, not {wanted!r}"


def run(words: list[str | bytes], files: dict[str, bytes], given: bytes = b"") -> tuple[int, bytes, str]:
    """The status, the text and what is said of a run in a folder with these files and a folder `dir`."""
    with tempfile.TemporaryDirectory() as folder:
        pathlib.Path(folder, "dir").mkdir()
        for name, data in files.items():
            pathlib.Path(folder, name).write_bytes(data)
        done = subprocess.run([PROGRAM, *words], cwd=folder, input=given, capture_output=True, timeout=60)
    return done.returncode, done.stdout, done.stderr.decode()


def check(cases: list[Case]) -> None:
    """Each case has its status, its text where one is wanted, and its lines, each behind the program's name but for rows."""
    for case in cases:
        status, text, said = run(case.words, case.files, case.given)
        same((status, said), (case.status, case.said), case.words)
        if case.text is not None:
            same(text, case.text, case.words)
