"""How far a long reading has come, and runs of which nothing is said; a summary with the program's taps is compared whole.

The line on a long reading is shown on a terminal alone, so there standard error is a pseudo-terminal.
"""

import array
import concurrent.futures
import fcntl
import os
import pathlib
import pty
import re
import subprocess
import tempfile
import termios
import time

from messages.runs import PROGRAM, run, same

# Longer than the reading goes on in silence, and than a line on it stands.
SILENCE, STEP = 1.3, 0.3

# How often a short reading may take long on a busy machine.
TRIES = 5

# How the program takes its line on a long reading away.
ERASE = b"\r\x1b[2K"

SUMMED_INPUT = b'n,t\n7,abc\n-2,""\n5,abc\n'

SUMMED = rb"""options|delim=,|quote="|escape="|newline=\n|skip=0|header=true
column|0|BIGINT|n
column|1|VARCHAR|t
rows|3
errors|0|0
tap|count|3|5
tap|span|0|-2|7
tap|width|1|3
tap|distinct|1
"""


def check_quiet() -> None:
    words = ["load", "f.csv"]
    status, text, said = run(words, {"f.csv": b"a\n1\n"})
    same((status, text.splitlines()[-2:], said), (0, [b"rows|1", b"errors|0|0"], ""), words)


def check_summary() -> None:
    words = ["summary", "f.csv"]
    same(run(words, {"f.csv": SUMMED_INPUT}), (0, SUMMED, ""), words)


def wait_until_read(pipe: int) -> None:
    """Waits until the pipe is empty."""
    left, end = array.array("i", [1]), time.monotonic() + 60
    while left[0]:
        assert time.monotonic() < end, "the program doesn't read its standard input"
        time.sleep(0.01)
        fcntl.ioctl(pipe, termios.FIONREAD, left)


def feed(pipe: int, pieces: list[tuple[bytes, float]]) -> None:
    """Writes the pieces; each has to be read, and so many seconds to pass, before the next."""
    try:
        for piece, pause in pieces:
            while piece:
                piece = piece[os.write(pipe, piece) :]
            wait_until_read(pipe)
            time.sleep(pause)
    finally:
        os.close(pipe)


def read_all(terminal: int) -> bytes:
    """What was written to a terminal, until nobody has its other side open."""
    said = b""
    while True:
        try:
            said += os.read(terminal, 4096)
        except OSError:
            os.close(terminal)
            return said


def run_on_terminal(words: list[str], data: bytes, pieces: list[tuple[bytes, float]]) -> tuple[bytes, list[str]]:
    """The text, and the lines that a terminal showed one after another, each taken away again."""
    terminal, other_side = pty.openpty()
    reading, pipe = os.pipe()
    with tempfile.TemporaryDirectory() as folder, tempfile.TemporaryFile() as text:
        (pathlib.Path(folder) / "f.csv").write_bytes(data)
        with subprocess.Popen([PROGRAM, *words], cwd=folder, stdin=reading, stdout=text, stderr=other_side) as program:
            os.close(other_side)
            os.close(reading)
            feed(pipe, pieces)
            said = read_all(terminal)
        same(program.returncode, 0, words)
        text.seek(0)
        first, *lines = said.split(ERASE)
        same((first, lines[-1:]), (b"", [b""] if lines else []), words)
        return text.read(), [line.decode() for line in lines[:-1]]


def check_short_reading() -> None:
    """A terminal changes nothing of the text, and a short reading shows no line, unless a busy machine makes it long."""
    words = ["load", "f.csv", "header=false"]
    shown = []
    for _ in range(TRIES):
        text, lines = run_on_terminal(words, b"a,b\n", [])
        same((0, text, ""), run(words, {"f.csv": b"a,b\n"}), words)
        assert b"row|a|b\nrows|1\n" in text, f"{' '.join(words)}: {text!r}"
        shown.append(lines)
        if not lines:
            return
    assert False, f"{' '.join(words)}: {shown}"


def check_reading_of_pipe() -> None:
    """Of a pipe the line tells what was read, in whole megabytes."""
    words, data = ["summary", "-", "header=false"], b"123456789\n" * 500_000
    text, lines = run_on_terminal(words, b"", [(data[:-2], SILENCE), (data[-2:-1], STEP), (data[-1:], 0)])
    assert b"rows|500000\nerrors|0|0\n" in text, f"{' '.join(words)}: {text!r}"
    assert "csvload: 4 MB read" in lines, f"{' '.join(words)}: {lines}"
    same(lines[-1], "csvload: 5 MB read", words)
    _, lines = run_on_terminal(words, b"", [(data[:10], SILENCE), (data[10:20], 0)])
    same(set(lines), {"csvload: 0 MB read"}, words)


def check_reading_of_file() -> None:
    """Of a file the line tells its size too. The pipe before it outlasts the silence, and more is read after slow scans."""
    words = ["batch", "-,f.csv", "header=false", "threads=1", "range_size=1", "max_line_size=100"]
    row = b"x" * 99 + b"\n"
    _, lines = run_on_terminal(words, (row * 60_000)[1:], [(row, SILENCE)])
    # The first line is the pipe's, at its end.
    shown = [re.fullmatch("csvload: ([0-5]) of 5 MB read", line) for line in lines if line != lines[0]]
    assert shown and all(shown), f"{' '.join(words)}: {lines}"
    megabytes = [found[1] for found in shown]
    same(megabytes, sorted(megabytes), words)


# Words that read standard input, and how the text begins.
SCREENS = [
    (["summary", "-"], b"options|delim=,|"),
    (["load", "-", "pipeline=true"], b"options|delim=,|"),
    (["convert", "-"], b"a,b\r\n1,2\r\n"),
    (["rejects", "-"], b"scan_id,file_id,"),
    (["batch", "-,-"], b"options|delim=,|"),
    (["load", "-", "types=DATE,DATE", "header=true"], b"options|delim=,|"),
    (["load", "-", "types=DATE,DATE", "ignore_errors=true", "max_errors=0"], b"fault|over 0 faults\r\ncsvload: standard input has"),
    (["load", "-", "max_input=11"], b"fault|input over 11 bytes\r\ncsvload: standard input has"),
    (["profile", "-"], b"column,name,type,rows,"),
    (["convert", "-", "to=sqlite"], b"SQLite format 3\0"),
    (["convert", "-", "to=npz"], b"PK\x03\x04"),
]


def screen_of(words: list[str]) -> bytes:
    """What comes to a terminal on which both the text and the lines for a person are; a database and arrays get there by a pipe."""
    terminal, other_side = pty.openpty()
    reading, pipe = os.pipe()
    call = ["sh", "-c", '"$0" "$@" | cat', PROGRAM, *words] if {"to=sqlite", "to=npz"} & set(words) else [PROGRAM, *words]
    with subprocess.Popen(call, stdin=reading, stdout=other_side, stderr=other_side) as program:
        os.close(other_side)
        os.close(reading)
        feed(pipe, [(b"a,b\n1,2\n3,", SILENCE), (b"4", STEP), (b"\n", 0)])
        return read_all(terminal)


def check_taken_away() -> None:
    """The line on a long reading is gone before the text begins, and comes no more, whatever the text is."""
    with concurrent.futures.ThreadPoolExecutor() as pool:
        screens = list(pool.map(screen_of, [words for words, _ in SCREENS]))
    for (words, begins), screen in zip(SCREENS, screens, strict=True):
        first, *lines, text = screen.split(ERASE)
        same(first, b"", words)
        assert lines and set(lines) == {b"csvload: 0 MB read"}, f"{' '.join(words)}: {screen!r}"
        assert text.startswith(begins), f"{' '.join(words)}: {screen!r}"


def check_in_file() -> None:
    """A long reading shows nothing where standard error is a file."""
    reading, pipe = os.pipe()
    with tempfile.TemporaryFile() as said:
        with subprocess.Popen([PROGRAM, "summary", "-"], stdin=reading, stdout=subprocess.DEVNULL, stderr=said) as program:
            os.close(reading)
            feed(pipe, [(b"a,b\n", SILENCE), (b"1,2\n", STEP), (b"3,4\n", 0)])
        said.seek(0)
        same((program.returncode, said.read()), (0, b""), "a long reading")


TYPED = b"csvload: reading from the terminal; ctrl-D ends it\n"


def said_of_typed(words: list[str], typed: bytes) -> tuple[int, bytes, bytes]:
    """The status, the text and what is said where standard input is a terminal at which this is typed."""
    terminal, other_side = pty.openpty()
    with subprocess.Popen([PROGRAM, *words], stdin=other_side, stdout=subprocess.PIPE, stderr=subprocess.PIPE) as program:
        os.close(other_side)
        os.write(terminal, typed)
        text, said = program.communicate(timeout=60)
    os.close(terminal)
    return program.returncode, text, said


def check_typed() -> None:
    """Where a person is to type the input a line says how it ends; none does where nothing is read, or a file is."""
    end = b"\x04"
    status, text, said = said_of_typed(["load", "-", "header=true"], b"a,b\n1,2\n" + end)
    assert (status, said) == (0, TYPED) and b"row|1|2\nrows|1\n" in text, (text, said)
    same(said_of_typed(["load", "-", "frob=1"], end)[0], 1, "refused words")
    for words in [["make", "7", "rows=1"], ["--help"], ["load", "/dev/null"]]:
        status, _, said = said_of_typed(words, end)
        same((status, said), (0, b""), words)


def main() -> None:
    check_quiet()
    check_typed()
    check_summary()
    check_short_reading()
    check_reading_of_pipe()
    check_reading_of_file()
    check_taken_away()
    check_in_file()
