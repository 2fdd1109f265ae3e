#!/usr/bin/env python3
"""Runs the program where the system fails it, as no proof can: faults, short reads and writes, long pauses, missing threads.

CSVLOAD names the program. Each trial is a line of the shell, with the status and the text that it has to end with; the files
that it reads are made here, and what is in them is worked out here too. Libraries of .ci/preload, which gcc makes, stand before
calls of the C library; without gcc their trials are passed over.
"""

import itertools
import os
import pathlib
import shutil
import signal
import socket
import subprocess
import sys
import tempfile
from typing import NamedTuple

PROGRAM = os.environ["CSVLOAD"]
PRELOAD = pathlib.Path(__file__).parent / "preload"

# How many seconds a trial may take, on a busy machine too: each takes less than one of a processor.
LIMIT = 60

# Rows of a file that goes on behind the sample of 4 MiB, and of its first part.
ROWS, FEWER_ROWS = 230_000, 9_000

# So many bytes a range: the rows behind the sample take several groups of them.
RANGES = "range_size=5000"

# Ways to share the work.
WAYS = ("threads=1", "threads=4", "threads=1 pipeline=true", "threads=4 pipeline=true")

# Where a pipe pauses: behind the sample, where stages scan.
PAUSE = 4_300_000

# KiB of address space, from what the program can't begin with to what serves several threads.
MEMORY = (3_000, 4_000, 5_000, 6_000, 8_000, 12_000, 24_000, 48_000, 96_000, 192_000)

# So many writes a text of ROWS rows takes at most, which is 5 MB: a row for each would be a thousand times as many.
FEW_WRITES = 250

# Each call that writes.
CALLS = [f"{command} short.csv" for command in ("load", "summary", "profile", "convert", "rejects", "batch", "sniff")]
CALLS += ["convert short.csv to=npz", "split short.csv size=9", "make 7", "--help", "--version"]

FAULT = b"fault|read\n"


class Trial(NamedTuple):
    """A line of the shell, run beside the files, where csvload is the program; and how it has to end."""

    name: str
    line: str
    status: int
    text: bytes


def table(rows: int) -> bytes:
    """A file of two columns."""
    return b"id,name\n" + b"".join(b'%d,"Ana, %d"\n' % (row, row) for row in range(rows))


def report(rows: int, header: bool = True) -> bytes:
    """The text of a load of that file, or of what stands behind its first line."""
    names = ("id", "name") if header else ("column0", "column1")
    front = rb'options|delim=,|quote="|escape="|newline=\n|skip=0|header=' + (b"true\n" if header else b"false\n")
    columns = b"column|0|BIGINT|%s\ncolumn|1|VARCHAR|%s\n" % (names[0].encode(), names[1].encode())
    cells = b"".join(b"row|%d|Ana, %d\n" % (row, row) for row in range(rows))
    return front + columns + cells + b"rows|%d\nerrors|0|0\n" % rows


# Where the file of three rows can be cut by 16 bytes.
PARTS = rb"""options|delim=,|quote="|escape="|newline=\n|skip=0|header=true
column|0|BIGINT|id
column|1|VARCHAR|name
words|delim=,|quote="|escape="|header=true|types=BIGINT,VARCHAR
head|8|1
part|0|8|11|2|1
part|1|19|22|3|2
parts|2|41|4|3
"""

SHORT, LEFT, WHOLE, PART = report(3), report(3, header=False), report(ROWS), report(FEWER_ROWS)


def output_trials() -> list[Trial]:
    """Standard output that takes nothing, and a reader that goes."""
    trials = []
    for call in CALLS:
        trials.append(Trial("a full disk", f"csvload {call} >/dev/full", 5, b""))
        trials.append(Trial("closed standard output", f"csvload {call} >&-", 5, b""))
    for call in ("make 7 rows=200000", "load whole.csv"):
        line = f"{{ csvload {call}; echo $? >ended; }} | head -n 1 >/dev/null; exit $(cat ended)"
        trials.append(Trial("a reader that goes", line, 5, b""))
    return trials


def input_trials() -> list[Trial]:
    """Files that can't be read, and standard input, which is what is left of it."""
    return [
        Trial("a folder as the file", "csvload load folder", 2, FAULT),
        Trial("a folder as standard input", "csvload load - <folder", 2, FAULT),
        Trial("a file as standard input", "csvload load - <short.csv", 0, SHORT),
        Trial("a pipe", "cat short.csv | csvload load -", 0, SHORT),
        Trial("a folder to be split", "csvload split folder size=16", 2, FAULT),
        Trial("a pipe to be split", "cat short.csv | csvload split - size=16", 0, PARTS),
        Trial("a pipe that pauses", "{ head -c 12 short.csv; sleep 0.3; tail -c +13 short.csv; } | csvload load -", 0, SHORT),
        Trial("what is left behind a line", "{ read -r line; csvload load - header=false; } <short.csv", 0, LEFT),
        Trial("what is left behind 8 bytes", "{ dd bs=8 count=1 >front; csvload load - header=false; } <short.csv", 0, LEFT),
        Trial("a file twice", "csvload batch -,- <short.csv", 0, SHORT),
        Trial("a pipe twice", "cat short.csv | csvload batch -,-", 0, SHORT),
        Trial("closed standard input", "csvload load - <&-", 2, FAULT),
        Trial("closed standard input, and a file", "csvload load short.csv <&-", 0, SHORT),
    ]


def piece_trials() -> list[Trial]:
    """Short reads and writes: the text is the same."""
    trials = []
    pieces = ((3, "part", PART), (7, "part", PART), (997, "whole", WHOLE), (65_537, "whole", WHOLE))
    for (piece, file, text), way in itertools.product(pieces, WAYS):
        line = f"PIECE={piece} LD_PRELOAD=./pieces.so csvload load {file}.csv {RANGES} {way}"
        trials.append(Trial("short reads and writes", line, 0, text))
    line = "PIECE=7 LD_PRELOAD=./pieces.so csvload convert part.csv"
    trials.append(Trial("short reads and writes", line, 0, table(FEWER_ROWS)))
    return trials


def fault_trials() -> list[Trial]:
    """One call that fails, in the sample and behind it. A signal that interrupts a call is no fault."""
    trials = []
    for call, way in itertools.product((1, 3, 10, 70), WAYS):
        line = f"PIECE=65537 READ_FAULT={call}:%s LD_PRELOAD=./pieces.so csvload load whole.csv {RANGES} {way}"
        trials.append(Trial("a read that fails", line % "EIO", 2, FAULT))
        trials.append(Trial("a read that is interrupted", line % "EINTR", 0, WHOLE))
    for fault, status, text in (("EIO", 2, FAULT), ("EINTR", 0, PART)):
        line = f"PIECE=7 READ_FAULT=3:{fault} LD_PRELOAD=./pieces.so csvload load - <part.csv"
        trials.append(Trial("a read of standard input that fails", line, status, text))
    for call, way in itertools.product((1, 3), WAYS):
        line = f"PIECE=7 WRITE_FAULT={call}:%s LD_PRELOAD=./pieces.so csvload load part.csv {RANGES} {way}"
        written = PART[: 7 * (call - 1)]
        trials.append(Trial("a write that fails", line % "ENOSPC", 5, written))
        trials.append(Trial("a write that takes nothing", line % "NOTHING", 5, written))
        trials.append(Trial("a write that is interrupted", line % "EINTR", 0, PART))
    return trials


def memory_trials() -> list[Trial]:
    """No memory once the writing has begun: the text is the same, in few writes, of which one past those few would fail."""
    trials = []
    for (call, text), threads in itertools.product((("load", WHOLE), ("convert", table(ROWS))), (1, 4)):
        fault = f"WRITE_FAULT={FEW_WRITES + 1}:ENOSPC LD_PRELOAD=./memory.so:./pieces.so"
        trials.append(Trial("no memory once it writes", f"{fault} csvload {call} whole.csv threads={threads}", 0, text))
    return trials


def change_trials() -> list[Trial]:
    """A file that is cut, or that grows, between two reads: its bytes are those that the reads give."""
    trials = []
    for way in WAYS:
        resize = f"cp whole.csv cut.csv; BEFORE_READ='3:truncate -s {len(table(FEWER_ROWS))} cut.csv'"
        line = f"{resize} PIECE=65537 LD_PRELOAD=./pieces.so csvload load cut.csv {RANGES} {way}"
        trials.append(Trial("a file that is cut", line, 0, PART))
        grow = f"cp part.csv grown.csv; BEFORE_READ='3:tail -c +{len(table(FEWER_ROWS)) + 1} whole.csv >>grown.csv'"
        line = f"{grow} PIECE=65537 LD_PRELOAD=./pieces.so csvload load grown.csv {RANGES} {way}"
        trials.append(Trial("a file that grows", line, 0, WHOLE))
    return trials


def thread_trials() -> list[Trial]:
    """Threads that can't be made: others do their work."""
    trials = []
    refusals = ("1", "2", "3", "1-", "2-", "3-", "5-")
    for refused, threads, way in itertools.product(refusals, (1, 2, 4, 64), ("", " pipeline=true")):
        line = f"REFUSED_THREAD={refused} LD_PRELOAD=./threads.so csvload load whole.csv {RANGES} threads={threads}{way}"
        trials.append(Trial("a thread that is refused", line, 0, WHOLE))
    for way in ("threads=4", "threads=1 pipeline=true"):
        load = f"REFUSED_THREAD=1 LD_PRELOAD=./threads.so csvload load part.csv {RANGES} {way}"
        line = f"rm -f refused; {load} && test -s refused"
        trials.append(Trial("a thread is asked for and refused", line, 0, PART))
    return trials


def wait_trials() -> list[Trial]:
    """A pipe that pauses until no stage is left, where an hour is soon over: what comes later is scanned all the same."""
    pause = "sleep 1; until test $(ls /proc/$(cat pid)/task | wc -l) = 1; do sleep 0.1; done"
    feed = f"{{ head -c {PAUSE} whole.csv; {pause}; tail -c +{PAUSE + 1} whole.csv; }}"
    load = f"exec env LD_PRELOAD=./waits.so csvload load - {RANGES} threads=4 pipeline=true"
    return [Trial("a pause longer than stages wait", f"{feed} | sh -c 'echo $$ >pid; {load}'", 0, WHOLE)]


def build(folder: pathlib.Path) -> bool:
    """Makes the libraries, where there is gcc."""
    if not shutil.which("gcc"):
        print(".ci/faults.py: calls that fail and threads that can't be made passed over, no gcc")
        return False
    for source in PRELOAD.glob("*.c"):
        library = folder / f"{source.stem}.so"
        subprocess.run(["gcc", "-Wall", "-Werror", "-shared", "-fPIC", "-O2", "-o", library, source, "-ldl"], check=True)
    return True


def fill(folder: pathlib.Path) -> None:
    """The files of all trials, and the program under the name csvload."""
    for name, rows in (("short", 3), ("part", FEWER_ROWS), ("whole", ROWS)):
        (folder / f"{name}.csv").write_bytes(table(rows))
    (folder / "folder").mkdir()
    (folder / "csvload").symlink_to(pathlib.Path(PROGRAM).absolute())


def run(words: list[str], folder: pathlib.Path, standard_input: int = subprocess.DEVNULL) -> tuple[int, bytes]:
    """The status and the text. A run that doesn't end is ended with all that it started, and is the last."""
    path = {"PATH": f"{folder}:{os.environ['PATH']}"}
    how = {"cwd": folder, "env": {**os.environ, **path}, "stdin": standard_input, "start_new_session": True}
    with subprocess.Popen(words, stdout=subprocess.PIPE, stderr=subprocess.DEVNULL, **how) as started:
        try:
            text, _ = started.communicate(timeout=LIMIT)
        except subprocess.TimeoutExpired:
            os.killpg(started.pid, signal.SIGKILL)
            sys.exit(f".ci/faults.py: {words[-1]}: doesn't end")
    return started.returncode, text


def shown(text: bytes) -> str:
    return repr(text) if len(text) <= 300 else f"{text[:100]!r} .. {text[-100:]!r} ({len(text)} bytes)"


def is_right(trial: Trial, status: int, text: bytes) -> bool:
    if (status, text) == (trial.status, trial.text):
        return True
    ends = f"status {status}, {shown(text)}\n    not status {trial.status}, {shown(trial.text)}"
    print(f"{trial.name}: {trial.line}\n    {ends}", file=sys.stderr)
    return False


def check_socket(folder: pathlib.Path) -> bool:
    """Standard input may be a socket, as a parent process makes it."""
    ours, theirs = socket.socketpair()
    with ours, theirs:
        ours.sendall(table(3))
        ours.shutdown(socket.SHUT_WR)
        status, text = run(["csvload", "load", "-"], folder, theirs.fileno())
    return is_right(Trial("a socket as standard input", "csvload load -", 0, SHORT), status, text)


def check_little_memory(folder: pathlib.Path) -> bool:
    """Where memory is short threads are wanting first: each run has the text or status 6, and none hangs."""
    right, ended = True, set()
    for limit, way in itertools.product(MEMORY, WAYS):
        line = f"ulimit -v {limit}; exec csvload load short.csv {way}"
        if run(["sh", "-c", f"ulimit -v {limit}; exec csvload --version"], folder)[0] != 0:
            continue
        status, text = run(["sh", "-c", line], folder)
        ended.add((way, status))
        right &= (status, text) == (6, b"") or is_right(Trial("little memory", line, 0, SHORT), status, text)
    lacking = [way for way in WAYS if (way, 0) not in ended]
    if lacking:
        print(f"little memory: no run ends well by {', '.join(lacking)}", file=sys.stderr)
    return right and not lacking


def main() -> None:
    with tempfile.TemporaryDirectory() as name:
        folder = pathlib.Path(name)
        fill(folder)
        trials = output_trials() + input_trials()
        if build(folder):
            trials += piece_trials() + fault_trials() + memory_trials() + change_trials() + thread_trials() + wait_trials()
        verdicts = [is_right(trial, *run(["sh", "-c", trial.line], folder)) for trial in trials]
        verdicts += [check_socket(folder), check_little_memory(folder)]
    if not all(verdicts):
        sys.exit(f".ci/faults.py: {verdicts.count(False)} of {len(verdicts)} trials failed")
    print(f".ci/faults.py: {len(verdicts)} trials: faults have their status, short calls and missing threads change no text")


if __name__ == "__main__":
    main()
