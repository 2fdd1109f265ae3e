#!/usr/bin/env python3
"""Writes files by `output`, and looks whether each is whole or as it was, where the system fails the program too.

CSVLOAD names the program. A library of .ci/preload, which gcc makes, stands before calls of the C library; without gcc the trials
that want it are passed over.
"""

import contextlib
import os
import pathlib
import pty
import resource
import shutil
import sqlite3
import stat
import subprocess
import sys
import tempfile

PROGRAM = pathlib.Path(os.environ["CSVLOAD"]).resolve()
LIBRARY = pathlib.Path(__file__).parent / "preload" / "output.c"

OLD = b"the old file\n"
GOOD = b"id,note\n1,a\n2,b\n"
FAULTY = b"id,note\n1,a\nx,c\n"
TYPES = "types=BIGINT,VARCHAR"

# A text of a few writes, and bytes that it has no room for.
ROWS, ROOM = 40_000, 65_536

# What is written beside its old file, by the words before `output`.
WRITES = (
    ["load", "good.csv"],
    ["summary", "good.csv"],
    ["convert", "good.csv"],
    ["convert", "good.csv", "to=sqlite"],
    ["convert", "good.csv", "to=npz"],
    ["profile", "good.csv"],
    ["rejects", "faulty.csv", TYPES],
    ["batch", "good.csv,good.csv"],
    ["batch", "good.csv,good.csv", "to=sqlite"],
    ["batch", "good.csv,good.csv", "to=npz"],
    ["sniff", "good.csv"],
    ["split", "many.csv", "size=999"],
    ["convert", "many.csv", "threads=1"],
    ["convert", "many.csv", "threads=4"],
    ["convert", "many.csv", "threads=2", "pipeline=true"],
    ["load", "faulty.csv", TYPES, "store_rejects=true"],
)

# What isn't, with its status.
REFUSES = (
    (1, ["convert", "good.csv", "to=jsonx"]),
    (1, ["split", "good.csv"]),
    (2, ["convert", "absent.csv"]),
    (2, ["split", "absent.csv", "size=9"]),
    (3, ["convert", "faulty.csv", TYPES, "to=sqlite"]),
    (3, ["convert", "faulty.csv", TYPES, "to=npz"]),
    (3, ["load", "faulty.csv", TYPES]),
    (4, ["convert", "good.csv", "column_types=other:DATE"]),
    (7, ["convert", "good.csv", "max_input=3"]),
    # A word with the byte FF, as the system hands it on.
    (8, ["convert", "good.csv", "nullstr=\udcff"]),
    (9, ["load", "faulty.csv", TYPES, "max_errors=0", "ignore_errors=true"]),
)

# A file that can't be written, with what is told of it.
UNWRITTEN = (
    ("sub/x.db", "'sub/x.db' can't be written: its folder isn't there"),
    ("good.csv/x.db", "'good.csv/x.db' can't be written: its folder isn't there"),
    ("folder", "'folder' is a folder"),
    ("folder/", "'folder/' is a folder"),
    ("/dev/null", "'/dev/null' is no regular file"),
    ("x" * 255, f"'{'x' * 255}' can't be written"),
)

PART_IS_THERE = "'x.part' is there: another run is writing it, or one was ended; without one remove it"


def same(got: object, wanted: object, of: object = "") -> None:
    assert got == wanted, f"{of}: {got!r}, not {wanted!r}"


def run(folder: pathlib.Path, *words: object, **more: object) -> tuple[int, bytes, str]:
    """The status, the text and the lines for a person, of a call in that folder."""
    streams = {"stdout": subprocess.PIPE, "stderr": subprocess.PIPE, "stdin": subprocess.DEVNULL} | more
    done = subprocess.run([PROGRAM, *map(str, words)], cwd=folder, timeout=60, **streams)
    return done.returncode, done.stdout, done.stderr.decode()


def line(said: str) -> str:
    return f"csvload: {said}\n"


def held(folder: pathlib.Path) -> dict[str, bytes]:
    """All files of a folder."""
    return {path.name: path.read_bytes() for path in folder.iterdir() if path.is_file()}


@contextlib.contextmanager
def files(**more: bytes):
    """A folder with the files that are read, and x as it was before."""
    with tempfile.TemporaryDirectory() as name:
        folder = pathlib.Path(name)
        many = b"id,note\n" + b"".join(b"%d,note %d\n" % (row, row) for row in range(ROWS))
        told = {"good.csv": GOOD, "faulty.csv": FAULTY, "many.csv": many, "x": OLD} | more
        for file, data in told.items():
            (folder / file).write_bytes(data)
        yield folder


def check_stays(folder: pathlib.Path, wanted: tuple, *words: object, **more: object) -> None:
    """A call ends so, and each file of the folder is as it was."""
    before = held(folder)
    same(run(folder, *words, **more), wanted, words)
    same(held(folder) == before, True, words)


# ---- whole, or as it was


def check_written() -> None:
    """The text of status 0 is the file's, byte by byte, and standard output has none."""
    for words in WRITES:
        with files() as folder:
            status, text, said = run(folder, *words)
            same(status, 0, words)
            before = held(folder)
            same(run(folder, *words, "output=x"), (0, b"", said), words)
            same(held(folder) == before | {"x": text}, True, words)
    with files() as folder, open(folder / "good.csv", "rb") as data:
        same(run(folder, "convert", "-", "output=new", stdin=data), (0, b"", ""))
        same((folder / "new").read_bytes(), GOOD)


def check_refused() -> None:
    """Any other text goes to standard output, and the file is as it was."""
    for status, words in REFUSES:
        with files() as folder:
            before = run(folder, *words)
            same(before[0], status, words)
            check_stays(folder, before, *words, "output=x")
    with files() as folder:
        for word, rule in (("output=", "BadValue"), ("output=-", "BadValue")):
            same(run(folder, "convert", "good.csv", word)[:2], (1, f"refused|{rule}|2|{word}\n".encode()))
        same(run(folder, "make", "7", "output=x")[:2], (1, b"refused|BadOption|2|output=x\n"))
        for words in (["load", "--help"], ["help"], ["version"]):
            check_stays(folder, run(folder, *words), *words, "output=new")


def check_own_input() -> None:
    """A file may be read and written, and is as it was where that fails."""
    with files() as folder:
        same(run(folder, "convert", "good.csv", "delim=;", "output=good.csv")[:2], (0, b""))
        same((folder / "good.csv").read_bytes(), b"\"id,note\"\n\"1,a\"\n\"2,b\"\n")
        check_stays(folder, run(folder, "convert", "faulty.csv", TYPES), "convert", "faulty.csv", TYPES, "output=faulty.csv")


# ---- names


def check_names() -> None:
    with files() as folder:
        (folder / "folder").mkdir()
        for name, said in UNWRITTEN:
            check_stays(folder, (5, b"", line(said)), "convert", "absent.csv", f"output={name}")
    with files(**{"x.part": GOOD}) as folder:
        check_stays(folder, (5, b"", line(PART_IS_THERE)), "convert", "good.csv", "output=x")
        check_stays(folder, (5, b"", line(PART_IS_THERE)), "convert", "x.part", "output=x")


def check_links() -> None:
    """A link is replaced itself, also where it leads nowhere."""
    with files() as folder:
        for target in ("x", "nowhere", "folder"):
            (folder / "link").unlink(missing_ok=True)
            (folder / "link").symlink_to(target)
            same(run(folder, "convert", "good.csv", "output=link"), (0, b"", ""), target)
            same((folder / "link").is_symlink(), False, target)
            same((folder / "link").read_bytes(), GOOD, target)
        same((folder / "x").read_bytes(), OLD)


def check_rights() -> None:
    for mask, rights in ((0o022, 0o644), (0o077, 0o600)):
        with files() as folder:
            run(folder, "convert", "good.csv", "output=new", umask=mask)
            same(stat.S_IMODE((folder / "new").stat().st_mode), rights)
    with files() as folder:
        # Who may do all is made somebody else for it.
        program = shutil.copy(PROGRAM, folder)
        folder.chmod(0o555)
        user = {"user": 65534, "group": 65534, "extra_groups": []} if os.geteuid() == 0 else {}
        done = subprocess.run([program, "convert", "good.csv", "output=x"], cwd=folder, capture_output=True, timeout=60, **user)
        same((done.returncode, done.stdout), (5, b""))
        same(done.stderr.decode(), line("'x' may not be written by you"))
        folder.chmod(0o755)
        same(held(folder)["x"], OLD)


def check_databases() -> None:
    """A database that a program has open isn't replaced; any other one is."""
    words = ("convert", "good.csv", "to=sqlite", "output=x.db")
    with files() as folder:
        same(run(folder, *words), (0, b"", ""))
        with contextlib.closing(sqlite3.connect(folder / "x.db")) as database:
            same(database.execute("SELECT * FROM data").fetchall(), [(1, "a"), (2, "b")])
            database.execute("PRAGMA journal_mode=WAL")
            database.execute("DELETE FROM data")
            database.commit()
            said = "'x.db-wal' is there: a program has 'x.db' open, or ended badly with it"
            check_stays(folder, (5, b"", line(said)), *words)
            same(run(folder, "convert", "good.csv", "output=x.db"), (0, b"", ""))
        (folder / "x.db-wal").unlink(missing_ok=True)
        (folder / "x.db-journal").touch()
        check_stays(folder, (5, b"", line(said.replace("wal", "journal"))), *words)
        (folder / "x.db-journal").unlink()
        ours, theirs = pty.openpty()
        same(run(folder, *words, stdout=theirs)[0], 0, "at a terminal")
        os.close(ours)
        os.close(theirs)


# ---- the system fails the program


def check_refused_memory() -> None:
    """Want of memory leaves nothing behind."""
    ends = set()
    for size in (4_000, 6_000, 12_000, 24_000, 48_000, 400_000):
        with files() as folder:
            limit = (size << 10, size << 10)
            status, _, _ = run(
                folder, "convert", "many.csv", "output=x", preexec_fn=lambda: resource.setrlimit(resource.RLIMIT_AS, limit)
            )
            ends.add(status)
            same("x.part" in held(folder), False, size)
            same((folder / "x").read_bytes() == OLD, status != 0, size)
    same({0, 6} <= ends, True, ends)


def check_full_output() -> None:
    with files() as folder, open("/dev/full", "wb") as full:
        done = (5, None, line("standard output can't be written"))
        check_stays(folder, done, "convert", "faulty.csv", TYPES, "output=x", stdout=full)


def check_failing(library: pathlib.Path) -> None:
    """A disk that is full or breaks, at each call: status 5, and nothing has changed."""
    full, other = line("'x' can't be written: the disk is full"), line("'x' can't be written")
    for said, how in (
        (full, {"ROOM": "0"}),
        (full, {"ROOM": str(ROOM)}),
        (other, {"REFUSE": "fsync"}),
        (other, {"REFUSE": "rename"}),
    ):
        with files() as folder:
            environment = os.environ | {"LD_PRELOAD": str(library)} | how
            check_stays(folder, (5, b"", said), "convert", "many.csv", "output=x", env=environment)


def check_interrupted(library: pathlib.Path) -> None:
    """The old file stands, and what was begun is told of until it is removed."""
    for call in (1, 2):
        with files() as folder:
            before = held(folder)
            environment = os.environ | {"LD_PRELOAD": str(library), "KILL": str(call)}
            same(run(folder, "convert", "many.csv", "output=x", env=environment)[0], -9, call)
            left = held(folder)
            same(len(left.pop("x.part")) > 0, True, call)
            same(left == before, True, call)
            check_stays(folder, (5, b"", line(PART_IS_THERE)), "convert", "good.csv", "output=x")
            (folder / "x.part").unlink()
            same(run(folder, "convert", "good.csv", "output=x"), (0, b"", ""), call)


def check_two_runs(library: pathlib.Path) -> None:
    """Of two runs at once into one file one writes it whole, and the other one says that it can't."""
    with files() as folder:
        slow = os.environ | {"LD_PRELOAD": str(library), "PAUSE": "200"}
        with subprocess.Popen([PROGRAM, "convert", "many.csv", "output=x"], cwd=folder, env=slow) as first:
            while "x.part" not in held(folder) and first.poll() is None:
                pass
            same(run(folder, "convert", "good.csv", "output=x"), (5, b"", line(PART_IS_THERE)))
            same((folder / "x").read_bytes(), OLD)
        same(first.returncode, 0)
        same(held(folder)["x"] == run(folder, "convert", "many.csv")[1], True)
    for _ in range(20):
        with files() as folder:
            calls = [[PROGRAM, "convert", file, "output=x"] for file in ("good.csv", "many.csv")]
            runs = [subprocess.Popen(call, cwd=folder, stderr=subprocess.DEVNULL) for call in calls]
            statuses = {run.wait(60) for run in runs}
            same(0 in statuses and statuses <= {0, 5}, True, statuses)
            same("x.part" in held(folder), False)
            same((folder / "x").read_bytes() in (GOOD, run(folder, "convert", "many.csv")[1]), True)


def main() -> None:
    check_written()
    check_refused()
    check_own_input()
    check_names()
    check_links()
    check_rights()
    check_databases()
    check_refused_memory()
    check_full_output()
    if not shutil.which("gcc"):
        print(".ci/output.py: a disk that fails, an interruption and two runs at once passed over, no gcc")
        return
    with tempfile.TemporaryDirectory() as name:
        library = pathlib.Path(name, "output.so")
        options = ["-Wall", "-Werror", "-shared", "-fPIC", "-O2"]
        subprocess.run(["gcc", *options, "-o", library, LIBRARY, "-ldl"], check=True)
        check_failing(library)
        check_interrupted(library)
        check_two_runs(library)


if __name__ == "__main__":
    sys.exit(main())
