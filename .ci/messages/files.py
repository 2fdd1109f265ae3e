"""The lines for files and streams that can't be read or written, and standard input as it stands."""

import os
import pathlib
import re
import socket
import subprocess
import tempfile

from messages.runs import PROGRAM, Case, check, same

MOST = "max_input=4294967296 is the most"

READ = b"fault|read\n"

NINE = b"fault|input over 9 bytes\n"

F = {"f.csv": b"1,2\n3,4\n5,6\n"}

HEADED = {"h.csv": b"id,v\n1,a\n", "i.csv": b"v,id\nb,2\n"}

# The first row is a header then, and the other two have two faults each.
DATES = ["types=DATE,DATE", "ignore_errors=true"]

# Under types the second row has a fault, and the third has too few columns in any case.
TYPED = b"id,v\n1,a\nx,b\n2\n"

TYPES = ["types=BIGINT,VARCHAR", "header=true"]

PASSING = ["ignore_errors=true", "max_errors=0"]

SAME_WORDS = "csvload rejects lists them, with the same words but max_errors, to, table and output"

LONG = "l" * 70 + ".csv"



def wide(columns: int) -> Case:
    """A name that no column has, of so many columns."""
    said = [f"c{column}" for column in range(min(columns, 20))] + [".."] * (columns > 20)
    data = ",".join(f"c{column}" for column in range(columns)) + "\n" + ",".join("1" * columns) + "\n"
    line = f"csvload: no column is named 'n': the columns are {', '.join(said)}\n"
    return Case(["load", "f.csv", "header=true", "column_types=n:DATE"], 4, line, b"fault|no column n\n", {"f.csv": data.encode()})


def over(words: list[str], lister: str, name: str = "a.csv", shown: str | None = None) -> Case:
    """More faults than none, and what lists them."""
    said = f"csvload: {shown or repr(name)} has more than 0 faults (max_errors){lister and ': '}{lister}\n"
    return Case([words[0], name, *words[1:], *PASSING], 9, said, b"fault|over 0 faults\n", {name: TYPED} if name != "-" else {}, TYPED)


# The words that say which faults there are stand in the line as a shell takes them, where they are seen there and not long.
OVER = [
    over(["load", *TYPES], "csvload rejects a.csv types=BIGINT,VARCHAR header=true lists them"),
    over(["load"], "csvload rejects a.csv lists them"),
    over(["summary", "comment=#", "nullstr=it's"], r"csvload rejects a.csv 'comment=#' 'nullstr=it'\''s' lists them"),
    over(["convert", *TYPES, "to=sqlite", "table=t", "store_rejects=true"], "csvload rejects a.csv types=BIGINT,VARCHAR header=true lists them"),
    over(["load", "store_rejects=true", "rejects_limit=1"], "csvload rejects a.csv lists them"),
    over(["load", "output=o.txt", "sep=,"], "csvload rejects a.csv sep=, lists them"),
    over(["load"], "csvload rejects 'a b; touch pwn.csv' lists them", "a b; touch pwn.csv"),
    over(["load"], r"csvload rejects './-it'\''s.csv' lists them", "-it's.csv", "'-it's.csv'"),
    over(["load"], f"csvload rejects {LONG} lists them", LONG),
    over(["load"], SAME_WORDS, "a\nb.csv"),
    over(["load"], SAME_WORDS, "a\u009b2Jb.csv", r"'a\xc2\x9b2Jb.csv'"),
    over(["load"], SAME_WORDS, "a\u2066b.csv", r"'a\xe2\x81\xa6b.csv'"),
    over(["load", "nullstr=\u2066"], SAME_WORDS),
    # The words and the spaces before them have 60 characters, and one more.
    over(["load", "nullstr=" + "x" * 51], f"csvload rejects a.csv nullstr={'x' * 51} lists them"),
    over(["load", "nullstr=" + "x" * 52], SAME_WORDS),
    over(["profile", *TYPES], "csvload rejects a.csv types=BIGINT,VARCHAR header=true lists them"),
    over(["rejects", *TYPES], ""),
    over(["load", *TYPES], "", "-", "standard input"),
]

FAULTS = [
    Case(["load", "absent.csv"], 2, "csvload: 'absent.csv' isn't there\n", READ),
    Case(["load", "f.csv/x"], 2, "csvload: 'f.csv/x' isn't there\n", READ, F),
    Case(["load", "dir"], 2, "csvload: 'dir' is a folder\n", READ),
    Case(["load", "no\x1b[31m\n"], 2, "csvload: 'no\\x1b[31m\\n' isn't there\n", READ),
    Case(["load", "a\u202eb\u0085.csv"], 2, r"csvload: 'a\xe2\x80\xaeb\xc2\x85.csv' isn't there" + "\n", READ),
    Case(["load", LONG], 2, f"csvload: '{LONG}' isn't there\n", READ),
    Case(["batch", "f.csv, g.csv"], 2, "csvload: ' g.csv' isn't there; no space stands behind a comma\n", READ, F),
    Case(["load", " g.csv"], 2, "csvload: ' g.csv' isn't there\n", READ, F),
    Case(["batch", "f.csv,nope.csv,f.csv"], 2, "csvload: 'nope.csv' isn't there\n", READ, F),
    Case(["load", "f.csv", "max_input=9"], 7, f"csvload: 'f.csv' has more than 9 bytes (max_input); {MOST}\n", NINE, F),
    Case(["batch", "g.csv,f.csv", "max_input=9"], 7, f"csvload: 'f.csv' has more than 9 bytes (max_input); {MOST}\n", NINE, {**F, "g.csv": b"1,2\n"}),
    Case(["load", "-", "max_input=9"], 7, f"csvload: standard input has more than 9 bytes (max_input); {MOST}\n", NINE, {}, b"1,2\n3,4\n5,6\n"),
    Case(["load", "f.csv", "column_types=n:DATE"], 4, "csvload: no column is named 'n': the columns are column0, column1\n", b"fault|no column n\n", F),
    Case(
        ["batch", "h.csv,h.csv,i.csv", "same_header=true"],
        4,
        "csvload: 'i.csv' hasn't the header of 'h.csv', whose columns are id, v\n",
        b"fault|other header in i.csv\n",
        HEADED,
    ),
    Case(
        ["batch", f"h.csv,{LONG}", "same_header=true"],
        4,
        f"csvload: '{LONG}' hasn't the header of 'h.csv', whose columns are id, v\n",
        f"fault|other header in {LONG}\n".encode(),
        {**HEADED, LONG: HEADED["i.csv"]},
    ),
    wide(20),
    wide(21),
    Case(
        ["convert", "f.csv", *DATES, "max_errors=3"],
        9,
        "csvload: 'f.csv' has more than 3 faults (max_errors): csvload rejects f.csv types=DATE,DATE lists them\n",
        b"fault|over 3 faults\n",
        F,
    ),
    Case(["batch", "f.csv,f.csv", *DATES, "max_errors=7"], 9, "csvload: the files have more than 7 faults (max_errors)\n", b"fault|over 7 faults\n", F),
    Case(["convert", "f.csv,h.csv"], 2, "csvload: several files: csvload batch f.csv,h.csv\n", READ, {**F, **HEADED}),
    Case(
        ["load", "f.csv,my h.csv", "delim=,", "comment=#"],
        2,
        "csvload: several files: csvload batch 'f.csv,my h.csv' delim=, 'comment=#'\n",
        READ,
        {**F, "my h.csv": b""},
    ),
    Case(["convert", "f.csv,h.csv", "to=csv"], 2, "csvload: several files: csvload batch f.csv,h.csv\n", READ, {**F, **HEADED}),
    Case(["sniff", "f.csv,h.csv", "explain=true"], 2, "csvload: several files: csvload batch f.csv,h.csv\n", READ, {**F, **HEADED}),
    Case(["load", "f.csv,"], 2, "csvload: 'f.csv,' isn't there\n", READ, F),
    Case(["load", "f.csv,nope.csv"], 2, "csvload: 'f.csv,nope.csv' isn't there\n", READ, F),
    Case(["load", b"\xff.csv"], 8, "csvload: a word isn't UTF-8; a file of such a name is read by csvload load - <FILE\n", b""),
]


def check_listers() -> None:
    """A shell that is given the call lists the faults, all of the same file: two under its types, else one."""
    calls = [(case, found[1]) for case in OVER if (found := re.search(r": csvload (rejects .*) lists them\n", case.said))]
    assert len(calls) > 5, calls
    for case, call in calls:
        with tempfile.TemporaryDirectory() as folder:
            pathlib.Path(folder, case.words[1]).write_bytes(TYPED)
            done = subprocess.run(["sh", "-c", '"$0" ' + call, PROGRAM], cwd=folder, capture_output=True, timeout=60)
            same((done.returncode, os.listdir(folder)), (0, [case.words[1]]), call)
        same(done.stdout.count(b"\n"), 3 if TYPES[0] in case.words else 2, call)


ROWS = b"1,2\n3,4\n5,6\n"

FIRST_ROWS = rb"""options|delim=,|quote="|escape="|newline=\n|skip=0|header=false
column|0|BIGINT|column0
column|1|BIGINT|column1
"""

TWO = FIRST_ROWS + b"row|3|4\nrow|5|6\nrows|2\nerrors|0|0\n"

THREE = FIRST_ROWS + b"row|1|2\nrow|3|4\nrow|5|6\nrows|3\nerrors|0|0\n"


def loaded(stdin: int | socket.socket, name: str = "-", command: str = "load") -> tuple[int, bytes, bytes]:
    done = subprocess.run([PROGRAM, command, name, "header=false"], stdin=stdin, capture_output=True, timeout=60)
    return done.returncode, done.stdout, done.stderr


def check_standard_input() -> None:
    """Standard input is read on from where it stands, also where it is a socket; a second time it is at its end."""
    with tempfile.TemporaryFile() as file:
        file.write(ROWS)
        file.flush()
        os.lseek(file.fileno(), 4, os.SEEK_SET)
        same(loaded(file.fileno()), (0, TWO, b""), "a file behind its first row")
        os.lseek(file.fileno(), 0, os.SEEK_SET)
        same(loaded(file.fileno(), "-,-", "batch"), (0, THREE, b""), "batch -,-")
    end, other = socket.socketpair()
    with end, other:
        other.sendall(ROWS)
        other.shutdown(socket.SHUT_WR)
        same(loaded(end), (0, THREE, b""), "a socket")


def check_no_leave() -> None:
    """A file that may not be read is told from one that isn't there. The system's own user may read all."""
    with tempfile.TemporaryDirectory() as folder:
        path = pathlib.Path(folder, "f.csv")
        path.touch(0)
        if os.access(path, os.R_OK):
            return
        done = subprocess.run([PROGRAM, "load", path], capture_output=True, timeout=60)
        same((done.returncode, done.stderr.decode()), (2, f"csvload: '{path}' may not be read by you\n"), "no leave")


def check_full_disk() -> None:
    for words in [["load", "/dev/null"], ["--help"], ["--version"], ["make", "7"]]:
        with open("/dev/full", "wb") as full:
            done = subprocess.run([PROGRAM, *words], stdout=full, stderr=subprocess.PIPE, timeout=60)
        same((done.returncode, done.stderr), (5, b"csvload: standard output can't be written\n"), words)


def check_closed_pipe() -> None:
    """Where the reader of standard output has gone, nothing is said."""
    reading = subprocess.Popen([PROGRAM, "make", "7", "rows=100000"], stdout=subprocess.PIPE, stderr=subprocess.PIPE)
    reading.stdout.readline()
    reading.stdout.close()
    same((reading.wait(60), reading.stderr.read()), (5, b""), "make 7 rows=100000 | head -1")
    reading.stderr.close()


def main() -> None:
    check(FAULTS + OVER)
    check_listers()
    check_standard_input()
    check_no_leave()
    check_full_disk()
    check_closed_pipe()
