#!/usr/bin/env python3
"""Profiles files by `profile`, and compares each field with what a model here makes of the rows that `load` reports: hard rows, the
examples' files, random ones, and columns of a thousand different values and one more.

CSVLOAD names the program. A number is the seed of the random files.
"""

from __future__ import annotations

import pathlib
import random
import subprocess
import sys
import tempfile
from collections.abc import Iterator

sys.dont_write_bytecode = True

import hard_rows  # noqa: E402 (before it nothing may be written there)
from split import random_file, random_words  # noqa: E402
from sqlite import EXAMPLES, PROGRAM, parts_of, run, same, text_of  # noqa: E402

RANDOM_FILES = 200
# More different values of a column aren't counted.
MOST_DISTINCT = 1_000
FIELDS = "column,name,type,rows,nulls,distinct,least,greatest,shortest,longest"
WAYS = ["threads=1", "threads=4", "threads=1 range_size=3", "threads=3 range_size=7", "threads=2 range_size=50", "threads=3 range_size=20 pipeline=true"]
# The table of docs/FORMAT.md.
ORDERS = """column,name,type,rows,nulls,distinct,least,greatest,shortest,longest
0,order,BIGINT,4,0,4,1001,1004,,
1,customer,VARCHAR,4,0,4,,,6,9
2,ordered,DATE,4,0,3,2024-03-01,2024-03-05,,
3,shipped,TIMESTAMP,4,1,3,2024-03-02 09:15:00,2024-03-05 11:00:00,,
4,quantity,BIGINT,4,0,4,1,40,,
5,gift,BOOLEAN,4,0,2,false,true,,
6,remark,VARCHAR,4,2,2,,,10,24
"""


# ---- the model: over what a report shows, in which a value has one text


def written(name: str) -> str:
    """A name as the written table has it."""
    is_quoted = not name or any(it in name for it in ',"\r\n') or name.startswith("\ufeff")
    return '"' + name.replace('"', '""') + '"' if is_quoted else name


def fields_of(kind: str, cells: list[str | None]) -> list[object]:
    """What is told of a column's cells, behind its type."""
    values = [cell for cell in cells if cell is not None]
    different = set(values)
    told: list[object] = [len(cells), len(cells) - len(values), len(different) if len(different) <= MOST_DISTINCT else ""]
    if not values:
        return [*told, "", "", "", ""]
    if kind == "VARCHAR":
        lengths = [len(value.encode(errors="surrogateescape")) for value in values]
        return [*told, "", "", min(lengths), max(lengths)]
    # The texts of days and times have the order of these, and `false` stands before `true`.
    key = int if kind == "BIGINT" else str
    return [*told, min(different, key=key), max(different, key=key), "", ""]


def profile_of(report: bytes) -> bytes:
    """The profile of the rows that a report has."""
    columns, rows = [], []
    for line in report.decode(errors="surrogateescape").split("\n"):
        if line.startswith("column|"):
            columns.append(parts_of(line))
        elif line.startswith("row|"):
            rows.append([text_of(cell) for cell in parts_of(line)])
    lines = [FIELDS]
    for place, (number, kind, shown) in enumerate(columns):
        told = fields_of(kind, [row[place] for row in rows])
        lines.append(",".join(map(str, [number, written(text_of(shown)), kind, *told])))
    return "".join(f"{line}\n" for line in lines).encode(errors="surrogateescape")


# ---- comparisons


def check(file: object, *options: str, ways: list[str] = WAYS) -> bytes:
    """The profile of a file is the model's, whatever the threads and ranges, and whatever is said of its faults."""
    status, report, _ = run("load", file, *options, "ignore_errors=true")
    wanted = profile_of(report) if status == 0 else report
    for way in ways:
        same(run("profile", file, *options, *way.split())[:2], (status, wanted), (file, options, way))
    if status == 0:
        for faults in ("ignore_errors=true", "ignore_errors=false", "store_rejects=true", "store_rejects=true rejects_limit=1"):
            same(run("profile", file, *options, *faults.split())[:2], (0, wanted), (file, options, faults))
        check_summary(wanted, run("summary", file, "ignore_errors=true", *options)[1])
    return wanted


def check_summary(profile: bytes, summary: bytes) -> None:
    """The rows, the nulls, and the spans and widths are those of a summary."""
    lines = [list(cells(line)) for line in split_rows(profile.decode())][1:]
    told = [line.split("|") for line in summary.decode().split("\n")]
    (rows,) = [int(line[1]) for line in told if line[0] == "rows"]
    (counted,) = [int(line[3]) for line in told if line[:2] == ["tap", "count"]]
    same({int(line[3]) for line in lines}, {rows})
    same(sum(rows - int(line[4]) for line in lines), counted)
    spans = [["tap", "span", line[0], line[6], line[7]] for line in lines if line[2] == "BIGINT" and line[6]]
    widths = [["tap", "width", line[0], line[9]] for line in lines if line[9]]
    same([line for line in told if line[:2] == ["tap", "span"]], spans)
    same([line for line in told if line[:2] == ["tap", "width"]], widths)


def split_rows(text: str) -> Iterator[str]:
    """The rows of a written table, without their line ends."""
    row = ""
    for line in text.split("\n")[:-1]:
        row += line
        if row.count('"') % 2 == 0:
            yield row
            row = ""
        else:
            row += "\n"


def cells(row: str) -> Iterator[str]:
    """The fields of a row of a written table."""
    field = None
    for part in row.split(","):
        field = part if field is None else f"{field},{part}"
        if field.count('"') % 2 == 0:
            yield field[1:-1].replace('""', '"') if field.startswith('"') else field
            field = None


def file_in(folder: pathlib.Path, data: bytes) -> pathlib.Path:
    file = folder / "f.csv"
    file.write_bytes(data)
    return file


def check_examples(folder: pathlib.Path) -> None:
    same(check(EXAMPLES / "orders.csv").decode(), ORDERS)
    check(EXAMPLES / "scores.csv", "comment=#", "types=VARCHAR,BIGINT,DATE")
    check(EXAMPLES / "notes.csv", "header=false")
    check(file_in(folder, hard_rows.as_csv()), *hard_rows.OPTIONS)
    check(file_in(folder, run("make", 7, "rows=5000")[1]), "range_size=3000", ways=["threads=1", "threads=2", "threads=4"])


def rows_of(folder: pathlib.Path, data: bytes, *options: str) -> list[str]:
    """What a profile tells of the columns of a file."""
    return check(file_in(folder, data), *options).decode().split("\n")[1:-1]


# Files, words, and what is told of their columns.
CASES: list[tuple[bytes, list[str], list[str]]] = [
    # no row, and no good one
    (b"", [], ["0,column0,VARCHAR,0,0,0,,,,"]),
    (b"a,b\n", [], ["0,a,VARCHAR,0,0,0,,,,", "1,b,VARCHAR,0,0,0,,,,"]),
    (b"a,b\n1\n2\n", ["types=BIGINT,DATE", "header=true", "delim=,"], ["0,a,BIGINT,0,0,0,,,,", "1,b,DATE,0,0,0,,,,"]),
    # a column all null, one of one value, one of both truth values
    (b"a,b,c\n,7,true\n,+7,false\n,007,TRUE\n", [], ["0,a,VARCHAR,3,3,0,,,,", "1,b,BIGINT,3,0,1,7,7,,", "2,c,BOOLEAN,3,0,2,false,true,,"]),
    # the least and the greatest number, and nought with both signs
    (b"a\n-0\n9223372036854775807\n0\n-9223372036854775808\n", [], ["0,a,BIGINT,4,0,3,-9223372036854775808,9223372036854775807,,"]),
    (b"a\n-7\n-30\n\n-4\n", [], ["0,a,BIGINT,4,1,3,-30,-4,,"]),
    # days and times in other spellings
    (
        b"d,t,s\n2024-02-29,10:00:00,2024-02-29\n0001-01-01,10:00:00.0,2024-02-29T00:00:00\n9999-12-31,10:00:00.000001,9999-12-31 23:59:59.5\n",
        [],
        ["0,d,DATE,3,0,3,0001-01-01,9999-12-31,,", "1,t,TIME,3,0,2,10:00:00,10:00:00.000001,,", "2,s,TIMESTAMP,3,0,2,2024-02-29 00:00:00,9999-12-31 23:59:59.500000,,"],
    ),
    # texts, their lengths in bytes, an empty one, and one that is a null's text in another column's eyes
    ("a,b\nä,x\n,xx\nNA,\n".encode(), ["nullstr=NA", "header=true"], ["0,a,VARCHAR,3,1,2,,,0,2", "1,b,VARCHAR,3,0,3,,,0,2"]),
    # names that are quoted
    (b'"a,b","c ""d""","e\nf"\n1,x,true\n', ["header=true"], ['0,"a,b",BIGINT,1,0,1,1,1,,', '1,"c ""d""",VARCHAR,1,0,1,,,1,1', '2,"e', 'f",BOOLEAN,1,0,1,true,true,,']),
    # faults between good rows count in no field
    (b"a,b\nx,1\n5,2\n,3,4\n-9,\xff\n6,y\n", ["types=BIGINT,VARCHAR", "header=true", "delim=,"], ["0,a,BIGINT,2,0,2,5,6,,", "1,b,VARCHAR,2,0,2,,,1,1"]),
    # no header, padded rows
    (b"1,a\n2\n3,b\n", ["header=false", "null_padding=true", "delim=,"], ["0,column0,BIGINT,3,0,3,1,3,,", "1,column1,VARCHAR,3,1,2,,,1,1"]),
]


def check_cases(folder: pathlib.Path) -> None:
    for data, options, wanted in CASES:
        same(rows_of(folder, data, *options), wanted, data)


def check_distinct(folder: pathlib.Path) -> None:
    """A thousand different values, one more, and the one in the last row; in a column of each type."""
    ways = ["threads=1", "threads=4", "threads=3 range_size=500"]
    for count, told in ((1_000, "1000"), (1_001, "")):
        for again in (0, 1, 2_000):
            rows = [f"{n},x{n},{1 + n // 365:04}-01-{1 + n % 28:02},10:00:00.{n:06}" for n in [*range(1_000), *(n % 1_000 for n in range(again)), *range(1_000, count)]]
            data = "".join(f"{row}\n" for row in ["n,t,d,c", *rows]).encode()
            wanted = check(file_in(folder, data), "header=true", ways=ways).decode()
            got = {line.split(",")[1]: line.split(",")[5] for line in wanted.split("\n")[1:-1]}
            same([got["n"], got["t"], got["c"]], [told] * 3, (count, again))
    # Nulls are no value, and what is over stays so.
    rows = [*(str(n) for n in range(1_000)), *[""] * 3, "0", ""]
    same(rows_of(folder, "".join(f"{row}\n" for row in ["n", *rows]).encode(), "header=true"), ["0,n,BIGINT,1005,4,1000,0,999,,"])
    long = b"".join(b"%d," % n + b"y" * 5_000 + b"\n" for n in range(1_200))
    same(rows_of(folder, b"n,t\n" + long, "header=true", "delim=,"), ["0,n,BIGINT,1200,0,,0,1199,,", "1,t,VARCHAR,1200,0,1,,,5000,5000"])


def check_words(folder: pathlib.Path) -> None:
    """Which words are refused, and that no fault ends it."""
    file = file_in(folder, b"a,n\nx,q\ny,1\nz,r\n")
    types = ["types=VARCHAR,BIGINT"]
    for words, index, word in [
        (["to=csv"], 2, "to=csv"),
        (["to=sqlite"], 2, "to=sqlite"),
        (["to=npz"], 2, "to=npz"),
        (["table=t"], 2, "table=t"),
        (["rejects_limit=1"], 2, "rejects_limit=1"),
        (["rejects_limit=1", "store_rejects=false"], 2, "rejects_limit=1"),
    ]:
        same(run("profile", file, *words)[:2], (1, f"refused|Conflict|{index}|{word}\n".encode()), words)
    for word in ("explain=true", "same_header=true", "size=7", "rows=7"):
        same(run("profile", file, word)[:2], (1, f"refused|BadOption|2|{word}\n".encode()), word)
    same(run("profile", file, *types, "max_errors=1")[:2], (9, b"fault|over 1 faults\n"))
    same(run("profile", file, *types, "max_errors=2")[0], 0)
    same(run("profile", folder / "absent.csv")[:2], (2, b"fault|read\n"))
    same(run("profile", file, "column_types=b:DATE")[:2], (4, b"fault|no column b\n"))
    same(run("profile", file, "max_input=9")[:2], (7, b"fault|input over 9 bytes\n"))
    name = folder / "profile.csv"
    same(run("profile", file, *types, f"output={name}")[:2], (0, b""))
    same(name.read_bytes(), run("profile", file, *types)[1])
    done = subprocess.run([PROGRAM, "profile", "-", *types], input=file.read_bytes(), capture_output=True, timeout=60)
    same((done.returncode, done.stdout), (0, name.read_bytes()))
    same(run("profile", file, *types, "stats=true")[:2], (0, name.read_bytes()))


def main() -> None:
    seed = int(sys.argv[1]) if len(sys.argv) > 1 else 7
    chance = random.Random(seed)
    with tempfile.TemporaryDirectory() as name:
        folder = pathlib.Path(name)
        check_examples(folder)
        check_cases(folder)
        check_distinct(folder)
        check_words(folder)
        for _ in range(RANDOM_FILES):
            words = [word.decode() for word in random_words(chance)]
            check(file_in(folder, random_file(chance)), *words, ways=chance.sample(WAYS, 3))
    print(f"{sys.argv[0]}: each field of the profiles of hard rows, {len(CASES)} cases and {RANDOM_FILES} random files is the model's")


if __name__ == "__main__":
    main()
