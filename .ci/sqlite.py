#!/usr/bin/env python3
"""Writes databases by `to=sqlite`, and compares what SQLite reads of them with the reports of `load` and `batch`.

CSVLOAD names the program.
"""

import contextlib
import os
import pathlib
import pty
import random
import re
import sqlite3
import subprocess
import sys
import tempfile

sys.dont_write_bytecode = True

import hard_rows  # noqa: E402 (before it nothing may be written there)

EXAMPLES = pathlib.Path(__file__).parent.parent / "examples"
PROGRAM = os.environ["CSVLOAD"]
SCHEMA = {
    "reject_scans": (
        '"scan_id" INTEGER, "file_id" INTEGER, "file_path" TEXT, "delimiter" TEXT, "quote" TEXT, "escape" TEXT,'
        ' "newline_delimiter" TEXT, "skip_rows" INTEGER, "has_header" TEXT, "columns" INTEGER'
    ),
    "reject_errors": (
        '"scan_id" INTEGER, "file_id" INTEGER, "line" INTEGER, "line_byte_position" INTEGER, "byte_position" INTEGER,'
        ' "column_idx" INTEGER, "column_name" TEXT, "error_type" TEXT, "csv_line" TEXT, "error_message" TEXT'
    ),
}
# The places of numbers in the lines of scans and of errors.
NUMBERS = {"scan": {0, 1, 7, 9}, "error": set(range(6))}
# What the report shows in place of another character.
SHOWN = re.compile(r"\\(?:x(..)|(.))")
MEANT = {"n": "\n", "r": "\r", "t": "\t"}

Cell = str | bytes | int | None


def same(got: object, wanted: object, of: object = "") -> None:
    assert got == wanted, f"{of}: {got!r}, not {wanted!r}"


def run(*words: object) -> tuple[int, bytes, str]:
    done = subprocess.run([PROGRAM, *map(str, words)], capture_output=True, timeout=120)
    return done.returncode, done.stdout, done.stderr.decode()


# ---- what a report says


def text_of(shown: str) -> str | None:
    if shown == r"\N":
        return None
    return SHOWN.sub(lambda found: chr(int(found[1], 16)) if found[1] else MEANT.get(found[2], found[2]), shown)


def parts_of(line: str) -> list[str]:
    """The parts of a line behind its kind, set apart by the bars that no backslash stands before."""
    return re.findall(r"\|((?:[^\\|]|\\.)*)", line)


def value_of(shown: str, kind: str) -> Cell:
    text = text_of(shown)
    if text is None:
        return None
    if kind == "BOOLEAN":
        return int(text == "true")
    return int(text) if kind == "BIGINT" else text


def kept(text: str) -> str | bytes:
    """A text of a reject: its bytes, where it isn't UTF-8."""
    data = text.encode(errors="surrogateescape")
    with contextlib.suppress(UnicodeDecodeError):
        return data.decode()
    return data


class Report:
    """The columns, the rows and the rejects that a report has."""

    def __init__(self, report: bytes) -> None:
        self.columns, self.rows, self.rejects = [], [], {"scan": [], "error": []}
        for line in report.decode(errors="surrogateescape").split("\n")[:-1]:
            kind, parts = line[: line.index("|")], parts_of(line)
            if kind == "column":
                self.columns.append((text_of(parts[2]), parts[1]))
            elif kind == "row":
                self.rows.append(tuple(value_of(part, column[1]) for part, column in zip(parts, self.columns)))
            elif kind in self.rejects:
                numbers = NUMBERS[kind]
                cells = [int(part) if place in numbers else kept(text_of(part)) for place, part in enumerate(parts)]
                self.rejects[kind].append(tuple(cells))


def folded(name: str) -> str:
    return re.sub("[A-Z]+", lambda capitals: capitals[0].lower(), name)


def database_names(names: list[str]) -> list[str]:
    """Names without NUL, that differ without ASCII case."""
    taken, made = set(), []
    for name in names:
        name = name.replace("\0", "_")
        free, number = name, 0
        while folded(free) in taken:
            number += 1
            free = f"{name}_{number}"
        taken.add(folded(free))
        made.append(free)
    return made


# ---- what a database has


def rows_in(database: sqlite3.Connection, table: str) -> list[tuple]:
    return database.execute(f"SELECT * FROM {table} ORDER BY rowid").fetchall()


def check_types(database: sqlite3.Connection, rows: list[tuple]) -> None:
    """Each value is stored as what Python reads it as, under the rowids from 1 on."""
    kinds = {int: "integer", str: "text", bytes: "blob", type(None): "null"}
    columns = [name for _, name, *_ in database.execute('PRAGMA table_info("data")')]
    quoted = ['"' + name.replace('"', '""') + '"' for name in columns]
    asked = f"SELECT {', '.join(f'typeof({name})' for name in quoted)} FROM data ORDER BY rowid"
    same(database.execute(asked).fetchall(), [tuple(kinds[type(cell)] for cell in row) for row in rows])
    same(database.execute("SELECT rowid FROM data").fetchall(), [(number,) for number in range(1, len(rows) + 1)])


def check_sound(database: sqlite3.Connection) -> None:
    same(database.execute("PRAGMA integrity_check").fetchall(), [("ok",)])


def change(database: sqlite3.Connection, rows: int) -> None:
    """The database goes on as any other does."""
    first = database.execute('PRAGMA table_info("data")').fetchone()[1].replace('"', '""')
    database.execute(f'CREATE INDEX "by" ON data ("{first}")')
    database.execute(f'INSERT INTO data ("{first}") VALUES (NULL)')
    same(database.execute("SELECT max(rowid) FROM data").fetchone(), (rows + 1,))
    database.execute("DELETE FROM data WHERE rowid % 3 = 1")
    check_sound(database)
    database.execute("VACUUM")
    check_sound(database)
    same(database.execute("SELECT count(*) FROM data").fetchone(), (rows + 1 - (rows + 3) // 3,))


def check_database(data: bytes, report: Report, folder: pathlib.Path, store: bool) -> None:
    path = folder / "made.db"
    path.write_bytes(data)
    with contextlib.closing(sqlite3.connect(path, isolation_level=None)) as database:
        check_sound(database)
        names = database_names([name for name, _ in report.columns])
        columns = ", ".join('"' + name.replace('"', '""') + f'" {kind}' for name, (_, kind) in zip(names, report.columns))
        wanted = [("data", columns), *SCHEMA.items()]
        schema = [("table", name, name, f'CREATE TABLE "{name}" ({columns})') for name, columns in wanted]
        same(database.execute("SELECT type, name, tbl_name, sql FROM sqlite_schema").fetchall(), schema)
        same(rows_in(database, "data"), report.rows)
        check_types(database, report.rows)
        for kind in ("scan", "error"):
            same(rows_in(database, f"reject_{kind}s"), report.rejects[kind] if store else [], kind)
        change(database, len(report.rows))


def check_file(folder: pathlib.Path, file: object, *options: str, command: str = "convert") -> Report:
    """What one database of these words has, and that it is the same whatever the threads."""
    reading = "load" if command == "convert" else "batch"
    report = Report(run(reading, file, "store_rejects=true", *options)[1])
    texts = [run(command, file, "to=sqlite", "store_rejects=true", f"threads={n}", *options) for n in (1, 2, 4)]
    same([status for status, *_ in texts], [0, 0, 0], (file, options))
    assert texts[0][1] == texts[1][1] == texts[2][1], (file, options)
    check_database(texts[0][1], report, folder, True)
    status, without, _ = run(command, file, "to=sqlite", "ignore_errors=true", *options)
    same(status, 0, file)
    check_database(without, report, folder, False)
    return report


# ---- files


def random_field(chance: random.Random, kind: str) -> str:
    if chance.random() < 0.1:
        return ""
    if kind == "BIGINT":
        return str(chance.choice([0, 1, -1, 127, -129, 2**15, -(2**23), 2**31, 2**47, -(2**63), 2**63 - 1, chance.randrange(10**9)]))
    if kind == "BOOLEAN":
        return chance.choice(["true", "false"])
    if kind == "DATE":
        return f"{chance.randrange(1, 10000):04}-{chance.randrange(1, 13):02}-{chance.randrange(1, 29):02}"
    length = chance.choice([0, 1, 5, 30, 300, 4_040, 4_060, 8_150, 9_000]) if chance.random() < 0.1 else chance.randrange(20)
    return '"' + "".join(chance.choice("abc äé\n|\\'") for _ in range(length)) + '"'


def random_row(chance: random.Random, kinds: list[str]) -> bytes:
    fields = [random_field(chance, kind).encode() for kind in kinds]
    fault = chance.random()
    if fault < 0.02:
        fields.append(b"more")
    elif fault < 0.04:
        fields = fields[: len(fields) // 2]
    elif fault < 0.06:
        fields[0] = b"no number"
    elif fault < 0.08:
        fields[-1] = b'"\xfc|\\"'
    elif fault < 0.09:
        fields[-1] = b'"x"y'
    return b",".join(fields)


def check_random(folder: pathlib.Path, seed: int, rows: int) -> None:
    chance = random.Random(seed)
    kinds = ["BIGINT", *chance.choices(["BIGINT", "BOOLEAN", "DATE", "VARCHAR"], k=chance.randrange(1, 12)), "VARCHAR"]
    names = [chance.choice(["n", "N", "n_1", 'a"b', "é", "É"]) + "x" * (place % 3) + str(place // 4) for place in range(len(kinds))]
    header = ",".join('"' + name.replace('"', '""') + '"' for name in names).encode()
    file = folder / f"random {seed}.csv"
    file.write_bytes(b"\n".join([header, *(random_row(chance, kinds) for _ in range(rows)), b""]))
    options = ["delim=,", 'quote="', 'escape="', "header=true", f"types={','.join(kinds)}"]
    check_file(folder, file, *options, "max_line_size=9000")


def check_examples(folder: pathlib.Path) -> None:
    check_file(folder, EXAMPLES / "orders.csv")
    report = check_file(folder, EXAMPLES / "scores.csv", "comment=#", "types=VARCHAR,BIGINT,DATE")
    same(len(report.rejects["error"]), 1)
    check_file(folder, EXAMPLES / "notes.csv", "header=false")
    (folder / "hard.csv").write_bytes(hard_rows.as_csv())
    same(check_file(folder, folder / "hard.csv", *hard_rows.OPTIONS).rows, hard_rows.ROWS)
    for name, data in (("none", b""), ("nul", b'a,b\n"x\x00y",1\n'), ("names", b'a\x00b,A_B,a_b\n1,2,3\n')):
        (folder / f"{name}.csv").write_bytes(data)
        check_file(folder, folder / f"{name}.csv", "header=true")


def check_batch(folder: pathlib.Path) -> None:
    """The rows of all files, a scan for each, and its rejects under its number."""
    (folder / "a.csv").write_bytes(b"id,v\n1,a\n")
    (folder / "b.csv").write_bytes(b"id,v\nx,b\n2,c\n")
    report = check_file(folder, f"{folder}/a.csv,{folder}/b.csv,{folder}/a.csv", command="batch")
    same([scan[1] for scan in report.rejects["scan"]], [0, 1, 2])
    same([error[1:3] for error in report.rejects["error"]], [(1, 2)])


def check_many_rows(folder: pathlib.Path) -> None:
    """Blocks of rows, pages above pages, and another name for the table."""
    for rows in (8_191, 8_192, 8_193, 40_000):
        (folder / "made.csv").write_bytes(run("make", 7, f"rows={rows}")[1])
        check_file(folder, folder / "made.csv")
    data = run("convert", folder / "made.csv", "to=sqlite", 'table=my "orders"')[1]
    (folder / "named.db").write_bytes(data)
    with contextlib.closing(sqlite3.connect(folder / "named.db")) as database:
        same(database.execute('SELECT count(*) FROM "my ""orders"""').fetchone(), (40_000,))


def check_columns(folder: pathlib.Path) -> None:
    for count in (300, 2_000):
        (folder / "wide.csv").write_text("".join(",".join(f"{name}{n}" for n in range(count)) + "\n" for name in ("c", "1", "-2")))
        check_file(folder, folder / "wide.csv", "header=true")
    wide = folder / "wide.csv"
    wide.write_text("".join(",".join(f"{name}{n}" for n in range(2_001)) + "\n" for name in ("c", "1", "x")))
    said = f"csvload: '{wide}' has more than 2000 columns, the most that a table of SQLite has\n"
    for words in ((), ("types=" + ",".join(["BIGINT"] * 2_001),)):
        for command in ("convert", "batch"):
            same(run(command, wide, "to=sqlite", "header=true", *words), (4, b"fault|more than 2000 columns\n", said))
    same(run("convert", wide, "to=sqlite", "max_input=9")[0], 7)


def check_first_error() -> None:
    words = (EXAMPLES / "scores.csv", "comment=#", "types=VARCHAR,BIGINT,DATE")
    same(run("convert", *words, "to=sqlite"), run("load", *words))


def check_terminal(folder: pathlib.Path) -> None:
    """Nothing is written to a terminal, and nothing is read."""
    said = b"csvload: a database isn't written to a terminal: name a file by output=FILE.db\n"
    ours, theirs = pty.openpty()
    try:
        command = [PROGRAM, "convert", folder / "absent.csv", "to=sqlite"]
        done = subprocess.run(command, stdout=theirs, stderr=subprocess.PIPE, stdin=subprocess.DEVNULL, timeout=60)
        os.write(theirs, b".\n")
        same((done.returncode, done.stderr, os.read(ours, 10)), (5, said, b".\r\n"))
    finally:
        os.close(ours)
        os.close(theirs)


def main() -> None:
    with tempfile.TemporaryDirectory() as name:
        folder = pathlib.Path(name)
        check_examples(folder)
        check_batch(folder)
        check_many_rows(folder)
        check_columns(folder)
        check_first_error()
        check_terminal(folder)
        for seed in range(20):
            check_random(folder, seed, 10 ** (seed % 4))
    print("to=sqlite: SQLite reads what load and batch report, finds each database sound, and goes on with it")


if __name__ == "__main__":
    main()
