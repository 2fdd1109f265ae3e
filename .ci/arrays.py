#!/usr/bin/env python3
"""Writes archives of arrays by `to=npz`, and compares them byte for byte with those of a second writer, which is made here of
docs/FORMAT.md and of what `load` and `batch` report: hard rows, random tables, and more columns than a ZIP directory counts in two
bytes. Each array is then read by numpy. Where numpy isn't there that is said, and no array is read.

CSVLOAD names the program. A number is the seed of the random tables.
"""

from __future__ import annotations

import io
import os
import pathlib
import pty
import random
import re
import subprocess
import sys
import tempfile
import zipfile
import zlib
from datetime import date, datetime, time, timedelta
from typing import NamedTuple

sys.dont_write_bytecode = True

import hard_rows  # noqa: E402 (before it nothing may be written there)
from sqlite import EXAMPLES, PROGRAM, SCHEMA, Cell, Report, folded, run, same  # noqa: E402

try:
    import numpy
except ImportError:
    numpy = None

FORMAT = pathlib.Path(__file__).parent.parent / "docs" / "FORMAT.md"
RANDOM_TABLES = 100
# More columns than two bytes count.
MANY = 66_000
# A ZIP field that is full stands for one of eight bytes.
FULL_COUNT, FULL_SIZE = 0xFFFF, 0xFFFFFFFF
# The most bytes of the text of a name.
KEY_LIMIT = 65_500
NOT_A_TIME = -(2**63)
DESCRIPTIONS = {"BOOLEAN": "|b1", "BIGINT": "<i8", "DATE": "<M8[D]", "TIME": "<m8[us]", "TIMESTAMP": "<M8[us]"}
EPOCH = datetime(1970, 1, 1)
MICROSECOND = timedelta(microseconds=1)


# ---- the second writer: values, and the arrays of a column


class Array(NamedTuple):
    """An array: its name, the type of its values as numpy describes it, how many there are, and their bytes."""

    name: str
    description: str
    count: int
    data: bytes


def number_of(cell: Cell, kind: str) -> int:
    """The number that a cell is kept as; of a null one what stands in its place."""
    if cell is None:
        return NOT_A_TIME if kind in ("DATE", "TIME", "TIMESTAMP") else 0
    if kind == "DATE":
        return date.fromisoformat(cell).toordinal() - EPOCH.toordinal()
    if kind == "TIME":
        return (datetime.combine(EPOCH, time.fromisoformat(cell)) - EPOCH) // MICROSECOND
    return (datetime.fromisoformat(cell) - EPOCH) // MICROSECOND if kind == "TIMESTAMP" else cell


def texts_of(key: str, cells: list[Cell]) -> list[Array]:
    """The two arrays of texts: their bytes end to end, and where each ends."""
    texts = [b"" if cell is None else cell if isinstance(cell, bytes) else cell.encode(errors="surrogateescape") for cell in cells]
    ends, end = [], 0
    for text in texts:
        end += len(text)
        ends.append(end.to_bytes(8, "little"))
    return [Array(f"{key}:bytes", "|u1", end, b"".join(texts)), Array(f"{key}:ends", "<i8", len(texts), b"".join(ends))]


def column_of(key: str, kind: str, cells: list[Cell]) -> list[Array]:
    """The arrays of a column under its key."""
    if kind == "VARCHAR":
        made = texts_of(key, cells)
    else:
        size = 1 if kind == "BOOLEAN" else 8
        values = b"".join(number_of(cell, kind).to_bytes(size, "little", signed=size > 1) for cell in cells)
        made = [Array(key, DESCRIPTIONS[kind], len(cells), values)]
    if None in cells:
        made.append(Array(f"{key}:null", "|b1", len(cells), bytes(cell is None for cell in cells)))
    return made


def keys_of(names: list[str]) -> list[str]:
    """The columns' keys: some bytes by their hexadecimal digits, and all different without ASCII case."""
    taken, made = set(), []
    for name in names:
        key = free = "".join(f"%{ord(it):02X}" if it in "%/\\:\x7f" or it < " " else it for it in name)
        number = 0
        while folded(free) in taken:
            number += 1
            free = f"{key}_{number}"
        taken.add(folded(free))
        made.append(free)
    return made


def table_of_rejects(name: str, rows: list[tuple]) -> list[Array]:
    """The arrays of a table of rejects, whose columns are those of a database."""
    made = []
    for place, column in enumerate(SCHEMA[name].split(", ")):
        title, kind = column.replace('"', "").split()
        made += column_of(f"{name}/{title}", {"INTEGER": "BIGINT", "TEXT": "VARCHAR"}[kind], [row[place] for row in rows])
    return made


def arrays_of(report: Report, store: bool) -> list[Array]:
    """All arrays of what a report tells, in their order."""
    keys, kinds = keys_of([name for name, _ in report.columns]), [kind for _, kind in report.columns]
    columns = list(zip(*report.rows)) or [()] * len(kinds)
    made = texts_of(":names", keys) + texts_of(":types", kinds)
    for key, kind, cells in zip(keys, kinds, columns):
        made += column_of(key, kind, list(cells))
    if store:
        for name, lines in (("reject_scans", "scan"), ("reject_errors", "error")):
            made += table_of_rejects(name, report.rejects[lines])
    return made


# ---- the second writer: files of arrays, and the archive


def little(*fields: tuple[int, int]) -> bytes:
    """Numbers with the least byte first, each with how many bytes it takes."""
    return b"".join(value.to_bytes(size, "little") for value, size in fields)


def file_of(array: Array) -> bytes:
    """The file of an array."""
    head = f"{{'descr': '{array.description}', 'fortran_order': False, 'shape': ({array.count},), }}".encode()
    # In front stand ten bytes, and behind them a line end.
    head += b" " * (-(10 + len(head) + 1) % 64) + b"\n"
    return b"\x93NUMPY\x01\x00" + little((len(head), 2)) + head + array.data


def shared_fields(name: bytes, data: bytes, version: int, size: int) -> bytes:
    """What a file's own head and its entry in the directory both have, up to the length of its name."""
    return little((version, 2), (0x0800, 2), (0, 2), (0, 2), (0x21, 2), (zlib.crc32(data), 4), (size, 4), (size, 4), (len(name), 2))


def archive_of(arrays: list[Array]) -> bytes:
    """The archive of some arrays."""
    made, directory = bytearray(), bytearray()
    for array in arrays:
        name, data, offset = f"{array.name}.npy".encode(), file_of(array), len(made)
        sizes = little((len(data), 8), (len(data), 8)) if len(data) >= FULL_SIZE else b""
        offsets = little((offset, 8)) if offset >= FULL_SIZE else b""
        near, far = ((little((1, 2), (len(wide), 2)) + wide if wide else b"") for wide in (sizes, sizes + offsets))
        size = min(len(data), FULL_SIZE)
        made += b"PK\3\4" + shared_fields(name, data, 45 if near else 20, size) + little((len(near), 2)) + name + near + data
        directory += b"PK\1\2" + little((45, 2)) + shared_fields(name, data, 45 if far else 20, size) + little((len(far), 2))
        directory += little((0, 2), (0, 2), (0, 2), (0, 4), (min(offset, FULL_SIZE), 4)) + name + far
    return bytes(made + directory) + directory_end(len(arrays), len(directory), len(made))


def directory_end(count: int, size: int, offset: int) -> bytes:
    """What stands behind a directory."""
    made = b""
    if count >= FULL_COUNT or size >= FULL_SIZE or offset >= FULL_SIZE:
        made = b"PK\6\6" + little((44, 8), (45, 2), (45, 2), (0, 4), (0, 4), (count, 8), (count, 8), (size, 8), (offset, 8))
        made += b"PK\6\7" + little((0, 4), (offset + size, 8), (1, 4))
    few, small, near = min(count, FULL_COUNT), min(size, FULL_SIZE), min(offset, FULL_SIZE)
    return made + b"PK\5\6" + little((0, 2), (0, 2), (few, 2), (few, 2), (small, 4), (near, 4), (0, 2))


# ---- what a reader finds


def cells_in(arrays: dict[str, numpy.ndarray], key: str, kind: str) -> list[Cell]:
    """The cells of a column as numpy has them, texts as bytes."""
    if kind == "VARCHAR":
        data, ends = arrays[f"{key}:bytes"].tobytes(), arrays[f"{key}:ends"].tolist()
        cells = [data[start:end] for start, end in zip([0, *ends], ends)]
    else:
        cells = arrays[key].tolist()
    nulls = arrays.get(f"{key}:null")
    return cells if nulls is None else [None if null else cell for cell, null in zip(cells, nulls.tolist())]


def as_read(cell: Cell, kind: str) -> object:
    """A reported cell as numpy gives it."""
    if cell is None:
        return None
    if kind == "VARCHAR":
        return cell if isinstance(cell, bytes) else cell.encode(errors="surrogateescape")
    reads = {"BOOLEAN": bool, "DATE": date.fromisoformat, "TIMESTAMP": datetime.fromisoformat}
    if kind == "TIME":
        return datetime.combine(EPOCH, time.fromisoformat(cell)) - EPOCH
    return reads.get(kind, int)(cell)


def check_read(data: bytes, report: Report, store: bool) -> None:
    """What numpy finds in an archive are the rows and the rejects of the report."""
    if numpy is None:
        return
    with numpy.load(io.BytesIO(data), allow_pickle=False) as archive:
        arrays = {name: archive[f"{name}.npy"] for name in archive.files}
    for array in arrays.values():
        assert array.ndim == 1 and array.flags.c_contiguous and array.dtype.byteorder in "|<=", array
    keys, kinds = ([text.decode() for text in cells_in(arrays, name, "VARCHAR")] for name in (":names", ":types"))
    columns = list(zip(*report.rows)) or [()] * len(kinds)
    same(kinds, [kind for _, kind in report.columns])
    for key, kind, cells in zip(keys, kinds, columns):
        same(cells_in(arrays, key, kind), [as_read(cell, kind) for cell in cells], key)
        # A null day or time is no time by itself.
        if kind in ("DATE", "TIME", "TIMESTAMP"):
            same(numpy.isnat(arrays[key]).tolist(), [cell is None for cell in cells], key)
    for name, lines in (("reject_scans", "scan"), ("reject_errors", "error")):
        titles = [column.split()[0].strip('"') for column in SCHEMA[name].split(", ")]
        numbers = ["BIGINT" if f'"{title}" INTEGER' in SCHEMA[name] else "VARCHAR" for title in titles]
        same(any(key.startswith(f"{name}/") for key in arrays), store, name)
        for place, (title, kind) in enumerate(zip(titles, numbers) if store else ()):
            wanted = [as_read(row[place], kind) for row in report.rejects[lines]]
            same(cells_in(arrays, f"{name}/{title}", kind), wanted, title)


def check_archive(data: bytes, report: Report, store: bool, of: object) -> None:
    """An archive is that of the second writer, and sound; each array is read back."""
    arrays = arrays_of(report, store)
    wanted = archive_of(arrays)
    if data != wanted:
        first = next((place for place, (one, other) in enumerate(zip(data, wanted)) if one != other), min(len(data), len(wanted)))
        around = slice(max(first - 40, 0), first + 40)
        raise AssertionError(f"{of}: {len(data)} bytes for {len(wanted)}; from {around.start} on {data[around]!r}, not {wanted[around]!r}")
    with zipfile.ZipFile(io.BytesIO(data)) as archive:
        same(archive.testzip(), None, of)
        same(archive.namelist(), [f"{array.name}.npy" for array in arrays], of)
    check_read(data, report, store)


def check_file(file: object, *options: str, command: str = "convert") -> Report:
    """The archives of these words, with stored rejects and without, the same whatever the threads and ranges."""
    reading = "load" if command == "convert" else "batch"
    report = Report(run(reading, file, "store_rejects=true", *options)[1])
    ways = ["threads=1", "threads=2", "threads=4", "threads=1 range_size=7", "threads=3 range_size=50", "threads=2 pipeline=true"]
    for faults in ("store_rejects=true", "ignore_errors=true"):
        texts = [run(command, file, "to=npz", faults, *way.split(), *options) for way in ways]
        same([status for status, *_ in texts], [0] * len(ways), (file, options))
        assert len({text for _, text, _ in texts}) == 1, (file, options)
        check_archive(texts[0][1], report, faults == "store_rejects=true", (file, options, faults))
    return report


# ---- files


def random_field(chance: random.Random, kind: str) -> str:
    if chance.random() < 0.1:
        return ""
    day = f"{chance.randrange(1, 10000):04}-{chance.randrange(1, 13):02}-{chance.randrange(1, 29):02}"
    clock = f"{chance.randrange(24):02}:{chance.randrange(60):02}:{chance.randrange(60):02}" + chance.choice(["", ".5", ".000001"])
    numbers = [0, 1, -1, 127, -129, 2**15, -(2**23), 2**31, 2**47, -(2**63), 2**63 - 1, chance.randrange(10**9)]
    length = chance.choice([0, 1, 5, 30, 300, 4_060, 9_000]) if chance.random() < 0.1 else chance.randrange(20)
    return {
        "BIGINT": lambda: str(chance.choice(numbers)),
        "BOOLEAN": lambda: chance.choice(["true", "false"]),
        "DATE": lambda: day,
        "TIME": lambda: clock,
        "TIMESTAMP": lambda: chance.choice([f"{day} {clock}", day]),
        "VARCHAR": lambda: '"' + "".join(chance.choice("abc äé\n|\\'\0") for _ in range(length)) + '"',
    }[kind]()


def random_row(chance: random.Random, kinds: list[str]) -> bytes:
    fields = [random_field(chance, kind).encode() for kind in kinds]
    fault = chance.random()
    if fault < 0.02:
        fields.append(b"more")
    elif fault < 0.04:
        fields = fields[: len(fields) // 2]
    elif fault < 0.06:
        fields[0] = b"no number"
    elif fault < 0.08:
        fields[-1] = b'"\xfc|\\"'
    elif fault < 0.09:
        fields[-1] = b'"x"y'
    return b",".join(fields)


def random_name(chance: random.Random) -> str:
    """A name of few letters, so that some differ in their case alone, or in what becomes of them."""
    pieces = ["a", "A", "_1", "é", "É", "%", "%2F", "%2f", "/", "\\", ":", ":null", "\0", "\n", "\x7f", ".npy", '"', "reject_scans/scan_id", ":names"]
    return "".join(chance.choice(pieces) for _ in range(chance.choice([1, 1, 1, 2, 3])))


def check_random(folder: pathlib.Path, chance: random.Random, rows: int) -> None:
    kinds = ["BIGINT", *chance.choices([*DESCRIPTIONS, "VARCHAR"], k=chance.randrange(1, 12)), "VARCHAR"]
    header = ",".join('"' + random_name(chance).replace('"', '""') + '"' for _ in kinds).encode()
    file = folder / "random.csv"
    file.write_bytes(b"\n".join([header, *(random_row(chance, kinds) for _ in range(rows)), b""]))
    options = ["delim=,", 'quote="', 'escape="', "header=true", f"types={','.join(kinds)}", "max_line_size=9000"]
    check_file(file, *options, *chance.choice([[], ["nullstr=1"], ["nulls=,true,0"], ["allow_quoted_nulls=false"], ["null_padding=true"]]))


def check_examples(folder: pathlib.Path) -> None:
    check_file(EXAMPLES / "orders.csv")
    report = check_file(EXAMPLES / "scores.csv", "comment=#", "types=VARCHAR,BIGINT,DATE")
    same(len(report.rejects["error"]), 1)
    check_file(EXAMPLES / "notes.csv", "header=false")
    (folder / "hard.csv").write_bytes(hard_rows.as_csv())
    same(check_file(folder / "hard.csv", *hard_rows.OPTIONS).rows, hard_rows.ROWS)
    names = b'a\x00b,A_B,a/b,A/b,A%2fB,:names:bytes,reject_scans/scan_id,.,..,"x\ny",a.npy,a,A,A_1\n' + b"1," * 13 + b"\n"
    for name, data in (("none", b""), ("nul", b'a,b\n"x\x00y",1\n'), ("names", names), ("head", b"a,b\n"), ("one", b"n\n1\n\n-3\n")):
        (folder / f"{name}.csv").write_bytes(data)
        check_file(folder / f"{name}.csv", "header=true")
    for ends in (b"a\r\n1\r\n", b"a\r1\r", b"a\n1\r\n2\r", b"a"):
        (folder / "ends.csv").write_bytes(ends)
        check_file(folder / "ends.csv", "quote=")


def check_shown(folder: pathlib.Path) -> None:
    """The example of docs/FORMAT.md."""
    file = folder / "f.csv"
    file.write_bytes(b"n,t/u\n7,a\n,bc\n-1,\n")
    check_file(file)
    text, *ends = (re.findall(r"^(?:[0-9A-F]{2} )+[0-9A-F]{2}$", FORMAT.read_text().split("### Files of arrays")[1].split("\n## ")[0], re.M))
    data = run("convert", file, "to=npz")[1]
    same((len(data), data[1_650:1_654]), (2_206, b"PK\1\2"))
    front = bytes.fromhex(text) + b"n.npy" + bytes.fromhex("93 4E 55 4D 50 59 01 00 76 00")
    shown = front + b"{'descr': '<i8', 'fortran_order': False, 'shape': (3,), }" + b" " * 60 + b"\n" + little((7, 8), (0, 8), (2**64 - 1, 8))
    same(data[745 : 745 + len(shown)], shown)
    same([data.endswith(bytes.fromhex(end)) for end in ends], [True])


def check_batch(folder: pathlib.Path) -> None:
    """The rows of all files, a scan for each, and its rejects under its number."""
    (folder / "a.csv").write_bytes(b"id,v\n1,a\n")
    (folder / "b.csv").write_bytes(b"id,v\nx,b\n2,c\n")
    report = check_file(f"{folder}/a.csv,{folder}/b.csv,{folder}/a.csv", command="batch")
    same([scan[1] for scan in report.rejects["scan"]], [0, 1, 2])
    same([error[1:3] for error in report.rejects["error"]], [(1, 2)])
    limited = Report(run("batch", f"{folder}/b.csv,{folder}/b.csv", "store_rejects=true", "rejects_limit=1")[1])
    data = run("batch", f"{folder}/b.csv,{folder}/b.csv", "to=npz", "store_rejects=true", "rejects_limit=1")[1]
    check_archive(data, limited, True, "rejects_limit=1")


def check_many_rows(folder: pathlib.Path) -> None:
    """Chunks of rows, of which some hold numbers in fewer bytes."""
    (folder / "made.csv").write_bytes(run("make", 7, "rows=40000")[1])
    check_file(folder / "made.csv")


def check_columns(folder: pathlib.Path) -> None:
    """More columns than a database takes, and more arrays than two bytes count."""
    for count in (2_001, MANY):
        file = folder / "wide.csv"
        file.write_text("".join(",".join(f"{name}{n}" for n in range(count)) + "\n" for name in ("c", "1", "-2")))
        report = Report(run("load", file, "delim=,", "header=true", "store_rejects=true")[1])
        texts = [run("convert", file, "delim=,", "header=true", "to=npz", f"threads={n}") for n in (1, 4)]
        same([status for status, *_ in texts], [0, 0])
        assert texts[0][1] == texts[1][1]
        wanted = archive_of(arrays_of(report, False))
        assert texts[0][1] == wanted, count
        # By numpy only some are read, since it looks for a name in a list.
        if numpy is not None:
            with numpy.load(io.BytesIO(wanted), allow_pickle=False) as archive:
                same(len(archive.files), count + 4)
                same([archive[f"c{n}.npy"].tolist() for n in (0, count - 1)], [[10, -20], [int(f"1{count - 1}"), int(f"-2{count - 1}")]])


def check_long_names(folder: pathlib.Path) -> None:
    """Names of the longest texts, which get a suffix besides, and of one byte more. Of `%` three bytes are written."""
    file = folder / "long.csv"
    words = ("convert", file, "delim=,", "header=true")
    most, escaped = b"x" * KEY_LIMIT, b"%" * (KEY_LIMIT // 3 + 1)
    file.write_bytes(most + b"," + most.upper() + b"," + escaped[1:] + b"\n1,a,\n")
    check_archive(run(*words, "to=npz")[1], Report(run("load", *words[1:])[1]), False, "long names")
    for names, number in ((b"a," + most + b"x", 1), (b"a,b," + escaped + b"," + escaped + b"x", 2)):
        file.write_bytes(names + b"\n1,2,,\n")
        line = f"name of column {number} longer than {KEY_LIMIT} bytes"
        # Before a first error.
        for more in ((), ("types=" + ",".join(["DATE"] * (names.count(b",") + 1)),), ("column_types=a:DATE", "ignore_errors=true")):
            same(run(*words, "to=npz", *more)[:2], (4, f"fault|{line}\n".encode()), number)
        same([run(*words, way, "null_padding=true", "ignore_errors=true")[0] for way in ("to=csv", "to=sqlite")], [0, 0])
        same(run(*words, "to=npz", "max_input=9")[0], 7)
        same(run(*words, "to=npz", "column_types=z:DATE")[:2], (4, b"fault|no column z\n"))


def check_first_error() -> None:
    words = (EXAMPLES / "scores.csv", "comment=#", "types=VARCHAR,BIGINT,DATE")
    same(run("convert", *words, "to=npz"), run("load", *words))


def check_terminal(folder: pathlib.Path) -> None:
    """Nothing is written to a terminal, and nothing is read."""
    said = b"csvload: arrays aren't written to a terminal: name a file by output=FILE.npz\n"
    ours, theirs = pty.openpty()
    try:
        command = [PROGRAM, "convert", folder / "absent.csv", "to=npz"]
        done = subprocess.run(command, stdout=theirs, stderr=subprocess.PIPE, stdin=subprocess.DEVNULL, timeout=60)
        os.write(theirs, b".\n")
        same((done.returncode, done.stderr, os.read(ours, 10)), (5, said, b".\r\n"))
    finally:
        os.close(ours)
        os.close(theirs)


def main() -> None:
    seed = int(sys.argv[1]) if len(sys.argv) > 1 else 7
    chance = random.Random(seed)
    with tempfile.TemporaryDirectory() as name:
        folder = pathlib.Path(name)
        check_shown(folder)
        check_examples(folder)
        check_batch(folder)
        check_many_rows(folder)
        check_columns(folder)
        check_long_names(folder)
        check_first_error()
        check_terminal(folder)
        for place in range(RANDOM_TABLES):
            check_random(folder, chance, (0, 1, 3, 10, 100)[place % 5])
    if numpy is None:
        print(f"{sys.argv[0]}: no array is read, no numpy")
    print(f"{sys.argv[0]}: the archives of hard rows, {RANDOM_TABLES} random tables and {MANY} columns are those of a second writer")


if __name__ == "__main__":
    main()
