#!/usr/bin/env python3
"""Cuts files by `split`, loads each part by itself behind the head of its file, and compares that with one load of the whole: hard
rows, random files, and one of more than 4 GiB.

CSVLOAD names the program. A number is the seed of the random files.
"""

from __future__ import annotations

import os
import pathlib
import random
import re
import subprocess
import sys
import tempfile
from typing import NamedTuple

sys.dont_write_bytecode = True

import hard_rows  # noqa: E402 (before it nothing may be written there)

PROGRAM = os.environ["CSVLOAD"].encode()
LIMIT = 300
RANDOM_FILES = 150
# Bytes of the hole in the large file.
HOLE = 5 << 30
MARK = b"\xef\xbb\xbf"
ENDS = [b"\n", b"\r\n", b"\r"]
# What the report shows in place of another byte.
MEANT = {b"n": b"\n", b"r": b"\r", b"t": b"\t"}

# A fault: its numbers, of which three are places, and the texts behind them.
Fault = tuple[int, int, int, tuple[bytes, ...]]


def same(got: object, wanted: object, *of: object) -> None:
    assert got == wanted, f"{of}: {got!r}, not {wanted!r}"


def run(words: list[bytes], given: bytes = b"") -> tuple[int, bytes]:
    done = subprocess.run([PROGRAM, *words], input=given, stdout=subprocess.PIPE, stderr=subprocess.DEVNULL, timeout=LIMIT)
    return done.returncode, done.stdout


def cells(line: bytes) -> list[bytes]:
    """The parts of a line behind its kind."""
    return re.findall(rb"\|((?:[^\\|]|\\.)*)", line)


def plain(shown: bytes) -> bytes:
    """The bytes that a part shows."""
    return re.sub(rb"\\(?:x(..)|(.))", lambda found: bytes([int(found[1], 16)]) if found[1] else MEANT.get(found[2], found[2]), shown)


class Load(NamedTuple):
    """What a load says of columns, rows and faults."""

    columns: list[bytes]
    rows: list[bytes]
    faults: list[Fault]


def load(file: bytes, words: list[bytes], given: bytes = b"") -> Load | None:
    """None where it is refused."""
    status, text = run([b"load", file, b"store_rejects=true", b"threads=1", *words], given)
    if status:
        return None
    made = Load([], [], [])
    for line in text.split(b"\n"):
        if line.startswith(b"column|"):
            made.columns.append(line)
        elif line.startswith(b"row|"):
            made.rows.append(line)
        elif line.startswith(b"error|"):
            _, _, line, row, byte, *rest = cells(line)
            made.faults.append((int(line), int(row), int(byte), tuple(rest)))
    return made


class Split(NamedTuple):
    """What a split says: the columns, the words of a part, the bytes and lines of the head, byte, length, line and rows of each
    part, and bytes, lines and rows of all."""

    columns: list[bytes]
    words: list[bytes]
    head: tuple[int, int]
    parts: list[tuple[int, int, int, int]]
    whole: tuple[int, int, int]


def split_of(text: bytes) -> Split:
    *lines, end = text.split(b"\n")
    same(end, b"", text)
    first = next(place for place, line in enumerate(lines) if line.startswith(b"words|"))
    parts = [tuple(map(int, cells(line))) for line in lines[first + 2 : -1]]
    same([(line[:5], part[0]) for line, part in zip(lines[first + 2 :], parts)], [(b"part|", number) for number in range(len(parts))])
    assert lines[0].startswith(b"options|") and lines[first + 1].startswith(b"head|") and lines[-1].startswith(b"parts|"), text
    count, *whole = map(int, cells(lines[-1]))
    same(count, len(parts), text)
    head = tuple(map(int, cells(lines[first + 1])))
    return Split(lines[1:first], list(map(plain, cells(lines[first]))), head, [part[1:] for part in parts], tuple(whole))


def line_ends(data: bytes) -> int:
    return len(re.findall(rb"\r\n|\r|\n", data))


def check_places(data: bytes, split: Split) -> None:
    """The parts follow one another from the head to the end, and each knows its line."""
    place = split.head[0]
    for byte, length, line, _ in split.parts:
        same(byte, place, data, split)
        # Before an LF that goes on a line end there is none behind the CR.
        same(line, 1 + line_ends(data[:byte]), data, split)
        place += length
    same(split.whole, (len(data), line_ends(data), sum(rows for *_, rows in split.parts)), data, split)
    same((place, split.head[1]), (len(data), split.parts[0][2] - 1), data, split)


def starts_by(size: int, cuts: list[int]) -> list[int]:
    """The parts of a size, where those of the least one begin at all cuts: each at the first one at or behind a further multiple."""
    starts, due = cuts[:1], (cuts[0] // size + 1) * size
    for cut in cuts[1:]:
        if cut >= due:
            starts.append(cut)
            due = (cut // size + 1) * size
    return starts


def moved(fault: Fault, lines: int, bytes_before: int) -> Fault:
    line, row, byte, rest = fault
    return line + lines, row + bytes_before, byte + bytes_before, rest


def loads_of(data: bytes, split: Split, words: list[bytes]) -> list[Load]:
    """The load of each part, with the places that its faults have in the file."""
    (head, head_lines), loads = split.head, []
    for byte, length, line, _ in split.parts:
        part = load(b"-", [*split.words, *words], data[:head] + data[byte : byte + length])
        assert part is not None, (data, split, byte)
        same(part.columns, split.columns, data, split)
        faults = [moved(fault, line - 1 - head_lines, byte - head) for fault in part.faults]
        loads.append(Load(part.columns, part.rows, faults))
    return loads


def joined(split: Split, loads: list[Load]) -> Load:
    return Load(split.columns, [row for each in loads for row in each.rows], [fault for each in loads for fault in each.faults])


def check(file: pathlib.Path, data: bytes, words: list[bytes], sizes: list[int]) -> int:
    """How many parts were loaded."""
    file.write_bytes(data)
    name, loaded = os.fsencode(file), 0
    whole = load(name, words)
    for size in sizes:
        call = [b"size=%d" % size, *words]
        status, text = run([b"split", name, *call])
        same(status == 0, whole is not None, data, call)
        if whole is None:
            return 0
        same(run([b"split", b"-", *call], data), (0, text), data, call)
        split = split_of(text)
        check_places(data, split)
        cuts = [byte for byte, *_ in split_of(run([b"split", name, b"size=1", *words])[1]).parts]
        same([byte for byte, *_ in split.parts], starts_by(size, cuts), data, call)
        parts = loads_of(data, split, [])
        same(joined(split, parts), whole, data, call)
        # A row can have several faults.
        judged = [len(part.rows) + len({row for _, row, *_ in part.faults}) for part in parts]
        same([rows for *_, rows in split.parts], judged, data, call)
        loaded += len(parts)
        if not whole.faults:
            continue
        # The first faults are the first ones of the parts' first ones; and the least sample does.
        is_sampled = any(word.startswith(b"sample_size=") for word in words)
        few = loads_of(data, split, [b"rejects_limit=2"] + [b"sample_size=1"] * (not is_sampled))
        same(joined(split, few).faults[:2], whole.faults[:2], data, call)
        assert all(len(part.faults) <= 2 for part in few), (data, call)
    return loaded


# ---- random files


def random_field(chance: random.Random, delim: bytes, quote: bytes, escape: bytes) -> bytes:
    values = [b"", b"1", b"23", b"-7", b"true", b"2020-01-02", b"10:00:00", b"a", b"b c", b"NA", b"x\xff", b"\xc3\xa4", b'5"y', b"#h"]
    values += [MARK + b"z", b" 4 ", b"a\\b", b"\0"]
    value = chance.choice(values)
    if not quote or chance.random() < 0.65:
        return value
    middles = [b"", b"\n", b"\r", b"\r\n", b"\n\n#", delim, b"\n" + MARK, b"\r\n\r"]
    inner = value + chance.choice(middles) + chance.choice(values)
    if chance.random() < 0.93:
        for mark in {escape, quote} - {b""}:
            inner = inner.replace(mark, (escape or mark) + mark) if mark != escape or escape == quote else inner.replace(mark, mark + mark)
    return quote + inner + quote + (b"x" if chance.random() < 0.02 else b"")


def random_row(chance: random.Random, columns: int, marks: tuple[bytes, bytes, bytes]) -> bytes:
    kind = chance.random()
    if kind < 0.08:
        return b""
    if kind < 0.16:
        return b'# c, "o' + chance.choice([b"", MARK])
    more = chance.choice([-1, 1]) if chance.random() < 0.06 else 0
    return marks[0].join(random_field(chance, *marks) for _ in range(columns + more))


def random_noise(chance: random.Random) -> bytes:
    units = [b"a", b"1", b",", b";", b'"', b'"', b"'", b"\\", b"\n", b"\r", b"\r\n", b"#", MARK, b"\xff", b" ", b'"\n', b',"', b"\n#"]
    return b"".join(chance.choice(units) for _ in range(chance.randrange(70)))


def random_file(chance: random.Random) -> bytes:
    if chance.random() < 0.25:
        return random_noise(chance)
    delim, quote = chance.choice([b",", b",", b";", b"|", b"\t"]), chance.choice([b'"', b'"', b'"', b"'", b""])
    escape = chance.choice([quote, quote, b"\\"]) if quote else b""
    columns, is_mixed, end = chance.choice([1, 2, 2, 3, 4]), chance.random() < 0.25, chance.choice(ENDS)
    made = b"".join(chance.choice([b"junk", b"", b'"q', b"#c"]) + chance.choice(ENDS) for _ in range(chance.choice([0, 0, 0, 1, 2])))
    if chance.random() < 0.5:
        names = [b"id", b"n,m", b"v", b"v", b'"two\nlines"', b"day", b"\xff", b""]
        made += delim.join(chance.choice(names) for _ in range(columns)) + end
    for _ in range(chance.randrange(14)):
        made += random_row(chance, columns, (delim, quote, escape)) + (chance.choice(ENDS) if is_mixed else end)
    if chance.random() < 0.3:
        made = made.rstrip(b"\r\n")
    return MARK * chance.choices([0, 1, 2], [85, 14, 1])[0] + made


def random_words(chance: random.Random) -> list[bytes]:
    shares = {
        0.15: ["delim=,|delim=;|delim=\\t", "sample_size=1|sample_size=3"],
        0.1: ['quote="|quote=|quote=\'', 'escape="|escape=\\|escape=', "names=p,q|names=p|names=p,q,r", "all_varchar=true"],
        0.4: ["comment=#"],
        0.3: ["header=true|header=false"],
        0.2: ["skip=1|skip=2|skip=9", "nullstr=NA|nulls=,NA|nulls=NA,1,true", "allow_quoted_nulls=false"],
        0.21: ["max_line_size=1|max_line_size=5|max_line_size=12"],
        0.25: ["null_padding=true"],
    }
    words = [chance.choice(each.split("|")) for share, all_of in shares.items() for each in all_of if chance.random() < share]
    if "all_varchar=true" not in words and chance.random() < 0.15:
        types = ["types=BIGINT,VARCHAR", "types=VARCHAR", "types=DATE,BIGINT,BOOLEAN", "column_types=id:VARCHAR", "column_types=column0:BIGINT"]
        words.append(chance.choice(types))
    return [word.encode() for word in words]


# ---- a large file


def check_large(file: pathlib.Path) -> str:
    """A row with a hole of 5 GiB between its quotes isn't cut, and what lies behind it has its own lines and places."""
    head, front, back = b"id,note\n", b"".join(b"%d,a\n" % number for number in range(9)) + b'9,"', b'"\n10,"b\nc"\nx,d\n11,e\n'
    with file.open("wb") as into:
        into.write(head + front)
        into.truncate(len(head + front) + HOLE)
        into.seek(0, os.SEEK_END)
        into.write(back)
    if file.stat().st_blocks * 512 > 1 << 20:
        return "no file of 5 GiB, since here a hole takes room"
    words = [b"delim=,", b'quote="', b'escape="', b"header=true", b"types=BIGINT,VARCHAR"]
    status, text = run([b"split", os.fsencode(file), b"size=%d" % (1 << 30), *words])
    same(status, 0)
    split, behind = split_of(text), len(head + front) + HOLE + 2
    same(split.parts, [(8, behind - 8, 2, 10), (behind, len(back) - 2, 12, 3)])
    same(split.whole, (behind + len(back) - 2, 15, 13))
    part = load(b"-", split.words, head + back[2:])
    assert part is not None
    same(part.rows, [b"row|10|b\\nc", b"row|11|e"])
    same([moved(fault, 12 - 2, behind - 8)[:3] for fault in part.faults], [(14, behind + 10, behind + 10)])
    return "and one of 5 GiB"


def main() -> None:
    seed = int(sys.argv[1]) if len(sys.argv) > 1 else 7
    chance = random.Random(seed)
    with tempfile.TemporaryDirectory() as folder:
        file = pathlib.Path(folder, "f.csv")
        hard = hard_rows.as_csv()
        sizes = [1, 2, 7, 64, 200, len(hard), len(hard) + 1]
        loaded = check(file, hard, [word.encode() for word in hard_rows.OPTIONS], sizes)
        loaded += check(file, hard + b"x,yes\n\n# c\n", [b"comment=#"], sizes)
        for _ in range(RANDOM_FILES):
            loaded += check(file, random_file(chance), random_words(chance), [chance.choice([1, 3, 7, 16, 40, 90])])
        large = check_large(file)
    print(f"{sys.argv[0]}: hard rows and {RANDOM_FILES} random files in {loaded} parts, {large}")


if __name__ == "__main__":
    main()
