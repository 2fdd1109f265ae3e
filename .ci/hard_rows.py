"""Rows that are hard to hand on, each in all types: as Python has them, and as CSV. And a loader that ends too early."""

from __future__ import annotations

import pathlib

TYPES = ["BIGINT", "BOOLEAN", "DATE", "TIME", "TIMESTAMP", "VARCHAR"]
NAMES = ["number", "Is it?", "day", ":clock", 'a|b "c" \\d', "straße"]

# How the CSV is read: between quotes nothing is null.
OPTIONS = ["delim=,", 'quote="', 'escape="', "header=true", "allow_quoted_nulls=false", f"types={','.join(TYPES)}"]

TEXTS = [
    "bars | and ||",
    "a bar and a backslash \\| and \\\\|",
    "ends with a backslash \\",
    "a tab\tin it",
    "a CR\rin it",
    "a LF\nin it",
    "both\r\nin it\n",
    "controls \x01\x02\x08\x0b\x0c\x1b\x1f\x7f",
    "\\N",
    "NULL",
    "\\.",
    "a line\n\\.\nof a dump",
    "\\n \\r \\t \\x41 \\101",
    'quotes " and "" and \'',
    "Müller, 東京, \U0001d11e",
    "  spaces at both ends  ",
    "",
    None,
]

NUMBERS = [0, -1, 7, 9223372036854775807, -9223372036854775808, None]
DAYS = ["2024-02-29", "0001-01-01", "9999-12-31", None]
CLOCKS = ["00:00:00", "23:59:59", "09:15:00", None]

ROWS = [
    (
        NUMBERS[place % len(NUMBERS)],
        (True, False, None)[place % 3],
        DAYS[place % len(DAYS)],
        CLOCKS[place % len(CLOCKS)],
        f"{DAYS[place % 3]} {CLOCKS[place % 3]}",
        text,
    )
    for place, text in enumerate(TEXTS)
]


def quoted(text: str) -> str:
    return '"' + text.replace('"', '""') + '"'


def field(value: int | bool | str | None) -> str:
    if value is None:
        return ""
    return str(value).lower() if isinstance(value, int) else quoted(value)


def as_csv() -> bytes:
    lines = [",".join(map(quoted, NAMES)), *(",".join(map(field, row)) for row in ROWS)]
    return "".join(f"{line}\n" for line in lines).encode()


def write_broken_loader(path: pathlib.Path) -> None:
    """A program that ends with status 6 in the midst of a report."""
    path.write_text("#!/bin/sh\necho 'options|'\necho 'column|0|BIGINT|a'\necho 'row|1'\nexit 6\n")
    path.chmod(0o755)
