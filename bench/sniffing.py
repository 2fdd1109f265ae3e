#!/usr/bin/env python3
"""Measures how long it takes to sniff a sample of 4 MiB, against one plain scan of it under the dialect that is found."""

import pathlib
import random
import subprocess
import tempfile

import make_data
import programs

CRATES = "csv_source byte_classes quote_automaton row_fields value_types load_options dialect_rank csv_sniffer"
SIZE = 4_300_000


def write_numbers(file: pathlib.Path, columns: int) -> None:
    """A header, and rows of whole numbers of one to three digits."""
    draw = random.Random(1)
    with open(file, "w") as out:
        size = out.write(",".join(f"c{column}" for column in range(columns)) + "\n")
        while size < SIZE:
            row = (str(draw.randrange(10 ** draw.randrange(1, 4))) for _ in range(columns))
            size += out.write(",".join(row) + "\n")


def main() -> None:
    with tempfile.TemporaryDirectory() as folder:
        program = programs.build("sniffing", CRATES, pathlib.Path(folder) / "copy")
        print("milliseconds of CPU time to sniff, and to scan; columns; rows of the sample")
        for name in ("numbers 1000", "numbers 50", "made", "text", "dates"):
            file = pathlib.Path(folder) / name
            shape, _, columns = name.partition(" ")
            if columns:
                write_numbers(file, int(columns))
            else:
                make_data.write(shape, str(file), size=SIZE)
            lines = subprocess.run([program, file], check=True, capture_output=True, text=True).stdout.splitlines()
            sniffed, scanned, found, rows = min([int(word) for word in line.split()] for line in lines)
            print(f"{name:13} {sniffed / 1e6:7.1f} {scanned / 1e6:7.1f} {found:6} {rows:7}")


if __name__ == "__main__":
    main()
