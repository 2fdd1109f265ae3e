#!/usr/bin/env python3
"""Measures the scan of 40 MB in ranges of 1 MiB by one thread, against a pass that finds rows and fields alone."""

import pathlib
import subprocess
import tempfile

import make_data
import programs

CRATES = "csv_source byte_classes quote_automaton row_fields value_types column_store reject_book range_guess range_scan"
SIZE = 40_000_000

# A letter for the type of each column.
SHAPES = {"made": "IBDV", "wide": "I" * 50, "text": "IVVV", "dates": "IDTSB", "bad": "IBDV"}


def main() -> None:
    with tempfile.TemporaryDirectory() as folder:
        program = programs.build("scanning", CRATES, pathlib.Path(folder) / "copy")
        print("MB/s scanned, and with rows and fields found alone, of CPU time; good rows, rejects")
        for shape, letters in SHAPES.items():
            file = pathlib.Path(folder) / shape
            make_data.write(shape, str(file), size=SIZE)
            size = file.stat().st_size
            lines = subprocess.run([program, file, letters], check=True, capture_output=True, text=True).stdout.splitlines()
            runs = [[int(word) for word in line.split()] for line in lines]
            scanned, found = min(run[0] for run in runs), min(run[1] for run in runs)
            print(f"{shape:6} {size / scanned * 1e3:7.0f} {size / found * 1e3:7.0f} {runs[0][2]:8} {runs[0][3]:6}")


if __name__ == "__main__":
    main()
