#!/usr/bin/env python3
"""Measures how long it takes to score all 20 candidates over a sample of 4 MiB, against 20 plain scans of it."""

import pathlib
import subprocess
import sys
import tempfile

import programs

SHAPES = ["made", "wide", "text"]
CRATES = "csv_source byte_classes quote_automaton row_fields dialect_rank"


def main() -> None:
    make_data = pathlib.Path(__file__).with_name("make_data.py")
    with tempfile.TemporaryDirectory() as folder:
        program = programs.build("ranking", CRATES, pathlib.Path(folder) / "copy")
        print("milliseconds of CPU time; scored over 20,480 rows and over all, rows and fields read, bytes folded")
        for shape in SHAPES:
            file = pathlib.Path(folder) / shape
            subprocess.run([sys.executable, make_data, shape, file, "--mb", "5"], check=True, capture_output=True)
            lines = subprocess.run([program, file], check=True, capture_output=True, text=True).stdout.splitlines()
            times = [min(column) / 1e6 for column in zip(*(map(int, line.split()[:4]) for line in lines))]
            print(f"{shape:6}", *(f"{time:7.1f}" for time in times))


if __name__ == "__main__":
    main()
