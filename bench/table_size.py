#!/usr/bin/env python3
"""Measures the bytes a row of each column type, in a table that is filled row by row."""

import argparse
import pathlib
import tempfile

import programs

TYPES = ["BOOLEAN", "BIGINT", "DATE", "TIME", "TIMESTAMP", "VARCHAR of 8 bytes"]


def main() -> None:
    parser = argparse.ArgumentParser(description=__doc__)
    parser.add_argument("--rows", type=int, default=134_217_728)
    rows = parser.parse_args().rows
    with tempfile.TemporaryDirectory() as folder:
        program = programs.build("table_size", "csv_source value_types column_store", pathlib.Path(folder) / "copy")
        print(f"{rows} rows; bytes a row of the whole process, grown row by row and reserved before")
        for number, name in enumerate(TYPES):
            sizes = [programs.usage(program, number, rows, reserve)[1] / rows for reserve in (0, 1)]
            print(f"{name:20} {sizes[0]:6.2f} {sizes[1]:6.2f}")


if __name__ == "__main__":
    main()
