#!/usr/bin/env python3
"""Measures the reading of groups by crews of 1, 2 and 4 workers, in wall time, against a loop over the ranges on one thread.

crew.py [MB] [SHAPE]..
"""

import pathlib
import subprocess
import sys
import tempfile

import make_data
import programs

CRATES = (
    "csv_source byte_classes quote_automaton row_fields value_types column_store reject_book range_guess claim_board"
    " chain_words range_scan load_crew"
)

# A letter for the type of each column.
SHAPES = {"made": "IBDV", "wide": "I" * 50, "text": "IVVV", "dates": "IDTSB"}


def main() -> None:
    words = sys.argv[1:]
    size = int(words.pop(0)) * 1_000_000 if words else 400_000_000
    shapes = words or ["made", "wide"]
    with tempfile.TemporaryDirectory() as folder:
        program = programs.build("crew", CRATES, pathlib.Path(folder) / "copy")
        print("milliseconds of wall time, the least of five rounds: loop on one thread; crews of 1, 2, 4; 1 by the loop, 1 by 4")
        for shape in shapes:
            file = pathlib.Path(folder) / shape
            make_data.write(shape, str(file), size=size)
            lines = subprocess.run([program, file, SHAPES[shape]], check=True, capture_output=True, text=True).stdout.splitlines()
            least: dict[str, int] = {}
            for way, took, _ in (line.split() for line in lines):
                least[way] = min(int(took), least.get(way, int(took)))
            if len({line.split()[2] for line in lines}) != 1:
                raise SystemExit(f"{shape}: the rows differ")
            times = " ".join(f"{least[way]:6}" for way in ("loop", "1", "2", "4"))
            print(f"{shape:6} {times} {least['1'] / least['loop']:6.2f} {least['1'] / least['4']:6.2f}")
            file.unlink()


if __name__ == "__main__":
    main()
