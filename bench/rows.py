#!/usr/bin/env python3
"""Measures a pass that finds the rows and fields of 40 MB, and one along the automaton.

rows.py [CHECKOUT]: beside the program over this checkout's crates, which takes turns with it, one over those of another.
"""

import pathlib
import sys
import tempfile

import make_data
import programs

CRATES = "csv_source byte_classes quote_automaton row_fields"
SIZE = 40_000_000
SHAPES = ["made", "wide", "text", "dates"]
ROUNDS = 11
PASSES = 10


def rates(builds: list[pathlib.Path], file: pathlib.Path, way: str) -> tuple[list[float], str]:
    """MB by seconds of CPU time of each build, less a run of one pass, which takes the reading; what they find."""
    least: dict[tuple[pathlib.Path, int], float] = {}
    found: dict[int, set[str]] = {1: set(), PASSES + 1: set()}
    for _ in range(ROUNDS):
        for program in builds:
            for times in found:
                spent, _, printed = programs.usage(program, file, way, times)
                least[program, times] = min(spent, least.get((program, times), spent))
                found[times].add(printed)
    if any(len(printed) != 1 for printed in found.values()):
        raise SystemExit(f"{file.name} {way}: what the passes find differs")
    size = file.stat().st_size * PASSES / 1e6
    return [size / (least[program, PASSES + 1] - least[program, 1]) for program in builds], found[1].pop().strip()


def main() -> None:
    with tempfile.TemporaryDirectory() as folder:
        tops = [programs.TOP, *map(pathlib.Path, sys.argv[1:])]
        builds = [programs.build("rows", CRATES, pathlib.Path(folder) / f"copy{place}", top) for place, top in enumerate(tops)]
        print("MB by seconds of CPU time, here and in the other checkout, and their ratio; what a pass finds")
        for shape in SHAPES:
            file = pathlib.Path(folder) / shape
            make_data.write(shape, str(file), size=SIZE)
            for way in ("rows", "fold"):
                by_build, found = rates(builds, file, way)
                ratios = (f"{by_build[0] / other:6.2f}" for other in by_build[1:])
                print(f"{shape:6} {way:5}", *(f"{rate:7.0f}" for rate in by_build), *ratios, " ", found)
            file.unlink()


if __name__ == "__main__":
    main()
