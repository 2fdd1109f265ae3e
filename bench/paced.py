#!/usr/bin/env python3
"""Measures `csvload summary -` behind a pipe that gives so many MB a second: `pipeline=true` with three threads against four without.

paced.py CSVLOAD [MB] [MB_A_SECOND] [REPS]
"""

import hashlib
import os
import pathlib
import subprocess
import sys
import tempfile
import time

import make_data

PIECE = 1 << 18

WAYS = ("threads=4", "pipeline=true threads=3")

RANGE_SIZES = (1 << 16, 1 << 20)


def feed(data: bytes, into: int, rate: int) -> None:
    """Writes the bytes no faster than the rate. What a reader's pause costs isn't made up for, but for two milliseconds."""
    view, due = memoryview(data), time.monotonic()
    for at in range(0, len(data), PIECE):
        piece = view[at : at + PIECE]
        time.sleep(max(due - time.monotonic(), 0))
        due = max(due, time.monotonic() - 0.002) + len(piece) / rate
        while piece:
            piece = piece[os.write(into, piece) :]


def run(csvload: str, data: bytes, words: list[str], rate: int) -> tuple[float, str]:
    """Seconds of wall time, and the sum of the text."""
    command = [csvload, "summary", "-", f"max_input={1 << 32}", "stats=true", *words]
    begun = time.monotonic()
    with subprocess.Popen(command, stdin=subprocess.PIPE, stdout=subprocess.PIPE) as program:
        feed(data, program.stdin.fileno(), rate)
        program.stdin.close()
        text = program.stdout.read()
    if program.returncode:
        raise SystemExit(f"{' '.join(command)}: status {program.returncode}")
    return time.monotonic() - begun, hashlib.sha256(text).hexdigest()


def main() -> None:
    csvload, *numbers = sys.argv[1:]
    size, rate, reps = [int(n) for n in numbers] + [400, 400, 5][len(numbers) :]
    with tempfile.TemporaryDirectory() as folder:
        file = pathlib.Path(folder) / "made"
        make_data.write("made", str(file), size=size * 1_000_000)
        data = file.read_bytes()
    print("range_size, seconds of wall time: threads=4, pipeline=true threads=3, their ratio")
    for range_size in RANGE_SIZES:
        least, sums = dict.fromkeys(WAYS, float("inf")), set()
        for _ in range(reps):
            for way in WAYS:
                took, text = run(csvload, data, [*way.split(), f"range_size={range_size}"], rate * 1_000_000)
                least[way] = min(least[way], took)
                sums.add(text)
        if len(sums) != 1:
            raise SystemExit("the texts differ")
        plain, piped = (least[way] for way in WAYS)
        print(f"{range_size:8} {plain:6.2f} {piped:6.2f} {plain / piped:6.2f}")


if __name__ == "__main__":
    main()
