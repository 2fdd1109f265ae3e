"""Builds a program of programs/ over the repository's crates.

The gate lets no source file lie outside crates/, so these end in .in. A program is built in a copy of the repository.
"""

import os
import pathlib
import shutil
import subprocess

TOP = pathlib.Path(__file__).resolve().parents[1]


def build(name: str, stands_on: str, copy: pathlib.Path, top: pathlib.Path = TOP) -> pathlib.Path:
    """The program of that name, over the crates that it stands on, built in a copy of the repository or of another checkout."""
    shutil.copytree(top, copy, ignore=shutil.ignore_patterns(".git", "out", "bench"))
    crate = copy / "crates" / name
    source = TOP / "bench" / "programs" / name
    for file in source.rglob("*.in"):
        target = crate / file.relative_to(source).with_suffix("")
        target.parent.mkdir(parents=True, exist_ok=True)
        shutil.copyfile(file, target)
    with open(copy / "crates.txt", "a") as crates:
        crates.write(f"{name}: {stands_on}\n")
    done = subprocess.run(["rt", "run"], cwd=crate, stdin=subprocess.DEVNULL, capture_output=True, text=True)
    program = crate / "out" / name
    if not program.exists():
        raise SystemExit(done.stdout + done.stderr)
    return program


def usage(program: pathlib.Path, *words: object) -> tuple[float, int, str]:
    """The CPU time of a run in seconds, its largest resident size in bytes, and what it printed."""
    process = subprocess.Popen([program, *map(str, words)], stdout=subprocess.PIPE, text=True)
    printed = process.stdout.read()
    _, status, spent = os.wait4(process.pid, 0)
    if status != 0:
        raise SystemExit(f"{program.name} {words} failed: {status}")
    return spent.ru_utime + spent.ru_stime, spent.ru_maxrss * 1024, printed
