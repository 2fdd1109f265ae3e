#!/usr/bin/env python3
"""Converts a folder of files by examples/many.sh with two workers, one of which is killed midway, and then goes on.

Besides: what it refuses at its start, and what a second call does anew. CSVLOAD names the program. Where GNU parallel isn't
installed a few lines of Python stand in for it, which is said.
"""

import csv
import fcntl
import os
import pathlib
import shutil
import subprocess
import sys
import tempfile

SCRIPT = pathlib.Path(__file__).parent.parent / "examples" / "many.sh"
NEEDED = ("bash", "awk")
FILES = {f"f{number}.csv": f'id,note\n{number},a\n2,"say ""x"", y"\n' for number in range(1, 5)}
FILES["f5.csv"] = 'id,note\nx,"c\nd"\n4\n5,"l\n1"\n'
FILES["f 6.csv"] = "id,note\n7,z\n"
FILES["f7.v1.CSV"] = "id,note\n8,w\n"
REJECTS = [["f5.csv", "CAST", 'x,"c\nd"'], ["f5.csv", "MISSING COLUMNS", "4"]]

# A program that writes five bytes of f3.csv and is killed, the first time that it converts it.
KILLED = """#!/bin/bash
if [ "$1" = convert ] && [[ $2 == *f3.csv ]] && [ ! -e "$KILLED" ]; then
    touch "$KILLED"
    "$PROGRAM" "$@" | head -c 5
    kill -9 $$
fi
exec "$PROGRAM" "$@"
"""


# For GNU parallel as the script calls it: --version, or --will-cite --null JOB, with the files in standard input, two at a time.
STAND_IN = """#!/usr/bin/env python3
import multiprocessing.pool, pathlib, shlex, subprocess, sys
if sys.argv[1] == "--version":
    sys.exit(print("GNU parallel, by a stand-in"))
def run(file):
    job = sys.argv[3].replace("{/.}", shlex.quote(pathlib.Path(file).stem)).replace("{}", shlex.quote(file))
    return subprocess.run(["bash", "-c", job]).returncode
files = [file for file in sys.stdin.read().split("\\0") if file]
sys.exit(any(multiprocessing.pool.ThreadPool(2).map(run, files, 1)))
"""


def rows_of(path: pathlib.Path) -> list[list[str]]:
    """The rows of a CSV file, with the names first."""
    with open(path, newline="") as file:
        return list(csv.reader(file))


# Of the second file alone the last column would be a text, and of the third one there would be a column less.
TYPED = {"a.csv": "zip,n\n00501,1\n", "b.csv": "zip,n\n00502,x\n00503,2\n", "c.csv": "zip\n00504\n"}


def convert(folder: pathlib.Path | str, into: pathlib.Path | str, environment: dict[str, str], *words: str) -> tuple[int, str]:
    """The status of the script, and what it said."""
    command = [SCRIPT, folder, into, *words]
    run = subprocess.run(command, cwd=environment["HOME"], env=environment, capture_output=True, text=True, timeout=120)
    return run.returncode, run.stderr


def executable(path: pathlib.Path, text: str) -> None:
    path.write_text(text)
    path.chmod(0o755)


def matches_batch(folder: pathlib.Path, into: pathlib.Path, names: list[str], *words: str) -> None:
    """The rows of all results are those of one batch."""
    files = ",".join(str(folder / name) for name in names)
    expected = subprocess.run([os.environ["CSVLOAD"], "batch", files, "ignore_errors=true", *words], capture_output=True, text=True, check=True).stdout
    results = [into / f"{pathlib.Path(name).stem}.csv" for name in names]
    rows = [[cell.replace("\n", "\\n") for cell in row] for result in results for row in rows_of(result)[1:]]
    batch = [line.split("|")[1:] for line in expected.splitlines() if line.startswith("row|")]
    assert rows == batch, (rows, batch)


def typed(made: str, environment: dict[str, str]) -> None:
    """A folder whose types are given by name, and one whose columns are all texts."""
    folder = pathlib.Path(made, "typed")
    folder.mkdir()
    for name, text in TYPED.items():
        pathlib.Path(folder, name).write_text(text)
    for word in ("column_types=zip:VARCHAR", "all_varchar=true"):
        into = pathlib.Path(made, word)
        status, said = convert(folder, into, environment, word)
        assert status == 0, (status, said)
        matches_batch(folder, into, sorted(TYPED), word)


def refused(made: str, environment: dict[str, str]) -> None:
    """What is refused with status 2, before anything is made."""
    folder, into = pathlib.Path(made, "refused"), pathlib.Path(made, "none of it")
    folder.mkdir()
    pathlib.Path(folder, "a.csv").write_text("id,v\n1,a\n")
    same = pathlib.Path(made, "same")
    same.symlink_to(folder)
    cases = [
        (folder, folder, environment, f"'{folder}' and '{folder}' are one folder: the results want another"),
        (folder, same, environment, f"'{folder}' and '{same}' are one folder: the results want another"),
        (folder, into, dict(environment, CSVLOAD="no such"), "no program 'no such' (CSVLOAD names it)"),
        (folder / "no", into, environment, f"'{folder}/no' is no folder"),
        (folder, into, environment, f"'{folder}/rejects.csv' would have the name of the gathered rejects: rename it, or use to=sqlite"),
    ]
    both = f"'{folder}/a.CSV' and '{folder}/a.csv' would have one result: rename one"
    gathered = f"'{folder}/rejects.CSV' would have the name of the gathered rejects: rename it, or use to=sqlite"
    for name, line in (("a.CSV", both), ("rejects.CSV", gathered)):
        pathlib.Path(folder, name).write_text("id,v\n3,c\n")
        assert convert(folder, into, environment) == (2, f"many.sh: {line}\n") and not into.exists(), line
        pathlib.Path(folder, name).unlink()
    for source, target, given, line in cases:
        if "rejects.csv" in line:
            pathlib.Path(folder, "rejects.csv").write_text("id,v\n3,c\nx,d\n")
        there = sorted(folder.iterdir())
        assert convert(source, target, given) == (2, f"many.sh: {line}\n"), (line, convert(source, target, given))
        assert sorted(folder.iterdir()) == there and not into.exists(), line
    status, said = convert(folder, into, environment, "to=sqlite", "types=BIGINT,VARCHAR")
    assert status == 0, (status, said)
    assert sorted(path.name for path in into.glob("*.db")) == ["a.db", "rejects.db"], list(into.iterdir())
    assert [[row[0], row[9]] for row in rows_of(into / "rejects.csv")[1:]] == [["rejects.csv", "x,d"]]
    arrays = pathlib.Path(made, "arrays")
    assert convert(folder, arrays, environment, "to=npz", "types=BIGINT,VARCHAR")[0] == 0
    assert sorted(path.name for path in arrays.iterdir()) == [".rejects", "a.npz", "rejects.csv", "rejects.npz"], list(arrays.iterdir())
    assert (arrays / "a.npz").read_bytes().startswith(b"PK\3\4")


def anew(made: str, environment: dict[str, str]) -> None:
    """A second call keeps the results of the same words, also under other threads, and does all anew under others or of another
    folder."""
    folder, into = pathlib.Path(made, "twice"), pathlib.Path(made, "twice into")
    folder.mkdir()
    for name in ("a.csv", "b.csv"):
        pathlib.Path(folder, name).write_text("id,v\n1,a\n2,NA\n")
    results = [into / "a.csv", into / "b.csv"]
    made_at = []
    for words in [], [], ["threads=1"], ["nulls=,NA"], ["nulls=,NA"], []:
        status, said = convert(folder, into, environment, *words)
        assert (status, said) == (0, ""), (words, status, said)
        cells = [[row[1] for row in rows_of(result)] for result in results]
        assert cells == [["v", "a", "" if "nulls=,NA" in words else "NA"]] * 2, (words, cells)
        made_at.append([result.stat().st_mtime_ns for result in results])
    kept = [before == after for before, after in zip(made_at, made_at[1:])]
    assert kept == [True, True, False, True, False], kept
    # Files of the same names in another folder, which are older than the results.
    other = pathlib.Path(made, "other")
    shutil.copytree(folder, other)
    pathlib.Path(other, "b.csv").write_text("id,v\n1,c\n")
    os.utime(other / "b.csv", (0, 0))
    assert convert(other, into, environment) == (0, "")
    assert [row[1] for row in rows_of(results[1])] == ["v", "c"], rows_of(results[1])


def held(folder: pathlib.Path) -> dict[str, bytes]:
    """The files of a folder."""
    return {path.name: path.read_bytes() for path in folder.iterdir() if path.is_file()}


def kept(made: str, environment: dict[str, str]) -> None:
    """Words that are refused take no result away, nor does a second call while the first is at work; a file that no call made
    stays. A folder may be named as an option is."""
    folder, into = pathlib.Path(made, "-from"), pathlib.Path(made, "-into")
    folder.mkdir()
    for name in ("a.csv", "-b 'c' \\ ü.csv"):
        pathlib.Path(folder, name).write_text("id;v\n1;a\n")
    assert convert("-from", "-into", environment, "sep=;") == (0, "")
    there = held(into)
    assert len(there) == 3, there
    refused = (
        ("to=sqlit", "csvload: 'to=sqlit' is refused: to takes csv, sqlite or npz"),
        ("output=x", "many.sh: 'output=x' is no option here"),
        ("header=false", "many.sh: another call is at work in './-into'"),
    )
    with open(into / ".rejects" / "lock") as lock:
        fcntl.flock(lock, fcntl.LOCK_EX)
        for word, line in refused if shutil.which("flock") else refused[:2]:
            assert convert("-from", "-into", environment, word) == (2, f"{line}\n"), word
    assert held(into) == there
    own = pathlib.Path(made, "own")
    own.mkdir()
    pathlib.Path(own, "a.csv").write_text("mine\n")
    line = f"many.sh: '{own}/a.csv' is there, and no result of this script: name another folder\n"
    assert convert(folder, own, environment) == (2, line) and held(own) == {"a.csv": b"mine\n"}


def main() -> None:
    missing = [name for name in NEEDED if not shutil.which(name)]
    if missing:
        print(f"{sys.argv[0]}: passed over, no {', '.join(missing)}")
        return
    with tempfile.TemporaryDirectory() as made:
        folder, into = pathlib.Path(made, "from"), pathlib.Path(made, "into")
        folder.mkdir()
        for name, text in FILES.items():
            pathlib.Path(folder, name).write_text(text)
        killed, tools = pathlib.Path(made, "csvload"), pathlib.Path(made, "tools")
        tools.mkdir()
        executable(killed, KILLED)
        by = "GNU parallel"
        if not shutil.which("parallel"):
            by = "a stand-in for GNU parallel"
            executable(tools / "parallel", STAND_IN)
        environment = dict(os.environ, CSVLOAD=str(killed), PROGRAM=os.environ["CSVLOAD"], KILLED=f"{made}/killed", PARALLEL="--jobs 2", HOME=made)
        environment |= {"PATH": f"{tools}:{environment['PATH']}", "LC_ALL": "C"}

        status, said = convert(folder, into, environment)
        assert status == 1 and "f3.csv' failed" in said, (status, said)
        results = [f"{pathlib.Path(name).stem}.csv" for name in FILES if name != "f3.csv"]
        assert sorted(path.name for path in into.glob("f*.csv")) == sorted(results), list(into.iterdir())
        status, said = convert(folder, into, environment)
        assert status == 0, (status, said)

        matches_batch(folder, into, sorted(FILES))
        rejects = rows_of(into / "rejects.csv")
        assert rejects[0][0] == "file" and [[row[0], row[8], row[9]] for row in rejects[1:]] == REJECTS, rejects
        typed(made, environment)
        refused(made, environment)
        anew(made, environment)
        kept(made, environment)
    print(f"{sys.argv[0]}: {len(FILES)} files by two workers of {by}, one killed midway: none lost, none twice")


if __name__ == "__main__":
    main()
