#!/usr/bin/env python3
"""Reads many files, and one in parts, by csvload.dask through a scheduler and two workers, processes on the loopback: each cell and
each reject as `batch` and `load` have them, the refusals, and a worker that is killed. CSVLOAD names the program. Where Dask isn't
there that is said, and nothing of it is tried.
"""

import contextlib
import os
import pathlib
import subprocess
import sys
import tempfile
import unittest
from collections.abc import Iterator
from datetime import date, datetime, time

sys.dont_write_bytecode = True

import hard_rows  # noqa: E402 (before it nothing may be written there)
import shown  # noqa: E402
from sqlite import Report  # noqa: E402

TOP = pathlib.Path(__file__).resolve().parent.parent
PROGRAM = os.environ["CSVLOAD"]
sys.path.insert(0, str(TOP / "python"))

try:
    import dask
    import dask.dataframe
    import distributed
    import pandas
except ImportError:
    print(f"{sys.argv[0]}: passed over, no Dask")
    sys.exit()

import csvload  # noqa: E402 (it stands there)
import csvload.dask  # noqa: E402

LIMIT = 60
CASTS = {"BOOLEAN": bool, "DATE": date.fromisoformat, "TIME": time.fromisoformat, "TIMESTAMP": datetime.fromisoformat}
HARD = hard_rows.as_csv()
HEADER, _, FIRST_ROWS = HARD.partition(b"\n")
FAULTS = b'x,yes,,,,"a\nb"\n7,,,,,"good"\n8,no,2024-02-30,,,"bytes \xff"\n9\n'
FILES = {"hard 1.csv": HARD, "hard 2.csv": HEADER + b"\n" + FAULTS + FIRST_ROWS, "hard 10.csv": HEADER + b"\n", "hard 11.csv": HARD + b"9\n"}
OPTIONS = {"delim": ",", "quote": '"', "escape": '"', "header": True, "allow_quoted_nulls": False, "types": hard_rows.TYPES}
# One file in parts of so many bytes: between quotes there are line ends of all kinds, and comment lines have quotes.
BLOCK = 400
COMMENT = b'# no "row\n'
LARGE = HEADER + b"\n" + b"".join(COMMENT + FIRST_ROWS + (FAULTS if number % 2 else b"\n") for number in range(8))
PARTS = {"blocksize": BLOCK, "comment": "#", **OPTIONS}
# Files that have to be taken for files with their own header: what is in them, and what is given besides.
HEADERS: list[tuple[bytes, dict[str, csvload.Option]]] = [
    (b'"a;b";"c ""d"";";e\n1;2;3\n', {}),
    (b"a|b;c;a\n1;2;3\n", {"delim": ";", "quote": ""}),
    (b"'it\\'s',b\\\\c,\\\n'1',2,3\n", {"quote": "'", "escape": "\\"}),
    (b'a"b,"c,d",e\n1,2,3\n', {"quote": '"', "escape": ""}),
    (b"\xef\xbb\xbfa\tA\ta\t\n1\t2\t3\t4\n", {}),
    (b"\xef\xbb\xbf\xef\xbb\xbfa,b\n1,2\n", {"quote": ""}),
    (b"a title\n\na\0b,b\n1,2\n", {"skip": 1}),
    (b'"#a",b\n# no row\n1,2\n', {"comment": "#"}),
    (b"a,b,c\n1,2\n", {"delim": ",", "types": ["BIGINT", "VARCHAR"]}),
    (b"zip,n\n007,1\n", {"column_types": {"zip": "VARCHAR"}}),
    (b"zip,n\n007,1\n", {"all_varchar": True}),
    (b"zip,n\n007,1\n", {"names": ["code", "number"]}),
    (b"1,2\n3,4\n", {"header": False}),
    (b'"a\r\nb"\n1\n\n2\n', {}),
]
# A program that kills the worker that calls it, the first time that it is to read hard 11.csv or has read some of the second part,
# and tells where its text would go.
KILLER = """#!/bin/sh
case $1$2 in
*'hard 11.csv' | convert-) if mkdir "$0.killed" 2>/dev/null; then
    [ "$2" != - ] || head -c 100 >/dev/null
    into=$(readlink "/proc/$$/fd/1")
    echo "$into" >"$0.killed/into"
    kill -9 "$PPID"
    exit 1
fi ;;
esac
exec {program} "$@"
"""


@contextlib.contextmanager
def running(*words: str) -> Iterator[subprocess.Popen]:
    """A process of Dask's own commands, ended at the end."""
    environment = dict(os.environ, PYTHONPATH=str(TOP / "python"), PYTHONDONTWRITEBYTECODE="1")
    silent = {"stdout": subprocess.DEVNULL, "stderr": subprocess.DEVNULL}
    process = subprocess.Popen([sys.executable, "-m", *words], env=environment, **silent)
    try:
        yield process
    finally:
        process.terminate()
        process.wait(LIMIT)


def name_program(name: str) -> None:
    """Which program a worker takes."""
    os.environ["CSVLOAD"] = name


def own(cell: object) -> object:
    """A cell as Python's own value: those of numpy have an `item`."""
    return None if cell is pandas.NA else cell.item() if hasattr(cell, "item") else cell


class Trial(unittest.TestCase):
    """A folder with the files, and a scheduler with two workers who see them."""

    stack: contextlib.ExitStack
    client: distributed.Client
    worker: list[str]

    @classmethod
    def setUpClass(cls) -> None:
        cls.stack = contextlib.ExitStack()
        cls.addClassCleanup(cls.stack.close)
        folder = cls.stack.enter_context(tempfile.TemporaryDirectory())
        cls.addClassCleanup(os.chdir, os.getcwd())
        os.chdir(folder)
        for name, data in FILES.items():
            pathlib.Path(name).write_bytes(data)
        at = ["--scheduler-file", "scheduler.json", "--host", "127.0.0.1", "--no-dashboard"]
        cls.stack.enter_context(running("distributed.cli.dask_scheduler", *at, "--port", "0"))
        cls.worker = ["distributed.cli.dask_worker", *at, "--no-nanny", "--nthreads", "1", "--local-directory", f"{folder}/workers"]
        for _ in range(2):
            cls.stack.enter_context(running(*cls.worker))
        cls.client = cls.stack.enter_context(distributed.Client(scheduler_file="scheduler.json", timeout=LIMIT))
        cls.client.wait_for_workers(2, timeout=LIMIT)

    def write(self, name: str, data: bytes) -> str:
        pathlib.Path(name).write_bytes(data)
        return name

    def kill_one(self, frame: dask.dataframe.DataFrame) -> pandas.DataFrame:
        """What is computed where a worker is killed in mid-task. What that leaves behind the next worker removes."""
        killer, killed = pathlib.Path("killer").absolute(), pathlib.Path("killer.killed")
        killer.write_text(KILLER.format(program=PROGRAM))
        killer.chmod(0o755)
        self.client.run(name_program, str(killer))
        made = self.client.compute(frame).result(LIMIT)
        into = (killed / "into").read_text().strip()
        self.assertTrue(into.startswith(f"{os.getcwd()}/workers/"), into)
        self.assertTrue(os.path.exists(into))
        self.stack.enter_context(running(*self.worker))
        self.client.wait_for_workers(2, timeout=LIMIT)
        self.assertFalse(os.path.exists(into))
        self.client.run(name_program, PROGRAM)
        return made

    def refuses(self, frame: dask.dataframe.DataFrame, status: int, text: str) -> None:
        """All is asked of the workers."""
        with self.assertRaises(csvload.Refused) as caught:
            self.client.compute(frame).result(LIMIT)
        self.assertEqual((caught.exception.status, str(caught.exception).splitlines()[0]), (status, text))

    def has_rows(self, frame: pandas.DataFrame, report: Report) -> None:
        """Each cell is the one of the report, and of its very type."""
        self.assertEqual(list(frame), [name for name, _ in report.columns])
        got = list(zip(*([own(cell) for cell in frame[name]] for name in frame)))
        kinds = [CASTS.get(kind, lambda cell: cell) for _, kind in report.columns]
        wanted = [tuple(None if cell is None else cast(cell) for cast, cell in zip(kinds, row)) for row in report.rows]
        self.assertEqual(got, wanted)
        self.assertEqual(*([[type(cell) for cell in row] for row in rows] for rows in (got, wanted)))


def report(*words: str, **options: csvload.Option) -> Report:
    """What the program says, with the rejects."""
    call = [PROGRAM, *words, *csvload.running.words_of({**options, "store_rejects": True})]
    return Report(subprocess.run(call, check=True, capture_output=True, timeout=LIMIT).stdout)


def batch(*files: str, **options: csvload.Option) -> Report:
    """What its batch says of files."""
    return report("batch", ",".join(files), **options)


class Read(Trial):
    def test_every_cell_and_every_reject_is_that_of_batch(self) -> None:
        wanted = batch(*FILES, **OPTIONS)
        self.assertEqual((len(wanted.rows), len(wanted.rejects["error"])), (3 * len(hard_rows.ROWS) + 1, 5))
        lazy = csvload.dask.read("hard *.csv", ignore_errors=True, **OPTIONS)
        frame = self.client.compute(lazy).result(LIMIT)
        self.assertEqual((lazy.npartitions, dict(lazy.dtypes)), (len(FILES), dict(frame.dtypes)))
        self.has_rows(frame, wanted)
        counts = self.client.compute(lazy.map_partitions(len)).result(LIMIT)
        self.assertEqual(list(counts), [18, 19, 0, 18])
        faults = csvload.dask.rejects("hard *.csv", **OPTIONS)
        self.assertEqual(*({name: str(kind) for name, kind in each.items()} for each in (faults.dtypes, csvload.dask.REJECTS)))
        rejects = self.client.compute(faults).result(LIMIT)
        self.assertEqual(list(rejects.itertuples(index=False, name=None)), wanted.rejects["error"])

    def test_a_killed_worker_changes_nothing(self) -> None:
        frame = self.kill_one(csvload.dask.read("hard *.csv", ignore_errors=True, threads=2, **OPTIONS))
        self.has_rows(frame, batch(*FILES, **OPTIONS))

    def test_a_file_that_was_changed_is_read_anew(self) -> None:
        file = self.write("changed.csv", b"n\n1\n")
        before = csvload.dask.read(file).persist()
        distributed.wait(before)
        self.write(file, b"n\n12\n")
        sums = [self.client.compute(frame.n.sum()).result(LIMIT) for frame in (before, csvload.dask.read(file), before)]
        self.assertEqual(sums, [1, 12, 1])

    def test_all_is_found_in_the_first_file(self) -> None:
        first, later = self.write("typed.csv", b"zip;n\n00501;1\n"), self.write("texts.csv", b"zip;n\n00502;x\n00503;2\n")
        with dask.config.set(scheduler="sync"):
            self.has_rows(csvload.dask.read([first, later], ignore_errors=True).compute(), batch(first, later))
            self.has_rows(csvload.dask.read([later, first]).compute(), batch(later, first))

    def test_each_form_of_a_header_is_known_again(self) -> None:
        for place, (data, options) in enumerate(HEADERS):
            first, later = self.write(f"first{place}.csv", data), self.write(f"later{place}.csv", data)
            # Under same_header a later file is told that has more names than there are columns, as the first one does.
            same_header = data != b"a,b,c\n1,2\n"
            with self.subTest(data, **options), dask.config.set(scheduler="sync"):
                lazy = csvload.dask.read([first, later], same_header, **options)
                one = csvload.frame(first, **options)
                pandas.testing.assert_frame_equal(lazy.compute(), pandas.concat([one, one]))
                self.assertEqual(dict(lazy.dtypes), dict(one.dtypes))


class Parts(Trial):
    """One file, each part of which is a partition."""

    def large(self) -> Report:
        """The file, and what the program says of the whole."""
        return report("load", self.write("large.csv", LARGE), comment="#", **OPTIONS)

    def test_every_cell_and_every_reject_is_that_of_the_whole(self) -> None:
        wanted = self.large()
        self.assertEqual((len(wanted.rows), len(wanted.rejects["error"])), (8 * len(hard_rows.ROWS) + 4, 16))
        lazy = csvload.dask.read("large.csv", ignore_errors=True, **PARTS)
        frame = self.client.compute(lazy).result(LIMIT)
        self.assertEqual(dict(lazy.dtypes), dict(frame.dtypes))
        self.assertGreater(lazy.npartitions, 8)
        self.has_rows(frame, wanted)
        rejects = self.client.compute(csvload.dask.rejects("large.csv", **PARTS)).result(LIMIT)
        self.assertEqual(list(rejects.itertuples(index=False, name=None)), wanted.rejects["error"])

    def test_a_killed_worker_changes_nothing(self) -> None:
        wanted = self.large()
        self.has_rows(self.kill_one(csvload.dask.read("large.csv", ignore_errors=True, **PARTS)), wanted)

    def test_a_late_fault_has_its_true_line(self) -> None:
        self.write("late.csv", HEADER + b"\n" + (COMMENT + FIRST_ROWS) * 6 + FAULTS)
        line = report("load", "late.csv", comment="#", **OPTIONS).rejects["error"][0][2]
        text = f"csvload: {os.getcwd()}/late.csv:{line}: column 1 'number': Could not convert string \"x\" to 'BIGINT'"
        self.refuses(csvload.dask.read("late.csv", **PARTS), 3, text)

    def test_an_absent_program_is_told_with_its_machine(self) -> None:
        self.large()
        (one, _) = self.client.scheduler_info()["workers"]
        frame = csvload.dask.read("large.csv", ignore_errors=True, **PARTS)
        self.client.run(name_program, "/nowhere/csvload", workers=[one])
        with self.assertRaisesRegex(FileNotFoundError, f"no such program on {os.uname().nodename}, .*'/nowhere/csvload'"):
            self.client.compute(frame).result(LIMIT)
        self.client.run(name_program, PROGRAM)

    def test_a_file_that_one_worker_lacks_is_told_with_the_machine(self) -> None:
        self.large()
        (one, _) = self.client.scheduler_info()["workers"]
        name = "/proc/self/cwd/large.csv"
        frame = csvload.dask.read(name, ignore_errors=True, **PARTS)
        self.client.run(os.chdir, "/", workers=[one])
        self.refuses(frame, 2, f"csvload: '{name}' isn't there on {os.uname().nodename}")
        self.client.run(os.chdir, os.getcwd(), workers=[one])

    def test_a_file_that_was_changed_is_told(self) -> None:
        file = self.write("grown.csv", b"n\n1\n2\n3\n")
        frame = csvload.dask.read(file, blocksize=2)
        self.write(file, b"n\n1\n2\n3\n4\n")
        with self.assertRaisesRegex(OSError, "it was changed since it was cut into parts: '.*grown.csv'"):
            self.client.compute(frame).result(LIMIT)

    def test_sizes_are_written_as_in_dask(self) -> None:
        file = self.write("sizes.csv", b"n\n" + b"1\n" * 3000)
        counts = {size: csvload.dask.read(file, blocksize=size).npartitions for size in ("default", None, "1 kB", "1KiB", 3000)}
        self.assertEqual(counts, {"default": 1, None: 1, "1 kB": 7, "1KiB": 6, 3000: 3})
        for size, error in (0, csvload.Refused), ("some", ValueError):
            with self.subTest(size), self.assertRaises(error):
                csvload.dask.read(file, blocksize=size)

    def test_words_that_are_given_are_those_of_each_part(self) -> None:
        file = self.write("words.csv", b"a title\n'k';'day'\n'1\n';NA\n\n'x';2024-02-29\n")
        given = {"skip": 1, "quote": "'", "nulls": ["", "NA"], "column_types": {"k": "VARCHAR"}}
        with dask.config.set(scheduler="sync"):
            self.has_rows(csvload.dask.read(file, blocksize=1, **given).compute(), report("load", file, **given))


class Refusals(Trial):
    def test_the_first_fault_has_its_true_line(self) -> None:
        name = f"{os.getcwd()}/hard 2.csv"
        line = f"csvload: {name}:2: column 1 'number': Could not convert string \"x\" to 'BIGINT'"
        self.refuses(csvload.dask.read(["hard 1.csv", "hard 2.csv", "hard 10.csv"], **OPTIONS), 3, line)

    def test_another_header_is_told(self) -> None:
        self.write("first.csv", b"id,v\n1,a\n")
        whole = os.path.abspath
        for name, data in {"other.csv": b"v,id\na,1\n", "more.csv": b"id,v,w\n1,a,b\n", "empty.csv": b""}.items():
            line = f"csvload: '{whole(name)}' hasn't the header of '{whole('first.csv')}', whose columns are id, v"
            files = ["first.csv", self.write(name, data)]
            with self.subTest(name):
                self.refuses(csvload.dask.read(files), 4, line)
                self.refuses(csvload.dask.rejects(files), 4, line)
                with dask.config.set(scheduler="sync"):
                    frame = csvload.dask.read(files, same_header=False, ignore_errors=True).compute()
                    self.has_rows(frame, batch(*files))
                    rejects = csvload.dask.rejects(files, same_header=False).compute()
                    self.assertEqual(list(rejects.itertuples(index=False, name=None)), batch(*files).rejects["error"])

    def test_an_empty_first_file_has_one_column(self) -> None:
        files = [self.write("none.csv", b""), self.write("some.csv", b"a\nb\n")]
        with dask.config.set(scheduler="sync"):
            self.has_rows(csvload.dask.read(files).compute(), batch(*files))
            self.assertEqual(len(csvload.dask.read(files[0]).compute()), 0)

    def test_an_absent_program_is_told_with_its_machine(self) -> None:
        (one, _) = self.client.scheduler_info()["workers"]
        self.client.run(name_program, "/nowhere/csvload", workers=[one])
        frame = csvload.dask.read(["hard 1.csv"] * 8, **OPTIONS)
        with self.assertRaisesRegex(FileNotFoundError, f"no such program on {os.uname().nodename}, .*'/nowhere/csvload'"):
            self.client.compute(frame).result(LIMIT)
        self.client.run(name_program, PROGRAM)

    def test_an_absent_file_is_told_with_the_machine(self) -> None:
        frame = csvload.dask.read([self.write("a.csv", b"n\n1\n"), self.write("gone.csv", b"n\n2\n")])
        os.unlink("gone.csv")
        self.refuses(frame, 2, f"csvload: '{os.path.abspath('gone.csv')}' isn't there on {os.uname().nodename}")

    def test_what_can_be_told_at_once_is(self) -> None:
        for files, options, status in ("absent*.csv", {}, 2), ("hard 1.csv", {"nonsense": 1}, 1), ("hard 1.csv", {"column_types": {"no": "DATE"}}, 4):
            with self.subTest(files, **options), self.assertRaises(csvload.Refused) as caught:
                csvload.dask.read(files, **options)
            self.assertEqual(caught.exception.status, status)
        wrong = ([], {}, ValueError), (["a,b.csv"], {}, ValueError), ("hard 1.csv", {"to": "csv"}, TypeError)
        for files, options, error in (*wrong, (["hard 1.csv", "absent.csv"], {}, FileNotFoundError)):
            with self.subTest(files, **options), self.assertRaises(error):
                csvload.dask.read(files, **options)

    def test_without_dask_the_others_work(self) -> None:
        ask = "import sys; sys.modules['dask'] = None; import csvload; print(len(csvload.read('hard 1.csv').types)); import csvload.dask"
        environment = dict(os.environ, PYTHONPATH=str(TOP / "python"), PYTHONDONTWRITEBYTECODE="1")
        done = subprocess.run([sys.executable, "-c", ask], env=environment, capture_output=True, text=True, timeout=LIMIT)
        self.assertEqual((done.returncode, done.stdout), (1, "6\n"))
        self.assertIn("ImportError: csvload.dask takes Dask: pip install", done.stderr)


def load_tests(_: unittest.TestLoader, tests: unittest.TestSuite, __: object) -> unittest.TestSuite:
    """The tests above, and what the module and examples/README.md show."""
    tests.addTests(shown.tests_of([csvload.dask]))
    return tests


def main() -> None:
    result = unittest.TestResult()
    unittest.defaultTestLoader.loadTestsFromModule(sys.modules[__name__]).run(result)
    for _, text in result.errors + result.failures:
        print(text)
    if not result.wasSuccessful():
        sys.exit(1)
    workers = f"Dask {dask.__version__} and two workers, one killed in mid-task"
    print(f"{sys.argv[0]}: {result.testsRun} tests of many files, and one in parts, by {workers}")


if __name__ == "__main__":
    main()
