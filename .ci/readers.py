#!/usr/bin/env python3
"""Reads files by the Python package in python/ and by examples/csvload.R: each cell with its type, the rejects, the refusals, and
what the documents show. CSVLOAD names the program. Where pandas or R isn't there that is said, and nothing of it is tried.
"""

import importlib.util
import os
import pathlib
import pickle
import shutil
import subprocess
import sys
import tempfile
import unittest
from collections.abc import Callable
from datetime import date, datetime, time

sys.dont_write_bytecode = True

import hard_rows  # noqa: E402 (before it nothing may be written there)
import shown  # noqa: E402

TOP = pathlib.Path(__file__).resolve().parent.parent
sys.path.insert(0, str(TOP / "python"))

import csvload  # noqa: E402 (it stands there)
import csvload.frames  # noqa: E402
import csvload.reading  # noqa: E402
import csvload.running  # noqa: E402

HAS_PANDAS = importlib.util.find_spec("pandas") is not None
MODULES = [csvload, csvload.running, csvload.reading] + [csvload.frames] * HAS_PANDAS
CASTS: list[Callable[[str], csvload.Cell]] = [int, bool, date.fromisoformat, time.fromisoformat, datetime.fromisoformat, str]
HARD: dict[str, list[csvload.Cell]] = {
    name: [None if cell is None else cast(cell) for cell in cells]
    for name, cast, cells in zip(hard_rows.NAMES, CASTS, zip(*hard_rows.ROWS))
}
HARD_OPTIONS = {
    "delim": ",",
    "quote": '"',
    "escape": '"',
    "header": True,
    "allow_quoted_nulls": False,
    "types": hard_rows.TYPES,
    "max_errors": 5,
    "ignore_errors": True,
}
# Numbers and days of which pandas' floats and timestamps would lose some.
LOST = b"""number,day,at,clock,ok
9007199254740993,1066-10-14,9999-12-31T23:59:59.999999,10:00:00.5,TRUE
,,,,
-9223372036854775808,0001-01-01,0001-01-01,00:00:00,false
"""
LOST_CELLS: dict[str, list[csvload.Cell]] = {
    "number": [9007199254740993, None, -9223372036854775808],
    "day": [date(1066, 10, 14), None, date(1, 1, 1)],
    "at": [datetime(9999, 12, 31, 23, 59, 59, 999999), None, datetime(1, 1, 1)],
    "clock": [time(10, 0, 0, 500000), None, time(0)],
    "ok": [True, None, False],
}


class Folder(unittest.TestCase):
    """A folder to work in, with a file of hard rows."""

    def setUp(self) -> None:
        made = tempfile.TemporaryDirectory()
        self.addCleanup(made.cleanup)
        self.addCleanup(os.chdir, os.getcwd())
        os.chdir(made.name)
        self.hard = self.write("hard rows.csv", hard_rows.as_csv())

    def write(self, name: str, data: bytes) -> str:
        pathlib.Path(name).write_bytes(data)
        return name

    def has_cells(self, columns: dict[str, list[csvload.Cell]], wanted: dict[str, list[csvload.Cell]]) -> None:
        """Each cell is the one that is wanted, and of its very type."""
        self.assertEqual(columns, wanted)
        kinds = [[[type(cell) for cell in cells] for cells in each.values()] for each in (columns, wanted)]
        self.assertEqual(*kinds)


class Read(Folder):
    def test_hard_rows_come_as_they_are(self) -> None:
        table = csvload.read(self.hard, **HARD_OPTIONS)
        self.has_cells(table.columns, HARD)
        self.assertEqual(table.types, dict(zip(hard_rows.NAMES, hard_rows.TYPES)))
        self.assertEqual(table.rejects, [])

    def test_great_numbers_and_far_days_are_kept(self) -> None:
        self.has_cells(csvload.read(self.write("lost.csv", LOST)).columns, LOST_CELLS)

    def test_a_text_has_its_nul(self) -> None:
        table = csvload.read(self.write("nul.csv", b'a,b\n"x\0y",1\n'), header=True)
        self.assertEqual(table.columns, {"a": ["x\0y"], "b": [1]})

    def test_columns_named_for_rowids_change_no_order(self) -> None:
        table = csvload.read(self.write("hidden.csv", b"rowid,oid,_rowid_\n3,1,2\n1,3,1\n2,2,3\n"))
        self.assertEqual(table.columns, {"rowid": [3, 1, 2], "oid": [1, 3, 2], "_rowid_": [2, 1, 3]})

    def test_a_header_alone_has_columns_without_cells(self) -> None:
        self.assertEqual(csvload.read(self.write("head.csv", b"a,b\n")).columns, {"a": [], "b": []})

    def test_names_that_differ_in_case_get_a_suffix(self) -> None:
        self.assertEqual(csvload.read(self.write("case.csv", b"a,A\n1,2\n")).columns, {"a": [1], "A_1": [2]})

    def test_any_name_is_a_column(self) -> None:
        names = ["a%2Fb", "a/b", "a\\b", ":null", "x", "x:ends", "reject_errors/line", "a\0", "a\nb", "\x7f", "straße", "a.npy", "a"]
        header, row = ",".join(f'"{name}"' for name in names), ",".join(map(str, range(len(names))))
        table = csvload.read(self.write("names.csv", f"{header}\n{row}\n".encode()), header=True, store_rejects=True)
        self.assertEqual(table.columns, {name: [place] for place, name in enumerate(names)})
        self.assertEqual((list(table.types), table.rejects), (names, []))

    def test_there_may_be_any_number_of_columns(self) -> None:
        file = self.write("wide.csv", "".join(",".join(f"{name}{n}" for n in range(3_000)) + "\n" for name in "c1").encode())
        self.assertEqual(csvload.read(file).columns, {f"c{n}": [int(f"1{n}")] for n in range(3_000)})

    def test_rejects_have_their_bytes(self) -> None:
        file = self.write("bad.csv", b"a,n\nb\xff,1\nx,q\ngood,3\n")
        table = csvload.read(file, types=["VARCHAR", "BIGINT"], store_rejects=True)
        self.assertEqual(table.columns, {"a": ["good"], "n": [3]})
        lines = [(reject["line"], reject["error_type"], reject["csv_line"]) for reject in table.rejects]
        self.assertEqual(lines, [(2, "INVALID UNICODE", b"b\xff,1"), (3, "CAST", "x,q")])

    def test_a_name_like_an_option_is_a_file(self) -> None:
        self.assertEqual(csvload.read(self.write("--help", b"a\n1\n")).columns, {"a": [1]})
        self.assertEqual(csvload.read(pathlib.Path("--help")).columns, {"a": [1]})


class Refusals(Folder):
    def test_a_fault_ends_it_with_what_a_person_is_told(self) -> None:
        file = self.write("bad.csv", b"a,n\nx,q\n")
        with self.assertRaises(csvload.Refused) as caught:
            csvload.read(file, types=["VARCHAR", "BIGINT"])
        self.assertEqual(caught.exception.status, 3)
        self.assertIn("bad.csv:2: column 2 'n': Could not convert string \"q\" to 'BIGINT'", str(caught.exception))
        again = pickle.loads(pickle.dumps(caught.exception))
        self.assertEqual((again.status, str(again)), (3, str(caught.exception)))

    def test_the_program_judges_the_words(self) -> None:
        for options in ({"nonsense": 1}, {"header": "yes"}, {"types": []}):
            with self.subTest(options), self.assertRaises(csvload.Refused) as caught:
                csvload.read(self.hard, **options)
            self.assertEqual(caught.exception.status, 1)

    def test_what_the_program_would_take_otherwise_is_no_word(self) -> None:
        cases = [({"to": "csv"}, TypeError), ({"table": "t"}, TypeError), ({"quote": None}, TypeError), ({"names": b"a"}, TypeError)]
        for options, error in [*cases, ({"nulls": ["a,b"]}, ValueError), ({"column_types": {"a,b": "BIGINT"}}, ValueError)]:
            with self.subTest(options), self.assertRaises(error):
                csvload.read(self.hard, **options)


@unittest.skipUnless(HAS_PANDAS, "no pandas")
class Frame(Folder):
    def cells(self, frame: object) -> dict[str, list[csvload.Cell]]:
        """The cells as Python's own values: those of numpy have an `item`."""
        import pandas

        assert isinstance(frame, pandas.DataFrame)
        own = lambda cell: None if cell is pandas.NA else cell.item() if hasattr(cell, "item") else cell
        return {str(name): [own(cell) for cell in frame[name]] for name in frame}

    def test_hard_rows_come_as_they_are(self) -> None:
        frame = csvload.frame(self.hard, **HARD_OPTIONS)
        self.has_cells(self.cells(frame), HARD)
        self.assertEqual([str(kind) for kind in frame.dtypes], ["Int64", "boolean", "object", "object", "object", "string"])

    def test_great_numbers_and_far_days_are_kept(self) -> None:
        self.has_cells(self.cells(csvload.frame(self.write("lost.csv", LOST))), LOST_CELLS)

    def test_texts_of_all_kinds_stand_beside_nulls(self) -> None:
        texts = ["plain", "äöü", "", None, "a\0b", "東京", "\U0001d11e", None, "x" * 300]
        for chosen in (texts, [text for text in texts if text is None or text.isascii()]):
            data = "".join("NULL\n" if text is None else f'"{text}"\n' for text in ["t", *chosen]).encode()
            frame = csvload.frame(self.write("texts.csv", data), header=True, nullstr="NULL", delim=",")
            self.has_cells(self.cells(frame), {"t": chosen})

    def test_a_frame_can_be_changed(self) -> None:
        frame = csvload.frame(self.write("two.csv", b"n,ok\n1,true\n,\n3,false\n"))
        frame.loc[0, "n"], frame.loc[1, "n"], frame.loc[2, "ok"] = 5, 6, None
        self.has_cells(self.cells(frame), {"n": [5, 6, 3], "ok": [True, None, None]})

    def test_a_header_alone_has_the_types_of_its_columns(self) -> None:
        frame = csvload.frame(self.write("head.csv", hard_rows.as_csv().partition(b"\n")[0] + b"\n"), **HARD_OPTIONS)
        self.assertEqual([str(kind) for kind in frame.dtypes], ["Int64", "boolean", "object", "object", "object", "string"])
        self.assertEqual(len(frame), 0)

    def test_rejects_go_with_it(self) -> None:
        frame = csvload.frame(self.write("bad.csv", b"a,n\nx,q\n"), types=["VARCHAR", "BIGINT"], store_rejects=True)
        self.assertEqual((len(frame), [reject["line"] for reject in frame.attrs["rejects"]]), (0, [2]))


# Each cell on a line of its own, in hexadecimal; NA as it is, and a day as its number, since R shows years below 1000 shorter.
R_SCRIPT = """source("{top}/examples/csvload.R")
read <- function() csvload("hard rows.csv", delim = ",", quote = "\\"", escape = "\\"", header = TRUE, allow_quoted_nulls = FALSE,
    types = c("BIGINT", "BOOLEAN", "DATE", "TIME", "TIMESTAMP", "VARCHAR"), max_errors = 100000, ignore_errors = TRUE)
table <- read()
cat(vapply(table, function(column) class(column)[1], ""), "\\n")
cat(inherits(try(csvload("hard rows.csv", output = "rows"), silent = TRUE), "try-error"), file.exists("rows"), as.character(csvload("--help")$a), "\\n")
table$day <- as.integer(table$day)
for (column in table) for (cell in as.character(column))
    cat(if (is.na(cell)) "NA" else paste(c("=", charToRaw(cell)), collapse = ""), "\\n", sep = "")
"""


def has_r() -> bool:
    ask = ["Rscript", "-e", "q(status = !all(vapply(c('DBI', 'RSQLite', 'bit64'), requireNamespace, TRUE, quietly = TRUE)))"]
    return shutil.which("Rscript") is not None and subprocess.run(ask, capture_output=True, timeout=60).returncode == 0


@unittest.skipUnless(has_r(), "no R with RSQLite and bit64")
class R(Folder):
    def test_hard_rows_lose_the_least_number_alone(self) -> None:
        pathlib.Path("script.R").write_text(R_SCRIPT.format(top=TOP))
        self.write("--help", b"a\n1\n")
        said = subprocess.run(["Rscript", "--vanilla", "script.R"], check=True, capture_output=True, timeout=60).stdout.decode()
        kinds, calls, *lines = said.splitlines()
        self.assertEqual(kinds.split(), ["integer64", "logical", "Date", "character", "character", "character"])
        self.assertEqual(calls.split(), ["TRUE", "FALSE", "1"])
        columns = {name: [*cells] for name, cells in zip(hard_rows.NAMES, zip(*hard_rows.ROWS))}
        columns["day"] = [cell and date.fromisoformat(cell).toordinal() - date(1970, 1, 1).toordinal() for cell in columns["day"]]
        columns["Is it?"] = [cell if cell is None else str(cell).upper() for cell in columns["Is it?"]]
        lost = (None, -9223372036854775808)
        cells = [cell for column in columns.values() for cell in column]
        self.assertEqual(lines, ["NA" if cell in lost else "=" + str(cell).encode().hex() for cell in cells])


def load_tests(loader: unittest.TestLoader, tests: unittest.TestSuite, _: object) -> unittest.TestSuite:
    """The tests above, and what the modules and examples/README.md show."""
    # A frame is made where pandas is, and with it numpy; what Dask takes is tried by cluster.py.
    tests.addTests(shown.tests_of(MODULES, ["dask"] if HAS_PANDAS else ["dask", "frame(", "numpy", "arrays["]))
    return tests


def main() -> None:
    result = unittest.TestResult()
    unittest.defaultTestLoader.loadTestsFromModule(sys.modules[__name__]).run(result)
    for _, text in result.errors + result.failures:
        print(text)
    for lack in sorted({reason for _, reason in result.skipped}):
        print(f"{sys.argv[0]}: passed over, {lack}")
    if not result.wasSuccessful():
        sys.exit(1)
    print(f"{sys.argv[0]}: {result.testsRun - len(result.skipped)} tests of the readers")


if __name__ == "__main__":
    main()
