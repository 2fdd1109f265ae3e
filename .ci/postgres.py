#!/usr/bin/env python3
"""Fills tables of a PostgreSQL server by examples/postgres.sh, and reads them back.

CSVLOAD names the program. The server is made here, in a folder of its own with a socket there, and taken away again; root lets
another user run it. Where no server is installed that is said and nothing is tried.
"""

import glob
import json
import os
import pathlib
import pwd
import shlex
import shutil
import signal
import subprocess
import sys
import tempfile
import time

import hard_rows

EXAMPLES = pathlib.Path(__file__).parent.parent / "examples"
NEEDED = ("bash", "awk", "psql")
KINDS = ["bigint", "boolean", "date", "time without time zone", "timestamp without time zone", "text"]
LIMIT = 60

OPTIONS = ["comment=#", "types=VARCHAR,BIGINT,DATE"]
SCORES = [["Ana", 31, "2024-05-30"], ["Lee, Kim", 12, "2024-06-01"]]
ERROR = [0, 4, 64, 67, 2, "score", "CAST", "Bo,three,2024-05-31"]
ERRORS = """SELECT scan_id, line, line_byte_position, byte_position, column_idx, column_name, error_type, csv_line
    FROM reject_errors ORDER BY scan_id, line"""

# The table `there` is there. A file, options, the table, the status, and a part of what is said.
MISTAKES = [
    (b"a\n1\n", [], "there", 3, 'relation "there" already exists'),
    (b"a\n1\n", [], "absent.new", 3, 'schema "absent" does not exist'),
    (b"a\n1\n", [], "reject_errors", 3, 'relation "reject_errors" already exists'),
    (b"a\n1\n", [], "new; DROP TABLE there", 1, "is no name of a table"),
    (b"a\n1\n", [], 'a."b', 1, "is no name of a table"),
    (b'a,b\n"x\0y",1\n', ["types=VARCHAR,BIGINT"], "new", 3, "invalid byte sequence"),
    (b"%s\n" % b",".join(b"c%d" % number for number in range(1601)), ["header=true"], "new", 3, "at most 1600 columns"),
    (b"a\n1\n", ["header=yes"], "new", 1, "header takes true or false"),
    (b"a\n1\n", ["output=rows"], "new", 1, "'output=rows' is no option here"),
    (b"1,2\n3,4\n5,6\n", ["max_input=9"], "new", 7, "more than 9 bytes"),
    (None, [], "new", 2, "file.csv"),
]


def same(got: object, wanted: object) -> None:
    assert got == wanted, f"{got!r}, not {wanted!r}"


class Server:
    """A server of its own, and the folder that it lies in."""

    def __init__(self, programs: pathlib.Path, folder: pathlib.Path) -> None:
        self.folder = folder
        how = {"cwd": folder, "stdout": subprocess.DEVNULL, "stderr": subprocess.DEVNULL}
        if os.geteuid() == 0:
            owner = another_user()
            os.chown(folder, owner.pw_uid, owner.pw_gid)
            how |= {"user": owner.pw_uid, "group": owner.pw_gid, "extra_groups": []}
        data = folder / "data"
        made = [programs / "initdb", "-D", data, "-U", "tester", "-A", "trust", "-E", "UTF8", "--locale=C", "--no-sync"]
        subprocess.run(made, check=True, **how)
        words = ["-D", data, "-k", folder, "-c", "listen_addresses=", "-c", "fsync=off"]
        self.process = subprocess.Popen([programs / "postgres", *words], **how)
        # What a user may have set changes nothing.
        database = {"PGHOST": str(folder), "PGUSER": "tester", "PGDATABASE": "postgres", "PGCLIENTENCODING": "LATIN1"}
        self.environment = {name: value for name, value in os.environ.items() if not name.startswith("PG")} | database

    def wait(self) -> None:
        end = time.monotonic() + LIMIT
        while self.psql("SELECT 1").returncode:
            assert self.process.poll() is None and time.monotonic() < end, "the server doesn't start"
            time.sleep(0.2)

    def stop(self) -> None:
        self.process.send_signal(signal.SIGINT)
        self.process.wait(LIMIT)

    def psql(self, line: str) -> subprocess.CompletedProcess:
        how = {"env": self.environment | {"PGCLIENTENCODING": "UTF8"}, "stdin": subprocess.DEVNULL, "capture_output": True}
        return subprocess.run(["psql", "-X", "-A", "-t", "-q", "-c", line], timeout=LIMIT, **how)

    def ask(self, question: str) -> list[list]:
        """The rows of an answer, each as its values."""
        done = self.psql(f"SELECT row_to_json(answer) FROM ({question}) AS answer")
        assert done.returncode == 0, done.stderr.decode()
        return [[*json.loads(line).values()] for line in done.stdout.decode().splitlines()]

    def load(self, file: str | pathlib.Path, table: str, options: list[str], text: bytes = b"") -> tuple[int, str]:
        """The status of a load, and what is said."""
        command = [EXAMPLES / "postgres.sh", file, table, *options]
        done = subprocess.run(command, cwd=self.folder, env=self.environment, input=text, capture_output=True, timeout=LIMIT)
        same(done.stdout, b"")
        return done.returncode, done.stderr.decode()

    def load_text(self, name: str, text: bytes, table: str, options: list[str]) -> None:
        (self.folder / name).write_bytes(text)
        same(self.load(name, table, options), (0, ""))


def another_user() -> pwd.struct_passwd:
    """A user that may run a server, which root may not."""
    names = {user.pw_name: user for user in pwd.getpwall()}
    return names.get("postgres") or names["nobody"]


def programs_of_server() -> pathlib.Path | None:
    """Where a server's programs lie; Debian has them beside PATH."""
    found = [shutil.which("initdb"), *glob.glob("/usr/lib/postgresql/*/bin/initdb")]
    folders = [pathlib.Path(initdb).resolve().parent for initdb in found if initdb]
    return next((folder for folder in folders if (folder / "postgres").is_file()), None)


def check_hard_rows(server: Server) -> None:
    server.psql("CREATE SCHEMA sales")
    server.load_text("hard rows.csv", hard_rows.as_csv(), 'sales."Hard rows"', hard_rows.OPTIONS)
    wanted = [[*row[:4], row[4].replace(" ", "T"), row[5]] for row in hard_rows.ROWS]
    same(server.ask('SELECT * FROM sales."Hard rows"'), wanted)
    columns = "SELECT column_name, data_type FROM information_schema.columns WHERE table_name = 'Hard rows'"
    same(server.ask(f"{columns} ORDER BY ordinal_position"), [[name, kind] for name, kind in zip(hard_rows.NAMES, KINDS)])


def check_copy(server: Server) -> None:
    """The rows of a report are COPY's text: a table that is filled by them alone has the rows of the one above."""
    same(server.psql('CREATE TABLE copied AS SELECT * FROM sales."Hard rows" LIMIT 0').returncode, 0)
    options = " ".join(map(shlex.quote, hard_rows.OPTIONS))
    line = f"""set -o pipefail; "$CSVLOAD" load 'hard rows.csv' {options} | sed -n 's/^row|//p' |
        psql -X -q -v ON_ERROR_STOP=1 -c "COPY copied FROM STDIN (DELIMITER '|')" """
    environment = server.environment | {"PGCLIENTENCODING": "UTF8"}
    done = subprocess.run(["bash", "-c", line], cwd=server.folder, env=environment, capture_output=True, timeout=LIMIT)
    same((done.returncode, done.stdout, done.stderr), (0, b"", b""))
    same(server.ask("SELECT count(*) FROM copied"), [[len(hard_rows.ROWS)]])
    for one, other in (("copied", 'sales."Hard rows"'), ('sales."Hard rows"', "copied")):
        same(server.ask(f"SELECT * FROM {one} EXCEPT ALL SELECT * FROM {other}"), [])


def check_long_names(server: Server) -> None:
    """Names that agree in the 63 bytes that PostgreSQL keeps get a suffix, also where a name before them has it already."""
    header = ["x" * 63 + "a", "x" * 61 + "_1", "x" * 63 + "b", "x" * 63, "é" * 40 + "a", "é" * 40 + "b"]
    kept = ["x" * 63, "x" * 61 + "_1", "x" * 61 + "_2", "x" * 61 + "_3", "é" * 31, "é" * 30 + "_1"]
    (server.folder / "long.csv").write_text(",".join(header) + "\n1,2,3,4,5,6\n")
    status, said = server.load("long.csv", "long_names", [])
    told = [line for line in said.splitlines() if line.startswith("postgres.sh")]
    suffixes = [(3, 2), (4, 3), (6, 1)]
    same(told, [f"postgres.sh: column {place} gets the suffix _{number}: an earlier name has the same first bytes" for place, number in suffixes])
    same((status, said.count("NOTICE")), (0, 2))
    columns = "SELECT column_name FROM information_schema.columns WHERE table_name = 'long_names' ORDER BY ordinal_position"
    same(server.ask(columns), [[name] for name in kept])
    same(server.ask("SELECT * FROM long_names"), [[1, 2, 3, 4, 5, 6]])


def check_rejects(server: Server) -> None:
    """Rejects stand in their tables, each load's under the next number, after the hard rows' 0."""
    file = EXAMPLES / "scores.csv"
    same(server.load(file, "scores", OPTIONS), (0, f"csvload: {file}: 1 fault was passed over\n"))
    same(server.ask("SELECT * FROM scores"), SCORES)
    same(server.ask(ERRORS), [[1, *ERROR[1:]]])
    long = "é" * 3_000
    text = 'id,note\n1,a\n2,"ä'.encode() + b'\xfc|\\"\nx,' + f"{long}\n".encode()
    same(server.load("-", "broken", ["types=BIGINT,VARCHAR"], text), (0, "csvload: -: 2 faults were passed over\n"))
    same(server.ask("SELECT * FROM broken"), [[1, "a"]])
    broken = [2, 3, 13, 18, 2, "note", "INVALID UNICODE", '2,"ä\\xfc|\\"']
    cut = [2, 4, 23, 23, 1, "id", "CAST", f"x,{long[:2047]}"]
    same(server.ask(f"{ERRORS} OFFSET 1"), [broken, cut])
    scans = "SELECT scan_id, file_path, delimiter, has_header, columns FROM reject_scans ORDER BY scan_id OFFSET 1"
    same(server.ask(scans), [[1, str(file), ",", True, 3], [2, "-", ",", True, 2]])


def check_others(server: Server) -> None:
    """Standard input, which is read once, the empty file, and many columns."""
    rows = [[number, f"row {number}"] for number in range(5_000)]
    text = "id,note\n" + "".join(f"{number},{note}\n" for number, note in rows)
    same(server.load("-", "piped", [], text.encode()), (0, ""))
    same(server.ask("SELECT * FROM piped ORDER BY id"), rows)
    server.load_text("empty.csv", b"", "leere_bücher", [])
    same(server.ask("SELECT count(*), min(column0) FROM leere_bücher"), [[0, None]])
    server.load_text("wide.csv", b"%s\n" % b",".join(b"%d" % number for number in range(300)), "wide", ["header=false"])
    same(server.ask("SELECT * FROM wide"), [[*range(300)]])


def check_mistakes(server: Server) -> None:
    """Each has its status and leaves nothing."""
    server.load_text("there.csv", b"b\n2\n", "there", [])
    everything = """SELECT relname::text, (SELECT count(*) FROM reject_scans), (SELECT count(*) FROM reject_errors),
        (SELECT b FROM there) FROM pg_class WHERE relkind IN ('r', 'S') AND relnamespace = 'public'::regnamespace ORDER BY 1"""
    before = server.ask(everything)
    for text, options, table, status, part in MISTAKES:
        file = server.folder / "file.csv"
        file.unlink(missing_ok=True)
        if text is not None:
            file.write_bytes(text)
        got, said = server.load("file.csv", table, options)
        assert got == status and part in said, f"{table} {options}: status {got}, {said!r}, not {status}, {part!r}"
        same(server.ask(everything), before)
    hard_rows.write_broken_loader(server.folder / "broken")
    server.environment["CSVLOAD"] = str(server.folder / "broken")
    same(server.load("file.csv", "new", []), (6, ""))
    same(server.ask(everything), before)


def main() -> None:
    programs = programs_of_server()
    lacking = [name for name in NEEDED if not shutil.which(name)] + ([] if programs else ["server of PostgreSQL"])
    if lacking:
        print(f"examples/postgres.sh: passed over, no {', no '.join(lacking)}")
        return
    with tempfile.TemporaryDirectory() as name:
        server = Server(programs, pathlib.Path(name))
        try:
            server.wait()
            for check in (check_hard_rows, check_copy, check_rejects, check_others, check_long_names, check_mistakes):
                check(server)
        finally:
            server.stop()
    print("examples/postgres.sh: the tables and the rejects are in PostgreSQL, and a mistake leaves nothing")


if __name__ == "__main__":
    sys.exit(main())
