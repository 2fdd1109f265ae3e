"""The lines for a first fault of a row, and for faults that were passed over."""

from messages.runs import Case, check, run, same

ANY = "ignore_errors=true passes over faulty rows, store_rejects=true lists them"

MORE = "sample_size=1000000 looks at more rows; "


def kept(word: str) -> str:
    """What keeps the values of a column whose type was found."""
    return f"{word} keeps this column as text; "



UMLAUTS = "Nr;Name\n7;Grün\n8;Müller GmbH\n".encode("latin-1")

# Rows behind the sample, so that the types are found without the faulty one.
NUMBERS = b"n,t,u\n" + b"1,a,2\n" * 20_500

PLAIN = b'n,t\n1,a\nx,"b"\n'


def first_error(words: list[str], data: bytes, place: str, row: str, caret: int, helps: str) -> Case:
    """A first fault in the file f.csv: its place and message, its row and how far behind the front the caret stands."""
    said = f"csvload: f.csv:{place}\n    {row}\n    {' ' * caret}^\ncsvload: {helps}\n"
    return Case([words[0], "f.csv", *words[1:]], 3, said, None, {"f.csv": data})


def iconv(command: str) -> str:
    return f"the file isn't UTF-8: iconv -f LATIN1 -t UTF-8 f.csv | csvload {command} -"


FAULTY = b"order,quantity\n1001,2\n1003,two\n"

FAULTY_TEXT = rb"""options|delim=,|quote="|escape="|newline=\n|skip=0|header=true
column|0|BIGINT|order
column|1|BIGINT|quantity
error|0|0|3|23|28|2|quantity|CAST|1003,two|Error when converting column "quantity". Could not convert string "two" to 'BIGINT'
"""

FIRST = [
    first_error(
        ["load", "types=BIGINT,BIGINT", "header=true", "delim=,", 'quote="'],
        FAULTY,
        "3: column 2 'quantity': Could not convert string \"two\" to 'BIGINT'",
        "1003,two",
        5,
        "a BIGINT is written in digits alone; " + ANY,
    )._replace(text=FAULTY_TEXT),
    first_error(["load"], UMLAUTS, "2: column 2 'Name': Invalid unicode detected", r"7;Gr\xfcn", 4, iconv("load")),
    first_error(
        ["summary", "delim=;"], b"M\xfc;7\n", "1: column 1 'column0': Invalid unicode detected", r"M\xfc;7", 1, iconv("summary") + " 'delim=;'"
    ),
    # The stored row is cut in the midst of a character.
    first_error(
        ["summary"],
        NUMBERS + b"x,a" + "é".encode() * 3000 + b",1\n",
        "20502: column 1 'n': Could not convert string \"x\" to 'BIGINT'",
        "x,a" + "é" * 57,
        0,
        kept("column_types=n:VARCHAR") + MORE + ANY,
    ),
    first_error(
        ["summary"],
        NUMBERS + b"y" * 100_000 + b",b,1\n",
        f"20502: column 1 'n': Could not convert string \"{'y' * 60}..\" to 'BIGINT'",
        "y" * 60,
        0,
        kept("column_types=n:VARCHAR") + MORE + ANY,
    ),
    # A tab, a bar and wide characters before the caret.
    first_error(
        ["load", "delim=,"],
        NUMBERS + "1,\t|漢字,drei\n".encode(),
        "20502: column 3 'u': Could not convert string \"drei\" to 'BIGINT'",
        "1,\\t\\|漢字,drei",
        11,
        kept("column_types=u:VARCHAR") + MORE + ANY,
    ),
    # A fault behind the thirtieth character.
    first_error(
        ["load"],
        NUMBERS + b"1," + b"b" * 40 + b",drei\n",
        "20502: column 3 'u': Could not convert string \"drei\" to 'BIGINT'",
        "b" * 29 + ",drei",
        30,
        kept("column_types=u:VARCHAR") + MORE + ANY,
    ),
    first_error(
        ["load", "types=BIGINT"],
        b"1\n2\x1b[31m\n",
        r"""2: column 1 'column0': Could not convert string "2\x1b[31m" to 'BIGINT'""",
        r"2\x1b[31m",
        0,
        "a BIGINT is written in digits alone; " + ANY,
    ),
    first_error(["load", "sample_size=2"], PLAIN, "3: column 1 'n': Could not convert string \"x\" to 'BIGINT'", 'x,"b"', 0, kept("column_types=n:VARCHAR") + MORE + ANY),
    first_error(
        ["load", "types=VARCHAR", "delim=,"],
        b"a\nb,c\n",
        "2: column 2: Expected Number of Columns: 1 Found: 2",
        "b,c",
        2,
        "types gives 1 column",
    ),
    first_error(
        ["load", "names=a,b", "types=VARCHAR,BIGINT", "delim=,"],
        b"1,2\n3\n",
        "2: column 2 'b': Expected Number of Columns: 2 Found: 1",
        "3",
        1,
        "types gives 2 columns",
    ),
    # The value's own quote ends nothing.
    first_error(
        ["load", "types=BIGINT", "delim=,"],
        b'1\n2"' + b"y" * 100 + b"\n",
        f"2: column 1 'column0': Could not convert string \"2\"{'y' * 58}..\" to 'BIGINT'",
        '2"' + "y" * 58,
        0,
        "a BIGINT is written in digits alone; " + ANY,
    ),
    # What turns the direction of a text, or begins a terminal's command, is shown by its bytes.
    first_error(
        ["load", "types=BIGINT", "delim=,"],
        "1\n2\u202e\u009b\n".encode(),
        r"""2: column 1 'column0': Could not convert string "2\xe2\x80\xae\xc2\x9b" to 'BIGINT'""",
        r"2\xe2\x80\xae\xc2\x9b",
        0,
        "a BIGINT is written in digits alone; " + ANY,
    ),
    first_error(
        ["load", "names=a,b", "delim=,"],
        b"1,2\n3\n",
        "2: column 2 'b': Expected Number of Columns: 2 Found: 1",
        "3",
        1,
        "names gives 2 columns",
    ),
    first_error(
        ["load", "delim=,"],
        b"a,b\n1,2\n3,4\n3\n",
        "4: column 2 'b': Expected Number of Columns: 2 Found: 1",
        "3",
        1,
        "null_padding=true takes missing columns as null; " + ANY,
    ),
    first_error(
        ["load", "delim=,"],
        b"a,b\n1,2\n3,4\n3,4,5\n",
        "4: column 3: Expected Number of Columns: 2 Found: 3",
        "3,4,5",
        4,
        "csvload sniff f.csv explain=true delim=, tells how the rows are cut; " + ANY,
    ),
    first_error(
        ["load", 'quote="', "delim=,"],
        b'a,b\n1,x\n2,"y\n3,z\n',
        "3: column 2 'b': Quoted value is not properly closed",
        r'2,"y\n3,z\n',
        2,
        ANY,
    ),
    Case(
        ["batch", "f.csv,g.csv"],
        3,
        "csvload: g.csv:2: column 1 'n': Could not convert string \"x\" to 'BIGINT'\n    x\n    ^\ncsvload: same_header=true tells a file with another header; " + ANY + "\n",
        None,
        {"f.csv": b"n\n1\n", "g.csv": b"n\nx\n"},
    ),
    Case(
        ["load", "-"],
        3,
        "csvload: -:2: column 2 'Name': Invalid unicode detected\n    7;Gr\\xfcn\n        ^\n"
        "csvload: the input isn't UTF-8: iconv -f LATIN1 -t UTF-8 | csvload load -\n",
        None,
        {},
        UMLAUTS,
    ),
]


def helped(words: list[str], data: bytes, helps: str, files: dict[str, bytes] | None = None) -> tuple[list[str], dict[str, bytes], str]:
    """Words behind a command and a file with a first fault, the files, and the last line."""
    return words, {"f.csv": data, **(files or {})}, f"csvload: {helps}\n"


THREE = b"a,b\n1,2\n3,4\n"

# Rows of 40 bytes, over 4 MiB of them.
FAR = b"n,t\n" + (b"1," + b"t" * 37 + b"\n") * 105_000 + b"x,t\n"

DAYS = b"id,day\n1,31/12/2024\n"

TITLED = b"Prices of March\nby region\n\nid,name,amount\n1,a,2\n2,b,3\n"

# What helps, by the kind of the fault and what was given.
HELPS = [
    # too few columns
    helped(["load", "f.csv", "delim=,"], THREE + b"\x1a", "byte 1A ends a file of DOS; ignore_errors=true passes over it"),
    helped(["load", "f.csv", "delim=,"], THREE + b"\x1a\n5,6\n", "null_padding=true takes missing columns as null; " + ANY),
    helped(["load", "f.csv", "delim=,"], THREE + b"\x1bb", "null_padding=true takes missing columns as null; " + ANY),
    helped(["load", "f.csv", "delim=,"], THREE + b"# c\n5,6\n", "comment=# passes over lines that begin with #; " + ANY),
    helped(["load", "f.csv", "delim=,", "comment="], THREE + b"# c\n5,6\n", "null_padding=true takes missing columns as null; " + ANY),
    # a title above the rows
    helped(["load", "f.csv"], TITLED, "skip=3 passes over the first 3 lines; " + ANY),
    helped(["load", "f.csv"], b"\xef\xbb\xbf" + TITLED.replace(b"\n", b"\r\n"), "skip=3 passes over the first 3 lines; " + ANY),
    helped(["load", "f.csv", "header=false"], b"Prices\nid,n,t\na,b,c\n", "skip=1 passes over the first line; " + ANY),
    helped(["load", "f.csv", "skip=0"], TITLED, "null_padding=true takes missing columns as null; " + ANY),
    helped(["load", "f.csv"], TITLED[TITLED.index(b"id,") :] + b"by region\n", "null_padding=true takes missing columns as null; " + ANY),
    # too many
    helped(["load", "f.csv", "delim=,"], b'a,b\n1,2\n1, "x, y"\n', "a quote behind a space is text; " + ANY),
    helped(["load", "f.csv", "delim=;"], b'a;b\n1;2\n1; "x; y"\n', "a quote behind a space is text; " + ANY),
    helped(["load", "f.csv", "delim=;"], b'a;b\n1;2\n1;x, "y";z\n', "csvload sniff f.csv explain=true 'delim=;' tells how the rows are cut; " + ANY),
    helped(["load", "f.csv", "delim=,", "nullstr=n a"], THREE + b"1,2,3\n", "csvload sniff f.csv explain=true delim=, 'nullstr=n a' tells how the rows are cut; " + ANY),
    helped(["load", "f.csv", "delim=,", "nullstr=" + "n" * 60], THREE + b"1,2,3\n", "csvload sniff f.csv explain=true, with the same words tells how the rows are cut; " + ANY),
    helped(["convert", "f.csv", "delim=,", "to=sqlite", "table=t", "output=o.db"], THREE + b"1,2,3\n", "csvload sniff f.csv explain=true delim=, tells how the rows are cut; " + ANY),
    # a row too long
    helped(["load", "f.csv", "max_line_size=9"], b"a,b\n1,2\n3,444444444\n", "max_line_size=4194304 is the most; " + ANY),
    helped(["load", "f.csv"], b"a,b\n1,2\n" + b"x" * 2_097_153, "max_line_size=4194304 is the most; " + ANY),
    helped(["load", "f.csv", "max_line_size=4194304"], b"a\n1\n" + b"x" * 4_194_305, ANY),
    # a value of a type that was found
    helped(["load", "f.csv"], FAR, kept("column_types=n:VARCHAR") + ANY),
    helped(["load", "f.csv", "sample_size=1000000"], FAR, kept("column_types=n:VARCHAR") + ANY),
    helped(["load", "f.csv", "column_types=t:VARCHAR"], NUMBERS + b"x,y,1\n", kept("column_types=t:VARCHAR,n:VARCHAR") + MORE + ANY),
    helped(["load", "f.csv", "sample_size=2"], b"my n,t\n1,a\nx,b\n", kept("'column_types=my n:VARCHAR'") + MORE + ANY),
    helped(["load", "f.csv", "sample_size=2"], b"it's,t\n1,a\nx,b\n", kept("'column_types=it'\\''s:VARCHAR'") + MORE + ANY),
    helped(["load", "f.csv", "sample_size=2"], b'"n,m",t\n1,a\nx,b\n', "all_varchar=true keeps texts; " + MORE + ANY),
    helped(["load", "f.csv", "sample_size=2"], b'"n\nm",t\n1,a\nx,b\n', "all_varchar=true keeps texts; " + MORE + ANY),
    helped(["load", "f.csv", "sample_size=2", "column_types=t:VARCHAR"], b'"n,m",t\n1,a\nx,b\n', MORE + ANY),
    helped(["load", "f.csv", "sample_size=1"], b"1,a\nx,b\n", kept("column_types=column0:VARCHAR") + MORE + ANY),
    # a value of a given type
    helped(["load", "f.csv", "types=BIGINT,DATE"], DAYS, "a DATE is written 2024-12-31; " + ANY),
    helped(["load", "f.csv", "column_types=day:DATE"], DAYS, "a DATE is written 2024-12-31; " + ANY),
    helped(["load", "f.csv", "types=BIGINT,TIME"], b"id,t\n1,10.30\n", "a TIME is written 10:30:00; " + ANY),
    helped(["load", "f.csv", "types=BIGINT,TIMESTAMP"], DAYS, "a TIMESTAMP is written 2024-12-31 10:30:00; " + ANY),
    helped(["load", "f.csv", "types=BIGINT,BOOLEAN"], b"id,b\n1,yes\n", "a BOOLEAN is written true or false; " + ANY),
    helped(["load", "f.csv", "types=BIGINT,BIGINT"], b"id,b\n1,7.5\n", "a BIGINT is written in digits alone; " + ANY),
    # a later file
    helped(["batch", "f.csv,g.csv"], b"n,t\n1,a\n", "same_header=true tells a file with another header; " + ANY, {"g.csv": b"t,n\na,1\n"}),
    helped(["batch", "f.csv,g.csv"], b"1,a\n2,b\n", kept("column_types=column0:VARCHAR") + ANY, {"g.csv": b"b,1\n"}),
    helped(["batch", "f.csv,g.csv", "same_header=true"], b"n,t\n1,a\n", kept("column_types=n:VARCHAR") + ANY, {"g.csv": b"n,t\nb,1\n"}),
    helped(["batch", "f.csv,g.csv", "names=n,t"], b"n,t\n1,a\n", kept("column_types=n:VARCHAR") + ANY, {"g.csv": b"n,t\nb,1\n"}),
    helped(["batch", "f.csv,g.csv", "delim=,"], THREE, "same_header=true tells a file with another header; " + ANY, {"g.csv": b"a,b\n1,2,3\n"}),
    # another fault
    helped(["load", "f.csv", 'quote="', "delim=,"], b'a,b\n1,x\n2,"y\n', ANY),
]


def check_helps() -> None:
    for words, files, helps in HELPS:
        status, _, said = run(words, files)
        same((status, said.splitlines(True)[3:]), (3, [helps]), words)


def check_wide() -> None:
    """The first fault behind 2,500 columns with long names, whose lines have more than 60 KB."""
    names = b",".join(b"a_column_with_a_long_name_%05d" % column for column in range(2500))
    ones = b",".join([b"1"] * 2500)
    data = names + b"\n" + ones + b"\n" + ones + b"\n" + b"x" + ones[1:] + b"\n"
    status, text, said = run(["load", "f.csv", "header=true", "sample_size=2"], {"f.csv": data})
    assert len(text) > 100_000, len(text)
    wanted = "csvload: f.csv:4: column 1 'a_column_with_a_long_name_00000': Could not convert string \"x\" to 'BIGINT'\n"
    same((status, said.splitlines(True)[0]), (3, wanted), "2,500 columns")


def passed(words: list[str], line: str) -> Case:
    return Case([words[0], "f.csv", *words[1:]], 0, line, None, {"f.csv": UMLAUTS})


PASSED = [
    passed(["load", "ignore_errors=true"], "csvload: f.csv: 2 faults were passed over; store_rejects=true lists them\n"),
    passed(["summary", "ignore_errors=true"], "csvload: f.csv: 2 faults were passed over; store_rejects=true lists them\n"),
    passed(["load", "store_rejects=true"], "csvload: f.csv: 2 faults were passed over\n"),
    passed(["rejects"], "csvload: f.csv: 2 faults were passed over\n"),
    passed(
        ["convert", "store_rejects=true"],
        "csvload: f.csv: 2 faults were passed over; load with store_rejects=true lists them\n",
    ),
    passed(["convert", "to=sqlite", "ignore_errors=true"], "csvload: f.csv: 2 faults were passed over; store_rejects=true lists them\n"),
    passed(["convert", "to=npz", "ignore_errors=true"], "csvload: f.csv: 2 faults were passed over; store_rejects=true lists them\n"),
    passed(["profile"], "csvload: f.csv: 2 faults were passed over; csvload rejects f.csv lists them\n"),
    passed(
        ["profile", "delim=,", "store_rejects=true", "rejects_limit=1", "max_errors=2"],
        "csvload: f.csv: 2 faults were passed over; csvload rejects f.csv delim=, lists them\n",
    ),
    passed(["sniff"], ""),
    Case(
        ["batch", "f.csv,f.csv", "ignore_errors=true"],
        0,
        "csvload: 4 faults were passed over; store_rejects=true lists them\n",
        None,
        {"f.csv": UMLAUTS},
    ),
    Case(
        ["load", "f.csv", "types=BIGINT", "ignore_errors=true"],
        0,
        "csvload: f.csv: 1 fault was passed over; store_rejects=true lists it\n",
        None,
        {"f.csv": b"1\nx\n2\n"},
    ),
    Case(
        ["profile", "f.csv", "types=BIGINT", "output=o.csv"],
        0,
        "csvload: f.csv: 1 fault was passed over; csvload rejects f.csv types=BIGINT lists it\n",
        None,
        {"f.csv": b"1\nx\n2\n"},
    ),
]


def main() -> None:
    check(FIRST + PASSED)
    check_helps()
    check_wide()
