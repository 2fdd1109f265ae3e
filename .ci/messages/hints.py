"""Hints after an answer: at another delimiter or byte, where one column was found, at lines that are no rows, at a quote that quotes nothing, at numbers that lose zeros, and at words."""

import pathlib
import subprocess
import tempfile

from messages.runs import PROGRAM, Case, check, run, same

RAGGED = {"f.csv": b"a,b,c,d\n1,2\n3,4,5\n6,7,8,9\n0\n"}

TABS = {"f.csv": b"a\tb\tc\n1\t2\n3\t4\t5\n6\t7\n8\n"}

COMMA = "csvload: hint: most rows have one field; 'delim=,' may give more\n"

HINTS = [
    Case(["load", "f.csv"], 0, COMMA, None, RAGGED),
    Case(["summary", "f.csv"], 0, COMMA, None, RAGGED),
    Case(["convert", "f.csv"], 0, COMMA, None, RAGGED),
    Case(["convert", "f.csv", "to=sqlite"], 0, COMMA, None, RAGGED),
    Case(["batch", "f.csv,f.csv"], 0, COMMA, None, RAGGED),
    Case(["sniff", "f.csv"], 0, COMMA, None, RAGGED),
    Case(["load", "f.csv"], 0, COMMA.replace(",'", "\\t'"), None, TABS),
    Case(
        ["load", "f.csv", "types=BIGINT", "header=true", "ignore_errors=true"],
        0,
        "csvload: f.csv: 3 faults were passed over; store_rejects=true lists them\n" + COMMA,
        None,
        RAGGED,
    ),
    Case(["load", "f.csv", "delim=|"], 0, "", None, RAGGED),
    Case(["load", "f.csv", "delim=,", "null_padding=true"], 0, "", None, RAGGED),
    Case(["load", "f.csv"], 0, "", None, {"f.csv": b"a\n1\n2\n"}),
]


SKIP = "csvload: hint: line 1 says how the file is written; 'skip=1' passes over it\n"

SEP = b"sep=;\nid;name\n1;Ana\n"

COMMANDS = ["load", "summary", "convert", "rejects", "batch", "sniff"]

# First lines that tell the delimiter to a spreadsheet, each with some that miss that by a byte.
TELLING = [b"sep=;\n", b"sep=;\r\n", b"sep=;\r", b"SEP=,\n", b"Sep=\t\n", b'"sep=;"\n', b"\xef\xbb\xbfsep=;\n", b"sep=;"]

NOT_TELLING = [b"sep=\n", b"sep=;;\n", b"sep;\n", b"step=;\n", b'"sep=;\n', b" sep=;\n", b"sep =;\n", b"\nsep=;\n", b"\xef\xbbsep=;\n"]


def check_skip() -> None:
    """The hint comes after each answer but that of `explain`, and is silenced by its option."""
    for command in COMMANDS:
        status, _, said = run([command, "f.csv"], {"f.csv": SEP})
        same((status, said), (0, SKIP), command)
        same(run([command, "f.csv", "skip=0"], {"f.csv": SEP})[2], "", command)
        same(run([command, "f.csv", "skip=1"], {"f.csv": SEP})[2], "", command)
    rows = b"id;name\n1;Ana\n"
    for line in TELLING:
        data = line if line == b"sep=;" else line + rows
        same(run(["load", "f.csv"], {"f.csv": data})[2], SKIP, line)
    for line in NOT_TELLING:
        said = run(["load", "f.csv", "null_padding=true", "quote="], {"f.csv": line + rows})[2]
        assert "hint: line 1" not in said, (line, said)
    # Of several files the first one is meant.
    same(run(["batch", "f.csv,g.csv", "delim=;"], {"f.csv": SEP, "g.csv": rows})[2], SKIP, "the first of two")
    same(run(["batch", "g.csv,f.csv", "delim=;", "header=false"], {"f.csv": SEP, "g.csv": rows})[2], "", "the second of two")
    # What the hint says is so.
    status, text, said = run(["load", "f.csv", "skip=1"], {"f.csv": SEP})
    assert (status, said) == (0, "") and b"column|1|VARCHAR|name\nrow|1|Ana\n" in text, (text, said)


def comment(lines: str, them: str) -> str:
    return f"csvload: hint: {lines} with '#'; 'comment=#' passes over {them}\n"


ONE, TWO = comment("1 line begins", "it"), comment("2 lines begin", "them")

# Files with lines that look like comment lines, each beside one that misses that by a byte.
COMMENTED = [
    (b"# a\nid,n\n1,2\n", ONE),
    (b"# a\nid,n\n# b\n1,2\n3,4\n", TWO),
    (b"#a,b\n1,2\n3,4\n", ""),
    (b"id,n\n#ff0000,1\n#00ff00,2\n", ""),
    (b"id\n# a\n# b\n1\n", TWO),
    (b"id\n# a\n1\n2\n", ""),
    (b"#a\n#b\n#c\n", ""),
    (b" # a\nid,n\n1,2\n", ""),
    (b"id,n\n\"#\",2\n#\n3,4\n", ONE),
]

QUOTE = "csvload: hint: the quote ' was found, and no field is quoted by it; 'quote=' takes it as text\n"

# Files in which the quote ' is found, by which a field is quoted or none.
QUOTED = [
    (b'n,s\n1,"b\n2,"d\n', QUOTE),
    (b"n,s\n1,\"b\n2,'d'\n3,\"e\n", ""),
    (b'n,s\n1,"b"\n2,"d"\n', ""),
]


def check_noticed() -> None:
    """A hint comes after each answer but that of `explain`, and is silenced by its option."""
    for rows, hint, options in [(*COMMENTED[0], ["comment=", "comment=#"]), (*QUOTED[0], ["quote=", "quote='"])]:
        for command in COMMANDS:
            status, _, said = run([command, "f.csv"], {"f.csv": rows})
            same((status, said), (0, hint), command)
            for option in options:
                same(run([command, "f.csv", option], {"f.csv": rows})[2], "", option)
        assert hint not in run(["sniff", "f.csv", "explain=true"], {"f.csv": rows})[2]
    for rows, hint in COMMENTED + QUOTED:
        same(run(["load", "f.csv", "null_padding=true"], {"f.csv": rows})[2], hint, rows)
    # Of several files the first one is meant.
    plain = b"id,n\n1,2\n"
    same(run(["batch", "f.csv,g.csv"], {"f.csv": COMMENTED[0][0], "g.csv": plain})[2], ONE, "the first of two")
    same(run(["batch", "g.csv,f.csv", "null_padding=true", "all_varchar=true"], {"f.csv": COMMENTED[0][0], "g.csv": plain})[2], "", "the second of two")
    # What the hint says is so.
    status, text, said = run(["load", "f.csv", "comment=#"], {"f.csv": COMMENTED[1][0]})
    assert (status, said) == (0, "") and b"\nrow|1|2\nrow|3|4\nrows|2\n" in text, (text, said)


def zeros(word: str) -> str:
    return f"csvload: hint: leading zeros are lost; '{word}' keeps them\n"


ZIP = zeros("column_types=zip:VARCHAR")

UNNAMED = "csvload: hint: leading zeros are lost; 'column_types=NAME:VARCHAR' keeps those of the column NAME\n"

CITIES = {"f.csv": b"zip,city\n00501,Holtsville\n"}

SIX = {"f.csv": b"a,b,c,d,e,f\n" + b"01,02,03,04,05,06\n"}


def rows_before(count: int, width: int = 1) -> dict[str, bytes]:
    """A file in which so many rows of ones stand before one of numbers that begin with a zero, below a header."""
    header = ",".join(f"c{n}" for n in range(width))
    ones, last = ",".join(["1"] * width), ",".join(["1"] * (width - 1) + ["01"])
    return {"f.csv": "\n".join([header, *[ones] * count, last, ""]).encode()}


# Columns of numbers that lose leading zeros, and those that miss that by a byte or a row.
ZEROS = [
    Case(["load", "f.csv"], 0, ZIP, None, CITIES),
    Case(["summary", "f.csv"], 0, ZIP, None, CITIES),
    Case(["convert", "f.csv"], 0, ZIP, None, CITIES),
    Case(["sniff", "f.csv"], 0, ZIP, None, CITIES),
    Case(["batch", "f.csv,f.csv"], 0, ZIP, None, CITIES),
    Case(["rejects", "f.csv"], 0, "", None, CITIES),
    Case(["convert", "f.csv", "to=sqlite"], 0, UNNAMED, None, CITIES),
    Case(["load", "f.csv", "types=BIGINT,VARCHAR"], 0, "", None, CITIES),
    Case(["load", "f.csv", "all_varchar=true"], 0, "", None, CITIES),
    Case(["load", "f.csv", "column_types=zip:BIGINT"], 0, "", None, CITIES),
    Case(["load", "f.csv", "column_types=city:VARCHAR"], 0, zeros("column_types=city:VARCHAR,zip:VARCHAR"), None, CITIES),
    Case(["load", "f.csv", "nullstr=00501"], 0, "", None, CITIES),
    Case(["load", "f.csv"], 0, "", None, {"f.csv": b"n,city\n0,a\n10,b\n-01,c\n+02,d\n"}),
    Case(["load", "f.csv"], 0, "", None, {"f.csv": b"n,city\n0x,a\n01,b\n"}),
    Case(["load", "f.csv"], 0, zeros("column_types=a:VARCHAR,b:VARCHAR,c:VARCHAR,d:VARCHAR,e:VARCHAR, .."), None, SIX),
    Case(["load", "f.csv", "column_types=b:BIGINT"], 0, zeros("column_types=b:BIGINT,a:VARCHAR,c:VARCHAR,d:VARCHAR,e:VARCHAR,f:VARCHAR"), None, SIX),
    # A name with a comma can't stand in the word; one with a bar isn't shown as it is.
    Case(["load", "f.csv", "delim=;"], 0, "", None, {"f.csv": b"a,b;c\n01;x\n"}),
    Case(["load", "f.csv", "delim=,"], 0, UNNAMED, None, {"f.csv": b"a|b,c\n01,x\n"}),
    Case(["load", "f.csv"], 0, zeros("column_types=my n:VARCHAR"), None, {"f.csv": b"my n,t\n01,x\n"}),
    Case(["load", "f.csv", "quote="], 0, "csvload: hint: leading zeros are lost; 'column_types=o'\\''n:VARCHAR' keeps them\n", None, {"f.csv": b"o'n,t\n01,x\n"}),
    # The first 50 rows are looked at, with the header, and the first 64 columns.
    Case(["load", "f.csv"], 0, zeros("column_types=c0:VARCHAR"), None, rows_before(48)),
    Case(["load", "f.csv"], 0, "", None, rows_before(49)),
    Case(["load", "f.csv"], 0, zeros("column_types=c63:VARCHAR"), None, rows_before(1, 64)),
    Case(["load", "f.csv"], 0, "", None, rows_before(1, 65)),
]


def check_zeros() -> None:
    """Beside what each run says: with the word that is named the zeros stay."""
    check(ZEROS)
    status, text, said = run(["load", "f.csv", "column_types=zip:VARCHAR"], CITIES)
    assert (status, said) == (0, "") and b"row|00501|Holtsville\n" in text, (text, said)


def separated(count: int, separator: str) -> str:
    return f"csvload: hint: the first lines have {count} '{separator}' each; 'delim={separator}' cuts there\n"


# Lines of one column that another byte would cut, and those that miss that by a byte.
SEPARATED = [
    (b"a~b~c\nd~e~f\n", separated(2, "~")),
    (b"a~b~c\nd~e~f", separated(2, "~")),
    (b"\xef\xbb\xbfa~b~c\nd~e~f\n", separated(2, "~")),
    (b"a:b\r\nc:d\r\n", separated(1, ":")),
    (b"a^b\nc^d\n", separated(1, "^")),
    (b"a b c\nd e f\n", separated(2, " ")),
    (b"a:b c\nd:e f\n", separated(1, ":")),
    (b"a~b~c\nd~e f\n", ""),
    (b"a~b~c\n", ""),
    (b"a  b\nc  d\n", ""),
    (b"abc\ndef\n", ""),
    # Of a column that isn't of texts nothing is said.
    (b"2024-01-01 10:00:00\n2024-01-02 11:00:00\n", ""),
    # Of lines that aren't known as a whole neither.
    (b"a~b\n" + b"c" * 60 + b"~d\n", ""),
]


def other_header(words: str) -> str:
    return f"csvload: hint: the header hasn't as many fields as the rows; {words}, and a text with the delimiter in it stands between quotes\n"


ONE_ABOVE = other_header("'skip=1' passes over the first line")

# Files whose header has another number of fields than each row below it, and such that miss that.
HEADED = [
    (b"Prices\nid,n,t\na,b,c\n", ONE_ABOVE),
    (b"Prices\n\nid,n,t\na,b,c\n", other_header("'skip=2' passes over the first 2 lines")),
    (b"sentence\nHello, world\nGood night, moon\n", ONE_ABOVE),
    (b"Prices,,\nid,n,t\na,b,c\n", ""),
    (b"\nid,n,t\na,b,c\n", ""),
]


def check_cut() -> None:
    """Each hint is silenced by its option."""
    for rows, hint in SEPARATED:
        for command in ["load", "summary", "sniff", "batch"]:
            same(run([command, "f.csv"], {"f.csv": rows})[2], hint, (command, rows))
        same(run(["load", "f.csv", "delim=,"], {"f.csv": rows})[2], "", rows)
    for rows, hint in HEADED:
        for command in ["load", "convert", "rejects"]:
            same(run([command, "f.csv"], {"f.csv": rows})[2], hint, (command, rows))
        for option in ["header=true", "skip=0", "null_padding=true"]:
            same(run(["load", "f.csv", option], {"f.csv": rows})[2], "", (option, rows))
    # What the hints say is so.
    assert b"row|a|b|c\nrow|d|e|f\n" in run(["load", "f.csv", "delim=~", "header=false"], {"f.csv": SEPARATED[0][0]})[1]
    assert b"column|0|VARCHAR|id\n" in run(["load", "f.csv", "skip=1"], {"f.csv": HEADED[0][0]})[1]


AB, BA = b"a,b\nx,y\n", b"b,a\ny,x\n"

FILES = {"f.csv": AB, "g.csv": AB.replace(b"\n", b"\r\n"), "h.csv": BA, "i.csv": b'"a",b\nx,y\n', "j.csv": b"u,v\n"}

OTHER = "csvload: hint: 'h.csv' begins with another header; 'same_header=true' refuses it\n"

SEVERAL = "csvload: hint: 'nullstr=NA,NULL' is one text; 'nulls=NA,NULL' has 2\n"

QUOTES = "csvload: hint: quotes are part of a text: 'nulls=,NA' has none\n"

# Words that are taken for something else than is meant, and those that miss that.
WORDS = [
    Case(["load", "f.csv", "delim=t"], 0, "csvload: hint: delim=t is the letter; 'delim=\\t' is a tab\n", None, FILES),
    Case(["load", "f.csv", "delim=\\t"], 0, "", None, FILES),
    Case(["load", "f.csv", "nullstr=NA,NULL"], 0, SEVERAL, None, FILES),
    Case(["convert", "f.csv", "nullstr=NA,NULL"], 0, SEVERAL, None, FILES),
    Case(["load", "f.csv", "nullstr=NA"], 0, "", None, FILES),
    Case(["load", "f.csv", "nullstr=NA,NA"], 0, "", None, FILES),
    Case(["load", "f.csv", "nulls=NA,NULL"], 0, "", None, FILES),
    Case(["load", "f.csv", 'nulls="","NA"'], 0, QUOTES, None, FILES),
    Case(["load", "f.csv", 'nulls=",NA'], 0, "", None, FILES),
    # The first one of several files that begins with other names, where names are found.
    Case(["batch", "f.csv,g.csv,h.csv,j.csv"], 0, OTHER, None, FILES),
    Case(["batch", "f.csv,h.csv", "nulls=x"], 0, OTHER, None, FILES),
    Case(["batch", "f.csv,g.csv"], 0, "", None, FILES),
    Case(["batch", "f.csv,i.csv"], 0, "", None, FILES),
    Case(["batch", "f.csv,h.csv", "same_header=false"], 0, "", None, FILES),
    Case(["batch", "f.csv,h.csv", "header=false"], 0, "", None, FILES),
    Case(["batch", "f.csv,h.csv", "skip=0"], 0, "", None, FILES),
]


def check_long_part() -> None:
    """A part that is longer than a load reads is told with its line: here that of a row which is the hole of a file."""
    words = ["split", "f.csv", "size=4294967296", "delim=,", "quote=", "header=true", "types=VARCHAR"]
    wanted = {2: "", 3: "csvload: f.csv:2: this part has more than 4294967296 bytes: is a quote not closed?\n"}
    with tempfile.TemporaryDirectory() as folder:
        for more, said in wanted.items():
            with pathlib.Path(folder, "f.csv").open("wb") as file:
                file.write(b"a\n1\nx")
                file.truncate(2**32 + more)
            done = subprocess.run([PROGRAM, *words], cwd=folder, stdin=subprocess.DEVNULL, capture_output=True, timeout=600)
            same((done.returncode, done.stderr.decode()), (0, said), more)


def main() -> None:
    check(HINTS)
    check_skip()
    check_noticed()
    check_zeros()
    check_cut()
    check_long_part()
    check(WORDS)
