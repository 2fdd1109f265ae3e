"""The lines for words that are refused, and the words that ask for help."""

from messages.runs import Case, check, run, same

F = {"f.csv": b"a\n1\n"}

HELP = " (see csvload --help)"

NO_TYPE = "is no type (in upper case: BOOLEAN, BIGINT, DATE, TIME, TIMESTAMP, VARCHAR)"

# Other names of types, of DuckDB's manual.
MEANT = {
    "BOOLEAN": ["boolean", "bool", "logical"],
    "BIGINT": ["bigint", "int8", "long"],
    "DATE": ["date"],
    "TIME": ["time"],
    "TIMESTAMP": ["timestamp", "datetime"],
    "VARCHAR": ["varchar", "char", "bpchar", "text", "string"],
}


def refused(words: list[str], rule: str, index: int, line: str) -> Case:
    """Words whose word of that place breaks a rule, and what is said."""
    word = (words + [""])[index] if index < len(words) else ""
    shown = word.replace("\\", "\\\\").replace("|", "\\|").replace("\x1b", "\\x1b").replace("\n", "\\n")
    return Case(words, 1, f"csvload: {line}\n", f"refused|{rule}|{index}|{shown}\n".encode(), F)


def option(word: str, rule: str, line: str) -> Case:
    return refused(["load", "f.csv", word], rule, 2, line)


COMMANDS = [
    refused([], "NoCommand", 0, "a command is wanted: load, summary, profile, convert, rejects, batch, sniff, split or make" + HELP),
    refused(["frob"], "BadCommand", 0, "'frob' is no command: load, summary, profile, convert, rejects, batch, sniff, split and make are" + HELP),
    refused(["-v"], "BadCommand", 0, "'-v' is no command: -V or version is meant"),
    refused(["load"], "NoFile", 1, "a file's name is wanted after load" + HELP),
    refused(["load", ""], "NoFile", 1, "a file's name is wanted after load" + HELP),
    refused(["split"], "NoFile", 1, "a file's name is wanted after split" + HELP),
    refused(["batch"], "NoFile", 1, "names of files are wanted after batch" + HELP),
    refused(["make"], "NoFile", 1, "a number is wanted after make" + HELP),
    refused(["make", "x"], "BadValue", 1, "'x' is no number: make takes one from 0 to 4294967295"),
    refused(["make", "delim"], "BadValue", 1, "'delim' is no number: make takes one from 0 to 4294967295"),
    refused(
        ["batch", "a.csv,,b.csv"],
        "BadValue",
        1,
        "'a.csv,,b.csv' is refused: batch takes 1 to 1000 names with commas between them, none empty",
    ),
]

OPTIONS = [
    option("colour=red", "BadOption", "'colour=red' gives no option of load" + HELP),
    option("--sep=,", "BadOption", "'--sep=,' is no option: one is written sep=VALUE, without dashes"),
    refused(["make", "7", "output=x"], "BadOption", 2, "'output=x' gives no option of make" + HELP),
    refused(["make", "7", "sep=,"], "BadOption", 2, "'sep=,' gives no option of make" + HELP),
    refused(["make", "7", "out=x"], "BadOption", 2, "'out=x' gives no option of make" + HELP),
    option("out=x.csv", "BadOption", "'out=x.csv' is no option: output=x.csv is meant"),
    option("--out=my x", "BadOption", "'--out=my x' is no option: 'output=my x' is meant"),
    option("-o", "BadOption", "'-o' is no option: output=VALUE is meant"),
    refused(["load", "f.csv", "-o", "x.csv"], "BadOption", 2, "'-o' is no option: output=x.csv is meant"),
    refused(["load", "f.csv", "-d", ";"], "BadOption", 2, "'-d' is no option: 'delim=;' is meant"),
    option("DELIM=,", "BadOption", "'DELIM=,' is no option: delim=, is meant"),
    option("-", "BadOption", "'-' is no option: standard input stands in place of the file: csvload load -"),
    option("header", "BadOption", "'header' is no option: one is written header=VALUE"),
    option("--delim=,", "BadOption", "'--delim=,' is no option: one is written delim=VALUE, without dashes"),
    option("--foo=1", "BadOption", "no option has dashes, and foo is none of load"),
    option("-foo=1", "BadOption", "no option has dashes, and foo is none of load"),
    option("--=1", "BadOption", "'--=1' gives no option of load" + HELP),
    option("explain=true", "BadOption", "explain is an option of sniff"),
    option("same_header=true", "BadOption", "same_header is an option of batch"),
    option("size=7", "BadOption", "size is an option of split"),
    option("rows=7", "BadOption", "rows is an option of make"),
    refused(["batch", "f.csv", "explain=true"], "BadOption", 2, "explain is an option of sniff"),
    refused(["make", "7", "delim=,"], "BadOption", 2, "'delim=,' gives no option of make" + HELP),
    option("--frob", "BadOption", "'--frob' is no option: one is written NAME=VALUE"),
    option("b.csv", "BadOption", "'b.csv' is no option; several files: csvload batch f.csv,b.csv"),
    option("b\x1b\n", "BadOption", r"'b\x1b\n' is no option: one is written NAME=VALUE"),
    option("b\u009b2J", "BadOption", r"'b\xc2\x9b2J' is no option: one is written NAME=VALUE"),
    option("b\u202e", "BadOption", r"'b\xe2\x80\xae' is no option: one is written NAME=VALUE"),
    option("b,c.csv", "BadOption", "'b,c.csv' is no option: one is written NAME=VALUE"),
    option("", "BadOption", "'' is no option: one is written NAME=VALUE"),
    refused(["load", "a,b.csv", "c"], "BadOption", 2, "'c' is no option: one is written NAME=VALUE"),
    refused(["load", "a\n.csv", "c"], "BadOption", 2, "'c' is no option: one is written NAME=VALUE"),
    refused(
        ["load", "a b; touch pwn.csv", "a b"],
        "BadOption",
        2,
        "'a b' is no option; several files: csvload batch 'a b; touch pwn.csv,a b'",
    ),
    refused(
        ["load", "-f.csv", "skip=1", "it's"],
        "BadOption",
        3,
        r"'it's' is no option; several files: csvload batch './-f.csv,it'\''s'",
    ),
    refused(["split", "f.csv", "b.csv"], "BadOption", 2, "'b.csv' is no option: one is written NAME=VALUE"),
    refused(["load", "-", "b.csv"], "BadOption", 2, "'b.csv' is no option; several files: csvload batch -,b.csv"),
    refused(
        ["batch", "a.csv,-", "b.csv"], "BadOption", 2, "'b.csv' is no option; several files: csvload batch a.csv,-,b.csv"
    ),
    refused(
        ["load", "header=true", "f.csv"], "BadOption", 2, "'header=true' was taken as the file: the file comes first"
    ),
    refused(["load", "-d", ",", "f.csv"], "BadOption", 2, "'-d' was taken as the file: the file comes first"),
    refused(["make", "7", "x"], "BadOption", 2, "'x' is no option: one is written NAME=VALUE"),
    refused(
        ["load", "f.csv", "header=true", "header=false"],
        "Repeated",
        3,
        "'header=false' gives an option that 'header=true' gave before",
    ),
    refused(
        ["load", "f.csv", "delim=,", "sep=;"], "Repeated", 3, "'sep=;' gives an option that 'delim=,' gave before"
    ),
    refused(
        ["load", "f.csv", "sep=,", "delimiter=;"], "Repeated", 3, "'delimiter=;' gives an option that 'sep=,' gave before"
    ),
    refused(
        ["load", "f.csv", "dtypes=DATE", "types=DATE"],
        "Repeated",
        3,
        "'types=DATE' gives an option that 'dtypes=DATE' gave before",
    ),
    refused(
        ["load", "f.csv", "names=a", "column_names=a"],
        "Repeated",
        3,
        "'column_names=a' gives an option that 'names=a' gave before",
    ),
]

VALUES = [
    option("header=yes", "BadValue", "'header=yes' is refused: header takes true or false"),
    refused(["split", "f.csv", "size=0"], "BadValue", 2, "'size=0' is refused: size takes a number from 1 to 4294967296"),
    option("threads=65", "BadValue", "'threads=65' is refused: threads takes a number from 1 to 64"),
    option(
        "sample_size=-1",
        "BadValue",
        "'sample_size=-1' is refused: sample_size takes a number from 1 to 1000000; 1000000 is the most",
    ),
    option("delim=ab", "BadValue", r"'delim=ab' is refused: delim takes one ASCII character, or \t for a tab"),
    option("quote=ab", "BadValue", "'quote=ab' is refused: quote takes one ASCII character, or nothing"),
    option("delimiter=ab", "BadValue", r"'delimiter=ab' is refused: delimiter takes one ASCII character, or \t for a tab"),
    option("types=" + "BIGINT," * 49 + "bigint", "BadValue", "'bigint' is no type: BIGINT is meant"),
    option("types=BIGINT," + "x" * 70, "BadValue", f"'{'x' * 60}..' {NO_TYPE}"),
    option("types=BIGINT,DOUBLE", "BadValue", "'DOUBLE' is no type: fractions stay VARCHAR"),
    option("column_types=a:numeric", "BadValue", "'numeric' is no type: fractions stay VARCHAR"),
    option("dtypes=", "BadValue", "'' " + NO_TYPE),
    option("types=BIGINT, DATE", "BadValue", "no space stands behind a comma"),
    option("dtypes=BIGINT, DATE", "BadValue", "no space stands behind a comma"),
    refused(["load", "f.csv", "types=BIGINT,", "DATE"], "BadValue", 2, "no space stands behind a comma"),
    option("types=BIGINT,", "BadValue", "'' " + NO_TYPE),
    option("types=id:BIGINT", "BadValue", "types has no names: column_types=id:BIGINT"),
    option("types={'my id': 'BIGINT', 'b': 'DATE'}", "BadValue", "types has no names: 'column_types=my id:BIGINT,b:DATE'"),
    option("delim=", "BadValue", r"'delim=' is refused: delim takes one ASCII character, or \t for a tab; a shell takes ; and | for its own: 'delim=;'"),
    option("sep=", "BadValue", r"'sep=' is refused: sep takes one ASCII character, or \t for a tab; a shell takes ; and | for its own: 'sep=;'"),
    refused(["convert", "f.csv", "to=out.csv"], "BadValue", 2, "'to=out.csv' is refused: to takes csv, sqlite or npz; output=out.csv names the file"),
    refused(["convert", "f.csv", "to=../my out"], "BadValue", 2, "'to=../my out' is refused: to takes csv, sqlite or npz; 'output=../my out' names the file"),
    option("names=a,b,a", "BadValue", "'a' stands twice in names"),
    option("names=a,,b", "BadValue", "name 2 of names is empty"),
    option("column_names=a,b,", "BadValue", "name 3 of column_names is empty"),
    option("column_types=zip", "BadValue", "'zip' gives no type: column_types takes NAME:TYPE, cut at each comma"),
    option("column_types=zip:TEXT", "BadValue", "'TEXT' is no type: VARCHAR is meant"),
    option("column_types=a:b:date", "BadValue", "'date' is no type: DATE is meant"),
    option("column_types=zip:", "BadValue", "'' " + NO_TYPE),
    option("column_types=:DATE", "BadValue", "name 1 of column_types is empty"),
    option("column_types=zip:DATE,zip:DATE", "BadValue", "'zip' stands twice in column_types"),
    option("nulls=", "BadValue", "'nulls=' is refused: nulls takes texts, cut at each comma; nullstr= gives the empty one alone"),
    option("nulls=NA,,NA", "BadValue", "'NA' stands twice in nulls"),
    option("nulls=" + "," * 1000, "BadValue", "nulls takes 1000 at most"),
    option("output=", "BadValue", "'output=' is refused: output takes a file's name of 1 to 4096 bytes"),
    option("output=-", "BadValue", "'output=-' is refused: output takes a file's name of 1 to 4096 bytes"),
    option("max_errors=-1", "BadValue", "'max_errors=-1' is refused: max_errors takes a number from 0 to 4294967295"),
    option("to=db", "BadValue", "'to=db' is refused: to takes csv, sqlite or npz"),
    option(
        "table=sqlite_x",
        "BadValue",
        "'table=sqlite_x' is refused: table takes a name of 1 to 1000 bytes that isn't reject_scans or reject_errors and doesn't"
        " begin with sqlite_",
    ),
    option("header=" + "x" * 70, "BadValue", f"'header={'x' * 53}..' is refused: header takes true or false"),
]


TYPES = [
    option(f"types={name}", "BadValue", f"'{name}' is no type: {meant} is meant")
    for meant, names in MEANT.items()
    for lower in names
    for name in {lower, lower.upper(), lower.title()} - {meant}
]

# All but the last are good.
MANY = (
    "load f.csv delim=, quote=' escape=' header=true skip=0 nullstr=x allow_quoted_nulls=true all_varchar=false names=a"
    " types=BIGINT sample_size=9 null_padding=true ignore_errors=true store_rejects=true max_line_size=9 max_input=9"
    " threads=1 range_size=9 stats=true pipeline=2"
).split()

MANY_WORDS = [refused(MANY, "BadValue", len(MANY) - 1, "'pipeline=2' is refused: pipeline takes true or false")]


SPACED = {"my file.csv": b"a\n1\n", "a b c.csv": b"a\n1\n", "it's b.csv": b"a\n1\n"}


def check_spaced_names() -> None:
    """Words that are a file's name between spaces, where such a file is there."""
    quoted = {
        "my file.csv": "'my file.csv'",
        "a b c.csv": "'a b c.csv'",
        "it's b.csv": r"'it'\''s b.csv'",
    }
    for name, shown in quoted.items():
        status, _, said = run(["load", *name.split(" ")], SPACED)
        same((status, said), (1, f"csvload: a name with spaces stands in quotes: {shown}\n"), name)
    several = "csvload: 'b.csv' is no option; several files: csvload batch my,b.csv\n"
    same(run(["load", "my", "b.csv"], SPACED)[2], several, "my b.csv")


def check_fits(text: bytes, lines: int) -> None:
    rows = text.decode().splitlines()
    assert len(rows) <= lines and max(map(len, rows)) <= 80, text


def check_own_texts() -> None:
    """The help, its parts and the version, each by its words, and to nobody. The help fits on a small terminal."""
    help_text = run(["--help"], F)
    same(help_text[0], 0, "--help")
    assert help_text[1].startswith(b"csvload: finds how a CSV file is written") and help_text[2] == "", help_text
    check_fits(help_text[1], 24)
    # Three examples stand first.
    examples = [line for line in help_text[1].decode().split("Usage:")[0].splitlines() if line.startswith("  csvload ")]
    same(len(examples), 3, "--help")
    for words in [
        ["-h"], ["help"], ["help", "load"], ["help", "-h"], ["--help", "load"], ["load", "--help"], ["batch", "-h", "x"],
        ["load", "f.csv", "--help"], ["load", "absent.csv", "-h", "x"], ["load", "f.csv", "--help", "header=yes"], ["--help", "report"],
    ]:  # fmt: skip
        same(run(words, F), help_text, words)
    parts = {"options": b"Options of csvload", "report": b"The report of csvload"}
    for part, begins in parts.items():
        status, text, said = run(["help", part], F)
        same((status, said, text[: len(begins)]), (0, "", begins), part)
        assert f"csvload help {part} ".encode() in help_text[1], help_text
        check_fits(text, 70)
        same(run(["help", part, "--help"], F), (status, text, said), part)
    for words in [["--version"], ["-V"], ["version"], ["version", "load", "x"]]:
        same(run(words, F), (0, b"csvload 0.2.0\n", ""), words)
    same(run(["load", "f.csv", "skip=0", "--help"], F)[0], 1, "--help behind an option")


def main() -> None:
    check(COMMANDS + OPTIONS + VALUES + TYPES + MANY_WORDS)
    check_spaced_names()
    check_own_texts()
