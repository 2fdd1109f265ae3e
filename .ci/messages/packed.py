"""The lines for files that are no CSV as they stand: packed, encoded otherwise than in UTF-8, or of another kind."""

import bz2
import gzip
import lzma

from messages.runs import run, same

ROWS = b"a,b\n1,2\n" * 30

PACKED = gzip.compress(ROWS)

# How a file begins, what it is, and the program that makes CSV of it.
THROUGH = [
    (PACKED, "is compressed", "gunzip -c"),
    (bz2.compress(ROWS), "is compressed", "bunzip2 -c"),
    (lzma.compress(ROWS), "is compressed", "xz -dc"),
    (b"\x28\xb5\x2f\xfd" + ROWS, "is compressed", "zstd -dc"),
    ("\ufeffa,b\n1,2\n".encode("utf-16-le"), "is UTF-16", "iconv -f UTF-16 -t UTF-8"),
    ("\ufeffa,b\n1,2\n".encode("utf-16-be"), "is UTF-16", "iconv -f UTF-16 -t UTF-8"),
    ("a,b\n1,2\n".encode("utf-16-le"), "is UTF-16", "iconv -f UTF-16LE -t UTF-8"),
    ("a,b\n1,2\n".encode("utf-16-be"), "is UTF-16", "iconv -f UTF-16BE -t UTF-8"),
    ("a,b\n".encode("utf-16-le"), "is UTF-16", "iconv -f UTF-16LE -t UTF-8"),
]

# How a file begins that no program here makes CSV of, and what is said.
OTHERS = [
    (b"PK\x03\x04\n", "is a zip archive or a workbook: unpack it, or save the sheet as CSV"),
    (b"PK\x05\x06\n", "is a zip archive or a workbook: unpack it, or save the sheet as CSV"),
    (b"\xd0\xcf\x11\xe0\xa1\xb1\x1a\xe1", "is a workbook: save the sheet as CSV"),
    (b"PAR1,\n", "is Parquet, no CSV"),
    (b"SQLite format 3\0,\n", "is an SQLite database, no CSV"),
    (b"%PDF-1.4\n", "is a PDF, no CSV"),
    (b"<!DOCTYPE html>\n<p>1, 2\n", "is an HTML page"),
    (b" \n <HTML lang=en>\n", "is an HTML page"),
    (b'{"a": 1, "b": 2}\n', "is JSON"),
    (b'[{"a": 1}]\n', "is JSON"),
]

# Each misses a row above by a byte.
PLAIN = [
    b"\x1f,b\n1,2\n",
    b"BZ,h\n1,2\n",
    b"PK,\x03\x04\n",
    b"PAR,1\n",
    b"SQLite format 3,\n",
    b"%PDF,-\n",
    b"<html,1\n"[1:],
    b"<!DOCTYP,1\n",
    b"{,1\n",
    b"[,{\n",
    "a,b".encode("utf-16-le"),
    b"a,b,\0c,\0d\n",
]


def last_line(words: list[str], files: dict[str, bytes], given: bytes = b"") -> tuple[int, str]:
    """The status, and the last line for a person."""
    status, _, said = run(words, files, given)
    return status, (said.splitlines(True) or [""])[-1]


def check_kinds() -> None:
    """The front of a file tells what it is, whatever its rows come to."""
    for data, state, tool in THROUGH:
        for command in ["load", "sniff"]:
            status, line = last_line([command, "my f"], {"my f": data})
            assert status in (0, 3), status
            same(line, f"csvload: the file {state}: {tool} 'my f' | csvload {command} -\n", (command, tool))
        same(last_line(["sniff", "-"], {}, data), (0, f"csvload: the input {state}: {tool} | csvload sniff -\n"), tool)
    for data, state in OTHERS:
        same(last_line(["sniff", "f"], {"f": data}), (0, f"csvload: the file {state}\n"), data)
        same(last_line(["sniff", "-"], {}, data), (0, f"csvload: the input {state}\n"), data)
        # A first fault: a column too many.
        status, line = last_line(["load", "f", "delim=;", "quote=", "skip=0", "names=a"], {"f": data + b";\n;\n"})
        same((status, line), (3, f"csvload: the file {state}\n"), data)
    for data in PLAIN:
        status, line = last_line(["sniff", "f"], {"f": data})
        assert status == 0 and "the file" not in line, (data, line)


def check_names() -> None:
    """A file's name stands as a shell takes it; where it can't be seen there is no command."""
    zipped = "csvload: the file is compressed: gunzip -c {} | csvload sniff -\n"
    for name, shown in [("it's.gz", r"'it'\''s.gz'"), ("-f.gz", "./-f.gz")]:
        same(last_line(["sniff", name], {name: PACKED}), (0, zipped.format(shown)), name)
    for name in ["g\nz.gz", "g\u202ez.gz"]:
        same(last_line(["sniff", name], {name: PACKED}), (0, "csvload: the file is compressed\n"), name)


def check_words() -> None:
    """The options that were given stand in the command again."""
    zipped = "csvload: the file is compressed: gunzip -c f.gz | csvload sniff -"
    given = ["delim=;", "skip=1", "nullstr=it's", "header=true"]
    shown = r" 'delim=;' skip=1 'nullstr=it'\''s' header=true"
    same(last_line(["sniff", "f.gz", *given], {"f.gz": PACKED}), (0, zipped + shown + "\n"), given)
    for word in ["nullstr=" + "x" * 60, "nullstr=\u202e"]:
        same(last_line(["sniff", "f.gz", word], {"f.gz": PACKED}), (0, zipped + ", with the same words\n"), word)


def check_batch() -> None:
    """Of several files the whole list is named, or that one is to be unpacked first where a pipe can't stand for it."""
    plain = b"a,b\n1,2\n"
    files = {"a.csv": plain, "b.gz": PACKED, "c d.csv": plain, "-e.csv": plain}
    behind = "csvload: the file is compressed: "
    lines = {
        "a.csv,b.gz": "gunzip -c b.gz | csvload batch a.csv,-",
        "b.gz,a.csv": "gunzip -c b.gz | csvload batch -,a.csv",
        "b.gz": "gunzip -c b.gz | csvload batch -",
        "c d.csv,b.gz": "gunzip -c b.gz | csvload batch 'c d.csv,-'",
        "-e.csv,b.gz": "gunzip -c b.gz | csvload batch ./-e.csv,-",
        "b.gz,b.gz": "unpack 'b.gz' first",
        "-,b.gz": "unpack 'b.gz' first",
    }
    for word, line in lines.items():
        # What is noise may come to rows.
        same(last_line(["batch", word], files, plain)[1], f"{behind}{line}\n", word)
    same(last_line(["batch", "a.csv,b.gz", "delim=,"], files)[1], f"{behind}{lines['a.csv,b.gz']} delim=,\n", "delim=,")
    # The first fault is the noise's, whatever is read behind it.
    line = f"{behind}gunzip -c b.gz | csvload batch '-,a.csv,c d.csv' names=x\n"
    same(last_line(["batch", "b.gz,a.csv,c d.csv", "names=x"], files), (3, line), "the first of three")


def check_explained() -> None:
    """Of such a file neither a hint is said nor words to paste."""
    # Of the same rows without the first two bytes a hint at the comma would come.
    rows = b"\x1f\x8ba,b,c,d\n1,2\n3,4,5\n6,7,8,9\n0\n"
    status, text, said = run(["sniff", "f.csv", "explain=true"], {"f.csv": rows})
    assert b"hint|delim=,\n" in text, text
    wanted = "csvload: the file is compressed: gunzip -c f.csv | csvload sniff - explain=true\n"
    same((status, said), (0, wanted), "rows of a packed file")


def main() -> None:
    check_kinds()
    check_names()
    check_words()
    check_batch()
    check_explained()
