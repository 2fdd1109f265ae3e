"""Commands in the lines for a person: a shell is given each, and it does what the line says. With them the words to paste.

A command is what stands behind the words in which the line speaks of it, up to what it says of it.
"""

import gzip
import pathlib
import re
import subprocess
import tempfile

from messages.runs import PROGRAM, run, same

# The program is called by its name, as a person does.
CALLED = f'csvload() {{ "{PROGRAM}" "$@"; }}; '


def shell(command: str, files: dict[str, bytes], given: bytes = b"") -> tuple[int, bytes, str]:
    """The status, the text and what is said of a command that a shell runs in a folder with these files."""
    with tempfile.TemporaryDirectory() as folder:
        for name, data in files.items():
            pathlib.Path(folder, name).write_bytes(data)
        done = subprocess.run(["sh", "-c", CALLED + command], cwd=folder, input=given, capture_output=True, timeout=60)
    return done.returncode, done.stdout, done.stderr.decode()


def advised(words: list[str], files: dict[str, bytes], pattern: str) -> str:
    """The command that the last line for a person names."""
    said = run(words, files)[2].splitlines()[-1]
    found = re.search(pattern, said)
    assert found, f"{words}: {said!r}"
    return found[1]


ROWS = b"id;name\n1;Ana\n2;Bo\n"

UMLAUTS = "Nr;Name\n7;Gr\u00fcn\n8;M\u00fcller\n"

PLAIN_ROWS = b"row|1|Ana\nrow|2|Bo\nrows|2\n"


def check_piped() -> None:
    """What makes CSV of a file, and the options that were given."""
    packed = {"my f.gz": gzip.compress(ROWS), "a.csv": ROWS}
    command = advised(["load", "my f.gz", "delim=;", "quote=", "header=true"], packed, "compressed: (.*)")
    assert PLAIN_ROWS in shell(command, packed)[1], command
    command = advised(["batch", "a.csv,my f.gz", "delim=;", "header=true"], packed, "compressed: (.*)")
    status, text, _ = shell(command, packed)
    assert status == 0 and b"rows|4\n" in text, (command, text)
    command = advised(["batch", "my f.gz,a.csv", "delim=;", "null_padding=true", "quote="], packed, "compressed: (.*)")
    status, text, _ = shell(command, packed)
    assert status == 0 and b"rows|4\n" in text, (command, text)
    for code in ["utf-16-le", "utf-16-be", "utf-16", "latin-1"]:
        files = {"f.csv": UMLAUTS.encode(code)}
        command = advised(["load", "f.csv", "header=true"], files, "(iconv .*)")
        status, text, said = shell(command, files)
        assert (status, said) == (0, "") and "row|7|Gr\u00fcn\n".encode() in text, (command, text, said)


def check_options() -> None:
    """Options that a first fault's line names: with them the load goes on, or tells more."""
    late = {"f.csv": b"n,my t\n" + b"1,2\n" * 20_500 + b"abc,2\n1,x\n"}
    word = advised(["load", "f.csv"], late, "(\\S+) keeps this column as text")
    said = shell(f"csvload load f.csv {word}", late)[2]
    assert "column 2 'my t'" in said, said
    # Beside the first one the second column's type is given.
    both = advised(["load", "f.csv", word], late, "('[^']*'|\\S+) keeps this column as text")
    status, text, said = shell(f"csvload load f.csv {both}", late)
    assert (status, said) == (0, "") and b"row|abc|2\nrow|1|x\n" in text, (both, said)
    more = advised(["load", "f.csv"], late, "(sample_size=\\d+) looks")
    assert b"row|abc|2\n" in shell(f"csvload load f.csv {more}", late)[1], more
    dos = {"f.csv": b"a,b\n1,2\n3,4\n\x1a"}
    word = advised(["load", "f.csv", "delim=,"], dos, "DOS; (\\S+) passes over it")
    same(shell(f"csvload load f.csv delim=, {word}", dos)[0], 0, word)
    long = {"f.csv": b"a,b\n1,2\n" + b"x" * 3_000_000 + b",2\n"}
    word = advised(["load", "f.csv"], long, "(max_line_size=\\d+) is the most")
    same(shell(f"csvload load f.csv {word}", long)[0], 0, word)
    padded = {"f.csv": b"a,b\n1,2\n3\n"}
    word = advised(["load", "f.csv", "delim=,"], padded, "(null_padding=true) takes")
    assert b"row|3|\\N\n" in shell(f"csvload load f.csv delim=, {word}", padded)[1], word
    titled = {"f.csv": b"Prices\nby region\nid,name,amount\n1,a,2\n2,b,3\n"}
    word = advised(["load", "f.csv"], titled, "(skip=\\d+) passes over")
    assert b"column|0|BIGINT|id\n" in shell(f"csvload load f.csv {word}", titled)[1], word
    swapped = {"f.csv": b"n,t\n1,a\n", "g.csv": b"t,n\na,1\n"}
    word = advised(["batch", "f.csv,g.csv"], swapped, "(same_header=true) tells")
    same(shell(f"csvload batch f.csv,g.csv {word}", swapped)[0], 4, word)


def check_other_calls() -> None:
    """Other calls that lines name."""
    wide = {"my f.csv": b"a,b\n1,2\n3,4\n5,6,7\n"}
    command = advised(["load", "my f.csv", "delim=,", "comment=#"], wide, "(csvload sniff .*) tells how")
    status, text, _ = shell(command, wide)
    assert status == 0 and b"candidate|0|,|" in text, (command, text)
    parts = {"f.csv": b"a\n1\n", "my g.csv": b"a\n2\n"}
    for words, pattern in [
        (["load", "f.csv", "my g.csv"], "(csvload batch .*)"),
        (["convert", "f.csv,my g.csv", "header=true"], "(csvload batch .*)"),
    ]:
        assert b"rows|2\n" in shell(advised(words, parts, pattern), parts)[1], words
    name = advised(["load", "my", "g.csv"], parts, "quotes: (.*)")
    assert b"row|2\nrows|1\n" in shell(f"csvload load {name}", parts)[1], name
    typed = advised(["load", "f.csv", "types={'a': 'VARCHAR'}"], parts, "(column_types=.*)")
    assert b"column|0|VARCHAR|a\n" in shell(f"csvload load f.csv {typed}", parts)[1], typed
    written = advised(["convert", "f.csv", "to=my out.csv"], parts, "('output=.*') names")
    same(shell(f"csvload convert f.csv {written} && cat my*out.csv", parts)[1], b"a\n1\n", written)
    delim = advised(["load", "f.csv", "delim="], parts, "('delim=.')")
    assert b"row|1|Ana\n" in shell(f"csvload load h.csv {delim}", {"h.csv": ROWS})[1], delim


EMPTIED = "csvload: hint: 'g.csv' is standard output itself, which the shell emptied; output=FILE writes it when it was read\n"

NO_DATABASE = "csvload: standard output has the report, and no database; output=FILE leaves a file as it was\n"

NO_ARRAYS = "csvload: standard output has the report, and no arrays; output=FILE leaves a file as it was\n"


def check_shell_output() -> None:
    """What a shell's `>` does to a file is told, and `output` does it not."""
    files = {"g.csv": ROWS, "bad.csv": b"id,n\n1,2\nx,3\n"}
    same(shell("csvload convert g.csv > g.csv", files), (0, b"", EMPTIED), "> g.csv")
    same(shell("csvload convert g.csv > h.csv", files)[2], "", "> h.csv")
    same(shell("csvload convert g.csv 'delim=;' output=g.csv && cat g.csv", files)[1], ROWS.replace(b";", b","), "output=g.csv")
    call = "csvload convert bad.csv delim=, types=BIGINT,BIGINT to=sqlite"
    status, _, said = shell(call + " > o.db", files)
    assert status == 3 and said.endswith(NO_DATABASE), said
    said = shell(call.replace("sqlite", "npz") + " > o.npz", files)[2]
    assert said.endswith(NO_ARRAYS), said
    for other in [" | cat", " output=o.db", " > /dev/null"]:
        assert "no database" not in shell(call + other, files)[2], other


SCORES = b"# by hand\nname,note,day\nAna,\"x, y\",2024-01-01\nBo,z,2024-01-02\n"

# What is said of it.
PASTED = """csvload: csvload load scores.csv 'comment=#' delim=, 'quote="' 'escape="' header=true types=VARCHAR,VARCHAR,DATE\n"""


def check_pasted() -> None:
    """The words that fix what was found, as a shell takes them: it prints what the same load prints without them."""
    same(run(["sniff", "scores.csv", "comment=#", "explain=true"], {"scores.csv": SCORES})[2], PASTED, "scores.csv")
    for delim in [",", "|", ";", "\t"]:
        for pair in [[], ["quote='"], ["quote=\"", "escape=\\"], ["quote="], ['quote="']]:
            data = f"id{delim}name\n1{delim}Ana\n2{delim}it's\n3{delim}x\\y\n".encode()
            files = {"it's f.csv": data}
            given = [*pair, "skip=0", "nulls=,N A"]
            said = run(["sniff", "it's f.csv", *given, "explain=true"], files)[2]
            command = re.fullmatch(r"csvload: (csvload load .*)\n", said)
            assert command and not ("\t" in said), said
            same(shell(command[1], files), run(["load", "it's f.csv", *given], files), command[1])
    fixed = {"f.csv": b"id,zip\n1,00501\n"}
    said = run(["sniff", "f.csv", "sep=,", "output=-x", "dtypes=BIGINT,VARCHAR", "explain=true"], fixed)[2]
    same(said, """csvload: csvload load f.csv delim=, 'quote="' 'escape="' header=true types=BIGINT,VARCHAR\n""", "second names")
    for word in ["column_types=zip:VARCHAR", "all_varchar=true"]:
        said = run(["sniff", "f.csv", word, "explain=true"], fixed)[2]
        assert f" {word} delim=, " in said and " types=" not in said, said
        same(shell(said[len("csvload: ") :], fixed), run(["load", "f.csv", word], fixed), word)
    same(run(["sniff", "f.csv", "types=BIGINT,VARCHAR", "header=true", "explain=true"], fixed)[2].count("types="), 1, "types")
    # From standard input, and not without the explanation or of names that can't be seen.
    said = run(["sniff", "-", "explain=true"], {}, b"a\n1\n")[2]
    assert said.startswith("csvload: csvload load - delim="), said
    for words, files in [(["sniff", "f.csv", "types=BIGINT,VARCHAR"], fixed), (["sniff", "a\nb.csv", "explain=true"], {"a\nb.csv": b"a\n1\n"})]:
        same(run(words, files)[2], "", words)


def main() -> None:
    check_piped()
    check_options()
    check_other_calls()
    check_shell_output()
    check_pasted()
