"""What is found in a file, as words under which others are read."""

import re
from collections.abc import Mapping
from typing import NamedTuple

from .running import Option, run, words_of

# Options for which the words that are found stand, besides those of the same names.
REPLACED = {"sep", "delimiter", "dtypes", "column_types", "all_varchar"}
NAMES = ("names=", "column_names=")
# What the report shows in place of another character.
MEANT = {"n": "\n", "r": "\r", "t": "\t"}


class Found(NamedTuple):
    """What all files are read by: the first one's name, the words, a text of its header alone, and whether others have to begin
    with that header."""

    first: str
    words: list[str]
    head: bytes
    same_header: bool


def found_in(file: str, same_header: bool, options: Mapping[str, Option]) -> Found:
    """What is found in the first file, under the options that are given."""
    given = words_of(options)
    report = run(["sniff", file, "explain=true", *given]).decode("utf-8", "replace")
    lines = [[text_of(part) for part in parts_of(line)] for line in report.split("\n")]
    columns = [line for line in lines if line[0] == "column"]
    words = next(line[1:] for line in lines if line[0] == "words")
    # Where some types are given by name, or all columns are texts, they aren't among the words.
    if not any(word.startswith("types=") for word in words):
        words.append("types=" + ",".join(kind for _, _, kind, _ in columns))
    fixed = {word.partition("=")[0] for word in words} | REPLACED
    words += [word for word in given if word.partition("=")[0] not in fixed]
    has_header = "header=true" in words
    names_are_found = not any(word.startswith(NAMES) for word in words)
    # Where names are given the header only has to be there.
    names = [name for *_, name in columns] if names_are_found else ["x"]
    head = header_of(names, dict(word.split("=", 1) for word in words)) if has_header else b""
    return Found(file, words, head, same_header and has_header and names_are_found)


def header_of(names: list[str], words: Mapping[str, str]) -> bytes:
    """A text of a header alone, from which these names are found under the words."""
    quote, escape = words["quote"], words["escape"]

    def written(name: str) -> str:
        # Without an escape a name with a quote came from a field that wasn't quoted, and so can stand in one.
        if not quote or not escape and quote in name:
            return name
        return quote + re.sub(f"([{re.escape(quote + escape)}])", lambda found: escape + found[1], name) + quote

    # Behind a mark a name that begins like one is kept.
    skipped = "\n" * int(words.get("skip", "0"))
    return f"\ufeff{skipped}{words['delim'].join(map(written, names))}\n".encode()


def parts_of(line: str) -> list[str]:
    """The parts of a line of the report, between bars that no backslash stands before."""
    return re.findall(r"\|((?:[^\\|]|\\.)*)", f"|{line}")


def text_of(shown: str) -> str:
    """The text that a part shows."""
    return re.sub(r"\\(?:x(..)|(.))", lambda found: chr(int(found[1], 16)) if found[1] else MEANT.get(found[2], found[2]), shown)
