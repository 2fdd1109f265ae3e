"""The lines for words that can't stand together."""

import itertools

from messages.refusals import F, refused
from messages.runs import Case, check, run, same

LACKS_SIZE = "split wants size=BYTES: size=134217728 makes parts of about 128 MiB"


def conflict(words: list[str], index: int, line: str, command: str = "load") -> Case:
    return refused([command, "f.csv", *words], "Conflict", index, line)


CONFLICTS = [
    conflict(["rejects_limit=10"], 2, "rejects_limit=10 wants store_rejects=true"),
    conflict(
        ["all_varchar=true", "types=DATE"], 3, "all_varchar=true and types=DATE can't stand together: each gives all types"
    ),
    conflict(
        ["types=DATE", "column_types=zip:DATE"],
        3,
        "column_types=zip:DATE and types=DATE can't stand together: types gives all columns their types",
    ),
    conflict(
        ["column_types=zip:DATE", "all_varchar=true"],
        3,
        "column_types=zip:DATE and all_varchar=true can't stand together: all columns are VARCHAR then",
    ),
    conflict(["nullstr=x", "nulls=NA,"], 3, "nulls=NA, and nullstr=x can't stand together: nulls takes all the texts"),
    conflict(
        ["same_header=true", "names=a,b"],
        3,
        "same_header=true and names=a,b can't stand together: given names are no header's",
        "batch",
    ),
    conflict(
        ["header=false", "same_header=true"],
        3,
        "same_header=true and header=false can't stand together: there is no header then",
        "batch",
    ),
    conflict([], 1, LACKS_SIZE, "split"),
    conflict(["delim=;", "threads=2"], 1, LACKS_SIZE, "split"),
    conflict(["delim=;", "quote=;"], 3, "delim=; and quote=; are the same character", "split"),
    conflict(["to=csv", "size=9"], 2, "split writes no CSV: convert does", "split"),
    conflict(["max_errors=5"], 2, "max_errors=5 wants ignore_errors=true or store_rejects=true"),
    conflict(["names=a,b", "types=DATE"], 3, "names gives 2 and types 1: as many of each are wanted"),
    conflict(["column_names=a,b", "dtypes=DATE"], 3, "names gives 2 and types 1: as many of each are wanted"),
    conflict(["quote=;", "sep=;"], 3, "sep=; and quote=; are the same character"),
    conflict(
        ["quote=", "escape=x", "comment=x"],
        3,
        "escape=x and quote= can't stand together: an escape wants a quote",
    ),
    conflict(["quote=;", "delim=;"], 3, "delim=; and quote=; are the same character"),
    conflict(["escape=;", "delim=;"], 3, "delim=; and escape=; are the same character"),
    conflict(["comment=,", "delim=,"], 3, "comment=, and delim=, are the same character"),
    conflict(["quote=\t", "delim=\\t"], 3, r"delim=\t and quote=\t are the same character"),
    conflict(["comment='", "quote='"], 3, "comment=' and quote=' are the same character"),
    conflict(["comment=!", "escape=!"], 3, "comment=! and escape=! are the same character"),
    conflict(["escape=!", "quote="], 3, "escape=! and quote= can't stand together: an escape wants a quote"),
    conflict(
        ["escape=!", "delim='", 'comment="'],
        4,
        "escape=! wants a quote, and delim=' and comment=\" leave none to be found: give it by quote=",
    ),
    conflict(["table=orders"], 2, "table=orders wants to=sqlite", "convert"),
    conflict(["to=sqlite"], 2, "load writes no database: convert and batch do"),
    conflict(["to=npz"], 2, "summary writes no arrays: convert and batch do", "summary"),
    conflict(["to=npz", "table=orders"], 3, "table=orders wants to=sqlite", "convert"),
    conflict(["to=csv"], 2, "load writes no CSV: convert does"),
    conflict(["to=npz"], 2, "profile writes no other format than its CSV", "profile"),
    conflict(["table=orders"], 2, "table=orders wants to=sqlite", "profile"),
    conflict(["max_errors=1", "rejects_limit=5"], 3, "rejects_limit=5 wants store_rejects=true", "profile"),
    conflict(["to=csv"], 2, "rejects writes no other format than its CSV", "rejects"),
    conflict(["to=csv"], 2, "batch writes no CSV: it prints its report, a database with to=sqlite, or arrays with to=npz", "batch"),
]

# Words that can't stand together and what is said of them, in the order in which conflicts are looked for.
CLASHES = {
    "load": {
        "rejects_limit=5": "rejects_limit=5 wants store_rejects=true",
        "all_varchar=true types=DATE": "all_varchar=true and types=DATE can't stand together: each gives all types",
        "names=a,b types=DATE": "names gives 2 and types 1: as many of each are wanted",
        "delim=; quote=;": "delim=; and quote=; are the same character",
        "delim=; escape=;": "delim=; and escape=; are the same character",
        "escape=e quote=": "escape=e and quote= can't stand together: an escape wants a quote",
        "comment=; delim=;": "comment=; and delim=; are the same character",
        "comment=' quote='": "comment=' and quote=' are the same character",
        "comment=e escape=e": "comment=e and escape=e are the same character",
        "escape=e delim=' comment=\"": "escape=e wants a quote, and delim=' and comment=\" leave none to be found: give it by quote=",
        "table=t": "table=t wants to=sqlite",
        "to=csv": "load writes no CSV: convert does",
        "column_types=a:DATE types=DATE": "column_types=a:DATE and types=DATE can't stand together: types gives all columns their types",
        "column_types=a:DATE all_varchar=true": "column_types=a:DATE and all_varchar=true can't stand together: all columns are VARCHAR then",
        "nulls=NA nullstr=x": "nulls=NA and nullstr=x can't stand together: nulls takes all the texts",
        "max_errors=1": "max_errors=1 wants ignore_errors=true or store_rejects=true",
    },
    "batch": {
        "names=a,b types=DATE": "names gives 2 and types 1: as many of each are wanted",
        "table=t": "table=t wants to=sqlite",
        "to=csv": "batch writes no CSV: it prints its report, a database with to=sqlite, or arrays with to=npz",
        "nulls=NA nullstr=x": "nulls=NA and nullstr=x can't stand together: nulls takes all the texts",
        "same_header=true names=a,b": "same_header=true and names=a,b can't stand together: given names are no header's",
        "same_header=true header=false": "same_header=true and header=false can't stand together: there is no header then",
    },
}


def check_first_conflict() -> None:
    """Of two conflicts the one is told for which the words are refused, in whatever order the words stand."""
    for command, clashes in CLASHES.items():
        for pair in itertools.combinations(clashes, 2):
            words = list(dict.fromkeys(" ".join(pair).split()))
            if len({word.split("=")[0] for word in words}) < len(words):
                continue
            # Words of two conflicts may make a third one.
            first = next(clash for clash in clashes if set(clash.split()) <= set(words))
            for given in (words, words[::-1]):
                status, text, said = run([command, "f.csv", *given], F)
                same((status, said), (1, f"csvload: {clashes[first]}\n"), given)
                word = text.decode().rstrip().split("|")[-1]
                assert word in first.split(), f"{given}: {word} is refused, and {first} told"


def main() -> None:
    check(CONFLICTS)
    check_first_conflict()
