#!/usr/bin/env python3
"""Changes bytes of small files, and compares what one range on one thread gives with what small ranges on many threads give.

fuzz.py CSVLOAD [--runs N] [--seed S]

A run is a pair of calls of the program, with the same file and the same words but for `range_size` and `threads`; status
and text have to be the same, byte for byte.
"""

import argparse
import pathlib
import random
import subprocess
import tempfile

TOP = pathlib.Path(__file__).resolve().parents[1]

SPECIAL = [b",", b";", b"|", b"\t", b'"', b"'", b"\\", b"\n", b"\r", b"\r\n", b"#", b" ", b"\x00", b"\xef\xbb\xbf", b"\xc3\x28", b'""', b"1", b"a", b""]

SEEDS = [
    b'id,name,joined\r\n1,"Ruiz, Ana",2023-04-01\r\n2,"O\'Neil ""Bo""",2023-04-02\r\n3,Li,\r\n',
    b'1,"x\np,qr\nz"\n2,y\n',
    b'# made by hand, "x\na,b\n1,2\n#3,4\n5,6\n',
    b"x,5\"y\n1,2\n\"\"\"\",\n'a;b',c\n",
    b"a\\\"b,\"c\\\"d\"\r1,2\r\n",
]

COMMANDS = [["load"], ["load"], ["summary"], ["convert"], ["convert", "to=sqlite"], ["convert", "to=npz"], ["profile"], ["rejects"]]

WORDS = [
    ["header=false"],
    ["header=true"],
    ["delim=,", 'quote="', 'escape="'],
    ["delim=,", "quote='", "escape=\\"],
    ["quote="],
    ["comment=#"],
    ["skip=1"],
    ["null_padding=true"],
    ["all_varchar=true"],
    ["types=BIGINT,VARCHAR"],
    ["max_line_size=9"],
    ["sample_size=2"],
    ["nullstr=a", "allow_quoted_nulls=false"],
    ["nulls=a,,1"],
    ["store_rejects=true"],
    ["store_rejects=true", "rejects_limit=2"],
    ["ignore_errors=true"],
]


def changed(random_source: random.Random, data: bytes) -> bytes:
    for _ in range(random_source.randrange(1, 6)):
        at = random_source.randrange(len(data) + 1)
        to = min(len(data), at + random_source.randrange(4))
        piece = random_source.choice(SPECIAL)
        if random_source.random() < 0.15:
            start = random_source.randrange(len(data) + 1)
            piece = data[start : start + random_source.randrange(40)]
        data = data[:at] + piece + data[to:]
    return data


def words_for(random_source: random.Random) -> list[str]:
    words: dict[str, str] = {}
    for _ in range(random_source.randrange(4)):
        for word in random_source.choice(WORDS):
            words.setdefault(word.split("=")[0], word)
    return list(words.values())


def run(program: str, words: list[str]) -> tuple[int, bytes]:
    done = subprocess.run([program, *words], stdin=subprocess.DEVNULL, stdout=subprocess.PIPE, stderr=subprocess.DEVNULL, timeout=60)
    return done.returncode, done.stdout


def main() -> None:
    parser = argparse.ArgumentParser()
    parser.add_argument("csvload")
    parser.add_argument("--runs", type=int, default=100_000)
    parser.add_argument("--seed", type=int, default=1)
    options = parser.parse_args()
    random_source = random.Random(options.seed)
    seeds = SEEDS + [path.read_bytes() for path in sorted((TOP / "examples").glob("*.csv"))]
    statuses: dict[int, int] = {}
    with tempfile.TemporaryDirectory() as folder:
        file = pathlib.Path(folder) / "f.csv"
        for number in range(options.runs):
            data = changed(random_source, random_source.choice(seeds))
            file.write_bytes(data)
            command, *fixed = random_source.choice(COMMANDS)
            words = [command, str(file), *fixed, *words_for(random_source)]
            whole = run(options.csvload, [*words, "threads=1", "range_size=67108864"])
            cut = [f"threads={random_source.choice([1, 2, 3, 8])}", f"range_size={random_source.randrange(1, 24)}"]
            parts = run(options.csvload, [*words, *cut])
            if whole != parts:
                raise SystemExit(f"run {number}: {words[2:]} {cut} on {data!r}:\n{whole}\n{parts}")
            statuses[whole[0]] = statuses.get(whole[0], 0) + 1
    print(f"{options.runs} runs with seed {options.seed}, none that differs; by status: {dict(sorted(statuses.items()))}")


if __name__ == "__main__":
    main()
