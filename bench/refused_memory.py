#!/usr/bin/env python3
"""Refuses the program's n-th allocation, for n from 1 until a run asks for fewer, alone and with all later ones.

refused_memory.py CSVLOAD [--most N] [--workers]

Each run has to end with the status and the text of a run with memory, or with status 6 and nothing written. A shared
library that is built here (by gcc) and preloaded does the refusing; threads too ask it for memory. With --workers loads
are tried with four of them alone.
"""

import argparse
import os
import pathlib
import subprocess
import tempfile

REFUSE = r"""
#define _GNU_SOURCE
#include <dlfcn.h>
#include <errno.h>
#include <stdatomic.h>
#include <stdlib.h>
#include <string.h>

static void *(*next_malloc)(size_t);
static void *(*next_calloc)(size_t, size_t);
static void *(*next_realloc)(void *, size_t);
static int (*next_memalign)(void **, size_t, size_t);
static atomic_long asked;
static long refused, later, begun;
static char early[65536];
static size_t early_used;

__attribute__((constructor)) static void begin(void) {
    next_malloc = dlsym(RTLD_NEXT, "malloc");
    next_calloc = dlsym(RTLD_NEXT, "calloc");
    next_realloc = dlsym(RTLD_NEXT, "realloc");
    next_memalign = dlsym(RTLD_NEXT, "posix_memalign");
    const char *number = getenv("REFUSED_ALLOCATION");
    refused = number ? atol(number) : 0;
    later = getenv("REFUSED_LATER") != NULL;
    begun = 1;
}

static int is_refused(void) {
    if (!begun) return 0;
    long number = atomic_fetch_add(&asked, 1) + 1;
    if (number == refused || (later && number > refused)) {
        errno = ENOMEM;
        return 1;
    }
    return 0;
}

/* What asks before the library has begun: dlsym itself. */
static void *early_piece(size_t size) {
    size = (size + 15) & ~(size_t)15;
    if (early_used + size > sizeof early) return NULL;
    void *piece = early + early_used;
    early_used += size;
    return piece;
}

void *malloc(size_t size) {
    if (is_refused()) return NULL;
    return next_malloc ? next_malloc(size) : early_piece(size);
}

void *calloc(size_t count, size_t size) {
    if (is_refused()) return NULL;
    return next_calloc ? next_calloc(count, size) : early_piece(count * size);
}

void *realloc(void *piece, size_t size) {
    return is_refused() ? NULL : next_realloc(piece, size);
}

int posix_memalign(void **piece, size_t alignment, size_t size) {
    return is_refused() ? ENOMEM : next_memalign(piece, alignment, size);
}
"""

FAULTY = b"1,a\nx,b\n3,c\n4\n5,\"d\"\"e\"\n"

# What each run is given: a load with rejects, a load that ends with its first error, a summary, what is found, a made file,
# a table as CSV, and two files; then the rejects as CSV, a database, what explains what is found, parts, two files of one header, types
# by name, several texts for null, a bound on faults that is passed, and stages.
RUNS = [
    ["load", "FILE", "types=BIGINT,VARCHAR", "header=false", "store_rejects=true", "range_size=4"],
    ["load", "FILE", "types=BIGINT,VARCHAR", "header=false", "range_size=4"],
    ["summary", "FILE", "ignore_errors=true", "range_size=4", "stats=true"],
    ["sniff", "FILE"],
    ["make", "7", "rows=20"],
    ["convert", "FILE", "ignore_errors=true", "range_size=4"],
    ["batch", "FILE,FILE", "types=BIGINT,VARCHAR", "header=false", "store_rejects=true", "range_size=4"],
    ["rejects", "FILE", "types=BIGINT,VARCHAR", "header=false", "range_size=4"],
    ["convert", "FILE", "to=sqlite", "types=BIGINT,VARCHAR", "header=false", "store_rejects=true", "range_size=4"],
    ["convert", "FILE", "to=npz", "types=BIGINT,VARCHAR", "header=false", "store_rejects=true", "range_size=4"],
    ["profile", "FILE", "types=BIGINT,VARCHAR", "header=false", "range_size=4"],
    ["sniff", "FILE", "explain=true"],
    ["split", "FILE", "size=4"],
    ["batch", "FILE,FILE", "same_header=true", "header=true", "ignore_errors=true", "range_size=4"],
    ["load", "FILE", "column_types=column0:BIGINT", "header=false", "ignore_errors=true", "range_size=4"],
    ["load", "FILE", "nulls=,NA,x", "header=false", "ignore_errors=true", "range_size=4"],
    ["load", "FILE", "types=BIGINT,VARCHAR", "header=false", "ignore_errors=true", "max_errors=1", "range_size=4"],
    ["load", "FILE", "types=BIGINT,VARCHAR", "header=false", "store_rejects=true", "range_size=4", "pipeline=true"],
]


def run(program: str, words: list[str], more: dict[str, str]) -> tuple[int, bytes]:
    done = subprocess.run([program, *words], env={**os.environ, **more}, stdin=subprocess.DEVNULL, capture_output=True, timeout=60)
    return done.returncode, done.stdout


def refuse_each(program: str, words: list[str], library: str, later: bool, most: int) -> tuple[int, int]:
    """How many runs had the text, and how many status 6, up to the first n that no allocation reaches."""
    wanted = run(program, words, {})
    whole = short = 0
    for number in range(1, most + 1):
        more = {"LD_PRELOAD": library, "REFUSED_ALLOCATION": str(number)}
        if later:
            more["REFUSED_LATER"] = "1"
        got = run(program, words, more)
        if got == (6, b""):
            short += 1
        elif got == wanted:
            whole += 1
            if later and short:
                break
        else:
            raise SystemExit(f"{' '.join(words)}: allocation {number}{' and all later' if later else ''}: {got}, not {wanted}")
    return whole, short


def crews_of(command: str, workers: bool) -> list[list[str]]:
    if command in ("make", "sniff", "split"):
        return [[]]
    return [["threads=4"]] if workers else [["threads=1"], ["threads=4"]]


def main() -> None:
    parser = argparse.ArgumentParser()
    parser.add_argument("csvload")
    parser.add_argument("--most", type=int, default=400, help="the largest n")
    parser.add_argument("--workers", action="store_true", help="loads with four workers, and none with one")
    options = parser.parse_args()
    with tempfile.TemporaryDirectory() as folder:
        source, library = pathlib.Path(folder) / "refuse.c", pathlib.Path(folder) / "refuse.so"
        source.write_text(REFUSE)
        subprocess.run(["gcc", "-shared", "-fPIC", "-O2", "-o", library, source, "-ldl"], check=True)
        file = pathlib.Path(folder) / "f.csv"
        file.write_bytes(FAULTY)
        print("runs with the whole text, and with status 6 and nothing written")
        for words in RUNS:
            for threads in crews_of(words[0], options.workers):
                given = [word.replace("FILE", str(file)) for word in words] + threads
                for later in (False, True):
                    whole, short = refuse_each(options.csvload, given, str(library), later, options.most)
                    print(f"{whole:5} {short:5}  {'all later' if later else 'alone':9}  {' '.join(words + threads)}")


if __name__ == "__main__":
    main()
