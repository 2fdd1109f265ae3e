"""Large files, and many, as one lazy DataFrame of Dask.

One file is cut into parts by the program's `split`, each of which is a partition; of several files each is one. All are read under
what is found in the first one, as by the program's `batch`: its dialect, header, names and types.

    >>> import csvload.dask
    >>> orders = csvload.dask.read("orders.csv", blocksize=100)
    >>> orders.npartitions, orders.dtypes["quantity"]
    (3, Int64Dtype())
    >>> orders.quantity.sum().compute(scheduler="sync")
    55

The first file is looked at by this call, and where it is the only one read to its end. Each worker needs this package, the program,
and the files under the same names. The program scans by one thread, since Dask shares the work among its own; `threads` says
otherwise.
"""

import glob
import os
import platform
import re
from collections.abc import Callable, Iterator, Sequence
from contextlib import contextmanager
from typing import BinaryIO, Optional, Union

try:
    import dask.dataframe
    import pandas
    from dask.base import tokenize
    from dask.dataframe.io.csv import AUTO_BLOCKSIZE
    from dask.utils import natural_sort_key, parse_bytes
except ImportError as error:
    lack = "csvload.dask takes Dask: pip install './python[dask]', or Debian's python3-distributed and python3-pandas"
    raise ImportError(lack) from error

from .arrays import Archive, archive_of
from .finding import Found, found_in
from .frames import frame_of
from .reading import reject_columns
from .running import Option, Refused
from .splitting import Part, Split, check_unchanged, pieces_of, split_of

Paths = Union[str, os.PathLike[str], Sequence[Union[str, os.PathLike[str]]]]
Blocksize = Union[str, int, None]
Load = Callable[..., pandas.DataFrame]

# The columns of rejects. A text that isn't UTF-8 is bytes.
REJECTS = {
    **dict.fromkeys(["scan_id", "file_id", "line", "line_byte_position", "byte_position", "column_idx"], "int64"),
    **dict.fromkeys(["column_name", "error_type", "csv_line", "error_message"], "object"),
}
# A file that can't be read, and refused memory: these hang on the machine.
OF_MACHINE = {2, 6}


def read(paths: Paths, same_header: bool = True, blocksize: Blocksize = "default", **options: Option) -> dask.dataframe.DataFrame:
    """The rows of all files as a lazy DataFrame, with the types that `csvload.frame` gives the first one. Each partition's index
    begins at 0, as that of Dask's own `read_csv` does.

    The paths are a name, a pattern, or a list of names; a pattern's files come in the order of the numbers in their names. One
    file is cut where rows begin, into parts of about `blocksize` bytes, which is written as in Dask's `read_csv` and has its
    default; None leaves it whole, as several files are. The options are those of `csvload.read`; `max_errors` and `rejects_limit`
    bound the faults of each partition. What keeps the first file from being looked at raises Refused here, and a later file that
    isn't here FileNotFoundError. All else raises Refused where the result is computed: a faulty row, unless `ignore_errors` or
    `store_rejects` is true, and a later file that doesn't begin with the first one's header, unless `same_header` is false. Of
    several such partitions the one is told that fails first in time. Of a file that isn't there on a worker the machine is told
    too, and of an absent program, which raises FileNotFoundError. A file that was changed since it was cut raises OSError.
    """
    return lazy("csvload", (rows, rows_of_part), paths, same_header, blocksize, options)


def rejects(paths: Paths, same_header: bool = True, blocksize: Blocksize = "default", **options: Option) -> dask.dataframe.DataFrame:
    """The faults of all files as a lazy DataFrame of DuckDB's ten columns of `reject_errors`: `file_id` is the file's place, from 0,
    and lines and positions are the file's own. The arguments are those of `read`.

    >>> import csvload.dask
    >>> faults = csvload.dask.rejects("scores.csv", blocksize=40, comment="#", types=["VARCHAR", "BIGINT", "DATE"])
    >>> faults[["file_id", "line", "csv_line"]].compute(scheduler="sync").values.tolist()
    [[0, 4, 'Bo,three,2024-05-31']]
    """
    return lazy("csvload-rejects", (faults, faults_of_part), paths, same_header, blocksize, {**options, "store_rejects": True})


def lazy(
    label: str, loads: tuple[Load, Load], paths: Paths, same_header: bool, blocksize: Blocksize, options: dict[str, Option]
) -> dask.dataframe.DataFrame:
    """A DataFrame with a task for each file, or for each part of the only one; the loads are of a file and of a part."""
    files = files_of(paths)
    of_file, of_part = loads
    options = {"threads": 1, **options}
    if len(files) == 1 and blocksize is not None:
        return of_parts(label, of_part, *split_of(files[0], size_of(blocksize), options))
    found = found_in(files[0], same_header, options)
    # Tasks of a file that was changed have other names: Dask takes those of one name for the same.
    changes = tokenize([(state.st_size, state.st_mtime_ns) for state in map(os.stat, files)])
    meta = of_file("-", 0, found)
    return dask.dataframe.from_map(of_file, files, range(len(files)), found=found, meta=meta, label=f"{label}-{changes}")


def of_parts(label: str, load: Load, split: Split, parts: list[Part]) -> dask.dataframe.DataFrame:
    """A DataFrame with a task for each part."""
    meta = load(Part(split.head, 0, split.lines + 1), split)
    return dask.dataframe.from_map(load, parts, split=split, meta=meta, label=f"{label}-{tokenize(split.state)}")


def size_of(blocksize: Union[str, int]) -> int:
    """A size in bytes as Dask's `read_csv` takes it."""
    return AUTO_BLOCKSIZE if blocksize == "default" else parse_bytes(blocksize)


def rows(file: str, place: int, found: Found) -> pandas.DataFrame:
    """The rows of a file."""
    with loaded(file, place, found) as archive:
        return frame_of(archive)


def rows_of_part(part: Part, split: Split) -> pandas.DataFrame:
    """The rows of a part."""
    with part_loaded(part, split) as archive:
        return frame_of(archive)


def faults(file: str, place: int, found: Found) -> pandas.DataFrame:
    """The rejects of a file."""
    with loaded(file, place, found) as archive:
        frame = faults_of(archive)
    frame["file_id"] = place
    return frame


def faults_of_part(part: Part, split: Split) -> pandas.DataFrame:
    """The rejects of a part, with the file's lines and positions."""
    with part_loaded(part, split) as archive:
        frame = faults_of(archive)
    frame["line"] += lines_before(part, split)
    frame[["line_byte_position", "byte_position"]] += part.byte - split.head
    return frame


def faults_of(archive: Archive) -> pandas.DataFrame:
    """The rejects of an archive."""
    return pandas.DataFrame(reject_columns(archive), columns=list(REJECTS)).astype(REJECTS)


@contextmanager
def loaded(file: str, place: int, found: Found) -> Iterator[Archive]:
    """The archive of a file, while it is read. `-` has the first file's header alone; a later file is the second of a batch behind
    it, so that names and refusals are those of the program."""
    command = ["batch", f"-,{file}"] + ["same_header=true"] * found.same_header if place else ["convert", file]
    try:
        with archive_of([*command, *found.words], [found.head], worker_folder()) as archive:
            yield archive
    except Refused as refused:
        text = refused.text.replace("the header of standard input", f"the header of '{found.first}'")
        raise of_machine(refused.status, text, file) from None


@contextmanager
def part_loaded(part: Part, split: Split) -> Iterator[Archive]:
    """The archive of a part, while it is read: the head and the part are a file of their own."""
    with opened(split.file) as source:
        check_unchanged(source, split)
        try:
            with archive_of(["convert", "-", *split.words], pieces_of(source, part, split), worker_folder()) as archive:
                check_unchanged(source, split)
                yield archive
        except Refused as refused:
            check_unchanged(source, split)
            raise of_machine(refused.status, placed(refused.text, part, split), split.file) from None


def opened(file: str) -> BinaryIO:
    """A file to be read."""
    try:
        return open(file, "rb")
    except OSError as error:
        why = "isn't there" if isinstance(error, FileNotFoundError) else f"can't be read: {error.strerror}"
        raise of_machine(2, f"csvload: '{file}' {why}", file) from None


def placed(text: str, part: Part, split: Split) -> str:
    """What was told of a part, with the file's name and line."""
    text = re.sub(r"^csvload: -:(\d+):", lambda found: f"csvload: {split.file}:{int(found[1]) + lines_before(part, split)}:", text)
    return text.replace("standard input", f"the part of '{split.file}' from line {part.line} on")


def lines_before(part: Part, split: Split) -> int:
    """How many more lines stand before a part in the file than in the text that is loaded."""
    return part.line - 1 - split.lines


def of_machine(status: int, text: str, file: str) -> Refused:
    """A refusal, with the machine where it hangs on that."""
    if status in OF_MACHINE or not text:
        text = f"{text or f'csvload: {file}: status {status}'} on {platform.node()}"
    return Refused(status, text)


def worker_folder() -> Optional[str]:
    """The worker's folder, which Dask removes behind a worker that was killed; none where there is no worker."""
    try:
        from distributed import get_worker

        return get_worker().local_directory
    except (ImportError, ValueError):
        return None


def files_of(paths: Paths) -> list[str]:
    """The whole names of the files, since a worker has another folder."""
    if isinstance(paths, (str, os.PathLike)):
        # What fits no file is a name.
        paths = sorted(glob.glob(os.fspath(paths)), key=natural_sort_key) or [paths]
    files = [os.path.abspath(path) for path in paths]
    if not files:
        raise ValueError("there are no files")
    for file in files:
        # The program's batch cuts there.
        if "," in file:
            raise ValueError(f"a file's name can't have a comma here: {file!r}")
    return files
