"""A file as lists of Python's own values."""

import os
from collections.abc import Callable
from dataclasses import dataclass
from datetime import date, datetime, time, timedelta
from typing import Any, Union

from .arrays import Archive, Column, archive_of, numbers, slices
from .running import Option, name_of, words_of

Cell = Union[None, bool, int, date, time, datetime, str]
Reject = dict[str, Union[int, str, bytes]]

EPOCH, MICROSECOND = datetime(1970, 1, 1), timedelta(microseconds=1)
# What stands for a null day or time.
NOT_A_TIME = -(2**63)


@dataclass(frozen=True)
class Table:
    """What a file has.

    `types` are the names of the columns with their types, in order; `columns` the cells of each, None where they are null;
    `rejects` the faults, where they are stored, as dicts by the names of DuckDB's `reject_errors`. A text of a reject that
    isn't UTF-8 is bytes.
    """

    types: dict[str, str]
    columns: dict[str, list[Cell]]
    rejects: list[Reject]


def read(file: Union[str, os.PathLike[str]], **options: Option) -> Table:
    """Reads a file, `-` being standard input.

    A truth value among the options stands for `true` or `false`, a list for its parts with commas between them, a dict for
    pairs. The first faulty row raises Refused, unless `ignore_errors` or `store_rejects` is true; so does all else that the
    program ends with another status than 0 for. Names that differ in ASCII case alone get a suffix, as in its archives.

    >>> import csvload
    >>> scores = csvload.read("scores.csv", comment="#", types=["VARCHAR", "BIGINT", "DATE"], store_rejects=True)
    >>> scores.columns["score"]
    [31, 12]
    >>> [(reject["line"], reject["error_type"], reject["csv_line"]) for reject in scores.rejects]
    [(4, 'CAST', 'Bo,three,2024-05-31')]
    """
    made = Table({}, {}, [])
    with archive_of(["convert", name_of(file), *words_of(options)]) as archive:
        for name, column in archive.columns():
            made.types[name], made.columns[name] = column.kind, cells_of(column)
        made.rejects.extend(rejects_of(archive))
    return made


def texts_of(column: Column) -> list[str]:
    """The texts of a column, nulls being empty."""
    if not column.texts.isascii():
        return [text.decode() for text in slices(column.texts, column.values)]
    whole, ends = column.texts.decode("ascii"), numbers(column.values)
    return [whole[start:end] for start, end in zip([0, *ends], ends)]


def times_of(column: Column) -> list[int]:
    """The numbers of days or times, those of nulls being 0."""
    times = numbers(column.values)
    return times if column.nulls is None else [0 if it == NOT_A_TIME else it for it in times]


def days_of(column: Column) -> list[date]:
    first = EPOCH.toordinal()
    return [date.fromordinal(first + number) for number in times_of(column)]


def moments_of(column: Column) -> list[datetime]:
    return [EPOCH + number * MICROSECOND for number in times_of(column)]


CELLS: dict[str, Callable[[Column], list[Any]]] = {
    "BOOLEAN": lambda column: memoryview(column.values).cast("?").tolist(),
    "BIGINT": lambda column: numbers(column.values),
    "DATE": days_of,
    "TIME": lambda column: [moment.time() for moment in moments_of(column)],
    "TIMESTAMP": moments_of,
    "VARCHAR": texts_of,
}


def cells_of(column: Column) -> list[Cell]:
    """The cells of a column."""
    cells = CELLS[column.kind](column)
    place = column.nulls.find(1) if column.nulls else -1
    while place >= 0:
        cells[place] = None
        place = column.nulls.find(1, place + 1)
    return cells


def kept(text: bytes) -> Union[str, bytes]:
    """A text of a reject: its bytes, where it isn't UTF-8."""
    try:
        return text.decode()
    except UnicodeDecodeError:
        return text


def reject_columns(archive: Archive) -> dict[str, list[Union[int, str, bytes]]]:
    """The stored rejects by their columns; none where they aren't stored."""
    columns = dict(archive.rejects())
    return {
        name: [kept(text) for text in slices(it.texts, it.values)] if it.kind == "VARCHAR" else numbers(it.values)
        for name, it in columns.items()
    }


def rejects_of(archive: Archive) -> list[Reject]:
    """The stored rejects."""
    columns = reject_columns(archive)
    return [dict(zip(columns, reject)) for reject in zip(*columns.values())]
