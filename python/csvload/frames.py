"""A file as a DataFrame of pandas, which is loaded where one is asked for."""

import os
from datetime import datetime, time
from typing import TYPE_CHECKING, Any, Optional, Union

from .arrays import Archive, Column, archive_of
from .reading import rejects_of, texts_of
from .running import Option, name_of, words_of

if TYPE_CHECKING:
    import pandas

# Days and times stay Python's objects, since pandas' own have no years before 1677 and behind 2262. Those of the day are moments
# of the first one.
MOMENTS = {"DATE": "<M8[D]", "TIME": "<M8[us]", "TIMESTAMP": "<M8[us]"}


def frame(file: Union[str, os.PathLike[str]], **options: Option) -> "pandas.DataFrame":
    """Reads a file as `read` does into a DataFrame: numbers as Int64, truth values as boolean, texts as string, dates and times
    as Python's objects. The rejects are in `attrs["rejects"]`.

    >>> import csvload
    >>> csvload.frame("orders.csv").dtypes["quantity"]
    Int64Dtype()
    """
    with archive_of(["convert", name_of(file), *words_of(options)]) as archive:
        made = frame_of(archive)
        made.attrs["rejects"] = rejects_of(archive)
    return made


def frame_of(archive: Archive) -> "pandas.DataFrame":
    """The rows of an archive as a DataFrame."""
    import pandas

    arrays = {name: array_of(column) for name, column in archive.columns()}
    index = pandas.RangeIndex(len(next(iter(arrays.values()))))
    # Pandas would make days and times of objects its own, but in a series of objects.
    columns = {
        name: pandas.Series(cells, index, object, copy=False) if cells.dtype == object else cells for name, cells in arrays.items()
    }
    return pandas.DataFrame(columns, index, copy=False)


def clock_of(moment: Optional[datetime]) -> Optional[time]:
    """The time of day of a moment, if it is one."""
    return moment and moment.time()


def array_of(column: Column) -> Any:
    """The cells of a column in pandas' types that tell a null from a value, or as objects. Numbers and truth values aren't copied."""
    import numpy
    import pandas

    def plain(data: bytearray, kind: str) -> Any:
        return numpy.frombuffer(data, kind)

    if column.kind in MOMENTS:
        cells = plain(column.values, MOMENTS[column.kind]).astype(object)
        return numpy.frompyfunc(clock_of, 1, 1)(cells) if column.kind == "TIME" else cells
    if column.kind == "VARCHAR":
        cells = numpy.empty(len(column.values) // 8, object)
        cells[:] = texts_of(column)
        if column.nulls is not None:
            cells[plain(column.nulls, "?")] = pandas.NA
        return pandas.arrays.StringArray(cells)
    made, kind = (pandas.arrays.IntegerArray, "<i8") if column.kind == "BIGINT" else (pandas.arrays.BooleanArray, "?")
    values = plain(column.values, kind)
    return made(values, numpy.zeros(len(values), "?") if column.nulls is None else plain(column.nulls, "?"))
