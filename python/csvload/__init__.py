"""Reads CSV files by the program csvload, each cell as it was found.

`read` gives the columns as lists of Python's own values, `frame` a pandas DataFrame; both the types and the rejects besides.
Options are the program's own, as keywords:

    >>> import csvload
    >>> orders = csvload.read("orders.csv", column_types={"quantity": "VARCHAR"})
    >>> orders.types["quantity"], orders.columns["quantity"]
    ('VARCHAR', ['2', '12', '1', '40'])
    >>> orders.columns["shipped"][2] is None
    True

A large file in parts, or many files, as one lazy DataFrame of Dask are read by `csvload.dask`, which is imported by its name.

The program is `csvload` on PATH, or the one that the environment variable CSVLOAD names.
"""

from .frames import frame
from .reading import Cell, Table, read
from .running import Option, Refused

__all__ = ["Cell", "Option", "Refused", "Table", "frame", "read"]
