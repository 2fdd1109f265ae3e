"""What documents show in Python, as tests in a folder as it is after what they show for a shell."""

from __future__ import annotations

import atexit
import doctest
import functools
import os
import pathlib
import shutil
import subprocess
import tempfile
import unittest
from collections.abc import Iterable

EXAMPLES = pathlib.Path(__file__).resolve().parent.parent / "examples"


@functools.lru_cache(None)
def folder() -> str:
    """A copy of the examples' files, and the archive that is made of one."""
    made = tempfile.mkdtemp()
    atexit.register(shutil.rmtree, made)
    for file in EXAMPLES.glob("*.csv"):
        shutil.copy(file, made)
    subprocess.run([os.environ["CSVLOAD"], "convert", "orders.csv", "to=npz", "output=orders.npz"], cwd=made, check=True, timeout=60)
    return made


def stand_there(_: doctest.DocTest) -> None:
    os.chdir(folder())


def tests_of(modules: Iterable[object], lacks: Iterable[str] = ()) -> list[unittest.TestCase]:
    """What the modules and examples/README.md show, without the lines in which one of these texts stands."""
    shown = [test for module in modules for test in doctest.DocTestFinder().find(module)]
    text = (EXAMPLES / "README.md").read_text()
    shown.append(doctest.DocTestParser().get_doctest(text, {}, "README.md", "examples/README.md", 0))
    for test in shown:
        test.examples = [it for it in test.examples if not any(lack in it.source for lack in lacks)]
    return [doctest.DocTestCase(test, setUp=stand_there) for test in shown if test.examples]
