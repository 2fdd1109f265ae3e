#!/usr/bin/env python3
"""Runs the program and looks at what it says to a person: a line for each trouble, and how far a long reading has come.

CSVLOAD names the program. Beside each line stand the status and the text on standard output. What is looked at stands by
subject in the folder messages.
"""

import sys

sys.dont_write_bytecode = True

from messages import advice, conflicts, files, hints, packed, readings, refusals, row_faults  # noqa: E402 (before them nothing may be written there)


def main() -> None:
    for part in (refusals, conflicts, row_faults, packed, files, hints, advice, readings):
        part.main()
    print(".ci/program_messages.py: each trouble has its line, a long reading is shown, and a summary has its taps")


if __name__ == "__main__":
    main()
