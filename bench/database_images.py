#!/usr/bin/env python3
"""The databases that crates/part_tests makes, by another program: database_images.py [FOLDER]

Lays out the same rows by SQLite's "Database File Format", asks sqlite3 for integrity_check and for the rows, and prints
the length and the SHA-256 of each file. With a folder the files are kept there.
"""
import hashlib
import os
import sqlite3
import sys
import tempfile


def four(n):
    return n.to_bytes(4, "big")


def two(n):
    return n.to_bytes(2, "big")


def number_of(place):
    return place + 1 if place < 262144 else place + 2


def varint(n):
    out = bytes([n % 128])
    n //= 128
    while n:
        out = bytes([128 + n % 128]) + out
        n //= 128
    return out


def typed(value):
    if value is None:
        return 0, b""
    if isinstance(value, int):
        if value in (0, 1):
            return 8 + value, b""
        steps = value if value >= 0 else -1 - value
        for serial, size, bits in ((1, 1, 7), (2, 2, 15), (3, 3, 23), (4, 4, 31), (5, 6, 47), (6, 8, 63)):
            if steps < 2**bits:
                return serial, value.to_bytes(size, "big", signed=True)
    if isinstance(value, str):
        text = value.encode()
        return 13 + 2 * len(text), text
    return 12 + 2 * len(value), value


def record(row):
    pairs = [typed(value) for value in row]
    types = b"".join(varint(serial) for serial, _ in pairs)
    n = len(types)
    head = n + 1 if n < 127 else n + 2 if n < 16382 else n + 3
    return varint(head) + types + b"".join(body for _, body in pairs)


def page(kind, right, cells):
    data = b"".join(cells)
    place = at = 4096 - len(data)
    out = bytes([kind, 0, 0]) + two(len(cells)) + two(at) + b"\0" + right
    for cell in cells:
        out += two(place)
        place += len(cell)
    return out + bytes(at - len(out)) + data


class Laid:
    def __init__(self, base):
        self.base, self.pages, self.leaves, self.cells, self.size, self.last = base, [], [], [], 0, 0

    def finish(self):
        self.leaves.append((self.base + len(self.pages), self.last))
        self.pages.append(page(13, b"", self.cells))
        self.cells, self.size = [], 0

    def make_room(self, size):
        if 8 + 2 * (len(self.cells) + 1) + self.size + size > 4096:
            self.finish()

    def push(self, rowid, row):
        n = len(row)
        local = n if n <= 4061 else 489 + (n - 489) % 4092
        if local > 4061:
            local = 489
        cell = varint(n) + varint(rowid) + row[:local]
        rest = row[local:]
        self.make_room(len(cell) + (4 if rest else 0))
        place = self.base + len(self.pages)
        if rest:
            cell += four(number_of(place))
        self.cells.append(cell)
        self.size += len(cell)
        self.last = rowid
        while rest:
            part, rest = rest[:4092], rest[4092:]
            place += 1
            self.pages.append(four(number_of(place) if rest else 0) + part + bytes(4092 - len(part)))
        if rowid % 8192 == 0:
            self.end()

    def end(self):
        if self.cells:
            self.finish()


def tree(base, rows):
    laid = Laid(base)
    for rowid, row in enumerate(rows, 1):
        laid.push(rowid, row)
    laid.end()
    if not laid.leaves:
        laid.finish()
    level, out = laid.leaves, laid.pages
    while len(level) > 1:
        above, rest = [], level
        while rest:
            k = len(rest) if len(rest) < 256 else 128
            group, rest = rest[:k], rest[k:]
            above.append((base + len(out), group[-1][1]))
            out.append(page(5, four(number_of(group[-1][0])), [four(number_of(p)) + varint(l) for p, l in group[:-1]]))
        level = above
    return out, level[0][0]


def image(tables):
    pages, listed = [], []
    for name, sql, rows in tables:
        more, root = tree(1 + len(pages), map(record, rows))
        pages += more
        listed.append(("table", name, name, number_of(root), sql))
    more, root = tree(1 + len(pages), map(record, listed))
    pages += more
    first = (
        b"SQLite format 3\0" + bytes([16, 0, 1, 1, 0, 64, 32, 32]) + four(1) + four(number_of(len(pages))) + bytes(8)
        + four(1) + four(4) + bytes(8) + four(1) + bytes(32) + four(1) + four(3040000)
        + bytes([5, 0, 0, 0, 0, 16, 0, 0]) + four(number_of(root)) + bytes(3984)
    )
    return b"".join([first] + pages)


def number(rowid, column):
    if rowid % 11 == column % 11:
        return None
    size = (rowid % 1000) * 31 + (column % 100) * 7 << column % 6 * 8
    return -size if rowid % 2 == 0 else size


def numbers(rows, columns):
    return [tuple(number(rowid, column) for column in range(columns)) for rowid in range(1, rows + 1)]


def definition(columns):
    return "CREATE TABLE t (" + ", ".join("c%d" % column for column in range(columns)) + ")"


def texts(lengths):
    return [(length, chr(ord("a") + rowid % 26) * length) for rowid, length in enumerate(lengths, 1)]


LIMITS = list(range(4050, 4071)) + list(range(8150, 8161)) + [0, 1, 20000, 1000000]
CASES = [("%d rows, %d columns" % (rows, columns), [("t", definition(columns), numbers(rows, columns))])
    for rows, columns in ((0, 4), (1, 4), (179, 4), (180, 4), (8192, 4), (8193, 4), (20, 1), (20, 300), (5, 2000), (40000, 3))]
CASES.append(("texts round the limits of a page", [("t", definition(2), texts(LIMITS))]))
CASES.append(("texts in two groups, and numbers", [
    ("t", definition(2), texts([5] * 8192 + [4062, 10, 9000])),
    ("u", "CREATE TABLE u (c0, c1, c2)", numbers(300, 3))]))

SCANS = ("scan_id INTEGER, file_id INTEGER, file_path TEXT, delimiter TEXT, quote TEXT, escape TEXT, newline_delimiter TEXT,"
    " skip_rows INTEGER, has_header TEXT, columns INTEGER")
ERRORS = ("scan_id INTEGER, file_id INTEGER, line INTEGER, line_byte_position INTEGER, byte_position INTEGER, column_idx INTEGER,"
    " column_name TEXT, error_type TEXT, csv_line TEXT, error_message TEXT")


def table_of(name, columns, rows):
    quoted = ", ".join('"%s" %s' % tuple(column.split()) for column in columns.split(", "))
    return name, 'CREATE TABLE "%s" (%s)' % (name, quoted), rows


CASES.append(("three blocks of texts, without rejects", [
    table_of("data", "note VARCHAR", [("x" * 9000 if row == 9000 else "short",) for row in range(17000)]),
    table_of("reject_scans", SCANS, []),
    table_of("reject_errors", ERRORS, [])]))

folder = sys.argv[1] if len(sys.argv) > 1 else tempfile.mkdtemp()
for index, (what, tables) in enumerate(CASES):
    made = image(tables)
    path = os.path.join(folder, "%d.db" % index)
    with open(path, "wb") as out:
        out.write(made)
    base = sqlite3.connect(path)
    sound = base.execute("PRAGMA integrity_check").fetchone()[0]
    for name, sql, rows in tables:
        held = base.execute("SELECT * FROM %s ORDER BY rowid" % name).fetchall()
        kept = base.execute("SELECT sql FROM sqlite_schema WHERE name = ?", (name,)).fetchone()[0]
        if held != rows or kept != sql:
            sound = "other rows or another definition"
    base.close()
    print(what, sound, len(made), hashlib.sha256(made).hexdigest(), sep="|", flush=True)
