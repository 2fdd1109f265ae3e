#!/usr/bin/env python3
"""The bytes of the archives that crates/part_tests makes, by Python's zipfile: zip_archives.py

Writes the same files with the same fields, has zipfile read them again, and prints each archive's bytes to base 16.
"""
import io
import zipfile

# zipfile tells a number elsewhere only where its field can't hold it; APPNOTE.TXT has it so from the largest number on.
zipfile.ZIP64_LIMIT = 0xFFFFFFFE
zipfile.ZIP_FILECOUNT_LIMIT = 0xFFFE


def told(name, size=0, crc=0, offset=0):
    info = zipfile.ZipInfo(name, (1980, 1, 1, 0, 0, 0))
    info.create_system = 0
    info.create_version = 45
    info.file_size = info.compress_size = size
    info.CRC = crc
    info.header_offset = offset
    return info


def archive(members):
    out = io.BytesIO()
    with zipfile.ZipFile(out, "w") as made:
        for name, data in members:
            made.writestr(told(name), data)
        for info in made.filelist:
            info.external_attr = 0
    with zipfile.ZipFile(out) as read:
        assert read.testzip() is None
        assert [(name, read.read(name)) for name in read.namelist()] == members
    return out.getvalue()


def directory(infos, start):
    """What stands behind files that end at a place, without the files."""
    made = zipfile.ZipFile(io.BytesIO(), "w")
    made.filelist = infos
    made.fp = io.BytesIO()
    made.fp.tell, tell = lambda: start + tell(), made.fp.tell
    made.start_dir = start
    made._write_end_record()
    return made.fp.getvalue()


def show(what, data):
    print(f"{what}: {len(data)} bytes")
    text = data.hex()
    for at in range(0, len(text), 88):
        print("   ", text[at:at + 88])


LONG = 0xFFFFFFFF
show("no file", archive([]))
show("two files", archive([("\u00e4.npy", b"123456789"), ("\u00f6:ends.npy", b"")]))
show("a header of a long file", told("\u00e4.npy", LONG, 0xCBF43926).FileHeader(zip64=True))
show("a header of a file one byte shorter", told("\u00e4.npy", LONG - 1, 0xCBF43926).FileHeader(zip64=False))
first = told("\u00e4.npy", LONG, 1)
second = told("\u00f6.npy", LONG - 1, 2, 30 + 6 + 20 + LONG)
third = told("\u00fc.npy", 7, 3, second.header_offset + 30 + 6 + LONG - 1)
show("behind a long file and others", directory([first, second, third], third.header_offset + 30 + 6 + 7))
many = [told("\u00e4", offset=32 * k) for k in range(0xFFFF)]
show("what ends 65,535 files", directory(many, 32 * 0xFFFF)[-98:])
show("what ends 65,534 files", directory(many[1:], 32 * 0xFFFE)[-22:])
