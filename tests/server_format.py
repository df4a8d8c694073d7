#!/usr/bin/env python3
"""Turns clusters of PostgreSQL 15 into the format of version 16, and back.

For what tests/servers does, the formats differ in the catalog version of the control file, in the
magic of the log's pages, and in the texts of the files PG_VERSION. Records stay as they are.

    server_format.py OLD NEW FROM TO     copies the cluster FROM of version OLD to TO, as one of version NEW
"""
import os
import shutil
import struct
import sys

from pg_control import crc32c

# src/include/catalog/catversion.h and XLOG_PAGE_MAGIC of src/include/access/xlog_internal.h
CATALOG = {15: 202209061, 16: 202307071}
MAGIC = {15: 0xD110, 16: 0xD113}
BLOCK = 8192


def is_segment(name):
    """Whether a name is that of a file of the log, also of one that isn't finished."""
    return len(name[:24]) == 24 and set(name[:24]) <= set("0123456789ABCDEF") and name[24:] in ("", ".partial")


def read(path):
    with open(path, "rb") as file:
        return file.read()


def write(path, data):
    with open(path, "wb") as out:
        out.write(data)


def put_control(path, old, new):
    control = bytearray(read(path))
    assert struct.unpack_from("<I", control, 12)[0] == CATALOG[old], path
    struct.pack_into("<I", control, 12, CATALOG[new])
    struct.pack_into("<I", control, 288, crc32c(bytes(control[:288])))
    write(path, control)


def put_segment(path, old, new):
    """The magic of each page that has the old one; behind the log's end a file may hold anything."""
    segment, before, after = bytearray(read(path)), struct.pack("<H", MAGIC[old]), struct.pack("<H", MAGIC[new])
    for at in range(0, len(segment), BLOCK):
        if segment[at:at + 2] == before:
            segment[at:at + 2] = after
    write(path, segment)


def convert(old, new, source, target):
    """Copies a cluster whose server doesn't run to `target`, which isn't there yet, as one of another version."""
    shutil.copytree(source, target, symlinks=True)
    if old == new:
        return
    put_control(os.path.join(target, "global", "pg_control"), old, new)
    for folder, _, names in os.walk(target):
        for name in names:
            path = os.path.join(folder, name)
            if name == "PG_VERSION":
                write(path, b"%d\n" % new)
            elif os.path.basename(folder) == "pg_wal" and is_segment(name):
                put_segment(path, old, new)


if __name__ == "__main__":
    convert(int(sys.argv[1]), int(sys.argv[2]), sys.argv[3], sys.argv[4])
