#!/usr/bin/env python3
"""Lays out a cluster whose log is to be replayed, independently of the crates.

    replay_cluster.py DIR

makes below DIR the cluster t, as a rewind leaves it, with three empty heap pages and a log on timeline 2 that
has a checkpoint, an insert into block 2 of 1663/5/16384 and a second checkpoint; and done, which is t as a
replay leaves it. r and remade are the same, but that the insert makes its block anew, so that a replay can be
started again. Control files are those of pg_control.py, and the log that of wal_log.py.
"""
import os
import struct
import sys

from pg_control import EXAMPLE, control_file, front
from rewind_pair import LABEL, MAGIC, insert, write
from wal_log import Log, Record, checkpoint

PAGE, SEGMENT, END = 8192, 1048576, 0x100158


def page(lsn, lines=b"", item=b""):
    """A heap page with this LSN, these lines, and an item at its end."""
    head = struct.pack("<IIHHHHHHI", 0, lsn, 0, 0, 24 + len(lines), PAGE - len(item), PAGE, 0x2004, 0)
    return head + lines + bytes(PAGE - 24 - len(lines) - len(item)) + item


def inserted():
    """A page with the tuple of the insert into block 2, by transaction 700."""
    item = struct.pack("<IIIHHHHHB", 700, 0, 0, 0, 2, 1, 1, 0x0800, 24) + bytes(1) + struct.pack("<I", 7)
    return page(0x1000E0, struct.pack("<I", PAGE - 32 | 1 << 15 | 28 << 17), bytes(0) + item + bytes(4))


def log_bytes(anew):
    """A segment on timeline 2, whose insert makes its block anew or changes it."""
    log = Log(MAGIC)
    log.add(checkpoint(log, False, 700))
    record = insert()
    block = record.blocks[0]._replace(number=2, will_init=anew)
    log.add(record._replace(info=0x80 if anew else 0x00, blocks=(block,)))
    values = dict(EXAMPLE, **{"cp.redo": log.place(), "cp.tli": 2})
    log.add(Record("XLOG", 0x00, 0, "CHECKPOINT_SHUTDOWN", main=front(values)[40:128]))
    assert [start for _, start, _, _ in log.placed] == [0x100028, 0x1000A0, 0x1000E0]
    log.bytes[4:8] = struct.pack("<I", 2)
    return bytes(log.bytes).ljust(SEGMENT, b"\0")


def cluster(root, anew, last, **values):
    write(os.path.join(root, "PG_VERSION"), b"16\n")
    write(os.path.join(root, "base", "5", "16384"), 2 * page(0x100000) + last)
    write(os.path.join(root, "global", "pg_control"), control_file({**EXAMPLE, "cp.tli": 2, **values}))
    write(os.path.join(root, "pg_wal", "00000002.history"), b"1\t0/1000A0\tpromoted\n")
    write(os.path.join(root, "pg_wal", "000000020000000000000001"), log_bytes(anew))


def main(folder):
    for name, replayed, anew in (("t", "done", False), ("r", "remade", True)):
        target, done = (os.path.join(folder, end) for end in (name, replayed))
        cluster(target, anew, page(0x100000), state=5, minRecoveryPoint=0x1000E0, minRecoveryPointTli=2)
        write(os.path.join(target, "backup_label"), LABEL)
        cluster(done, anew, inserted(), state=2, minRecoveryPoint=END, minRecoveryPointTli=2)


if __name__ == "__main__":
    main(sys.argv[1])
