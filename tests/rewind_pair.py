#!/usr/bin/env python3
"""Lays out the example pair of clusters, independently of the crates: a target on timeline 1, and a source
on timeline 2, which left timeline 1 at 0/1000A0.

    rewind_pair.py DIR

makes below DIR the target t, whose log has a checkpoint, an insert into block 1 of 1663/5/16384 and a
second checkpoint; the target early, whose log ends with the first of them; the source s; and done, which
is t as a rewind leaves it, but for the times. Control files are those of pg_control.py, and the logs those
of wal_log.py. Blocks of the target's relation are filled with the letter t, and those of the source's with s.
"""
import os
import struct
import sys

from pg_control import EXAMPLE, control_file
from wal_log import HEAP, Block, Log, Record, checkpoint, write_segments

MAGIC = 0xD113  # of PostgreSQL 16
LABEL = b"""START WAL LOCATION: 0/100028 (file 000000010000000000000001)
CHECKPOINT LOCATION: 0/100028
BACKUP METHOD: pg_rewind
BACKUP FROM: standby
START TIME: TIME
"""


def write(path, data):
    os.makedirs(os.path.dirname(path), exist_ok=True)
    with open(path, "wb") as out:
        out.write(data)


def cluster(root, blocks, **values):
    """A root with three such blocks, and the control file of the example, in which these fields differ."""
    write(os.path.join(root, "PG_VERSION"), b"16\n")
    write(os.path.join(root, "base", "5", "16384"), b"".join(8192 * block for block in blocks))
    write(os.path.join(root, "global", "pg_control"), control_file({**EXAMPLE, **values}))


def insert():
    """A tuple of four bytes behind a header of 24, as the first of block 1."""
    tuple_bytes = struct.pack("<HHB", 1, 0x0800, 24) + bytes(1) + struct.pack("<I", 7)
    return Record("Heap", 0x00, 700, "INSERT", main=struct.pack("<HB", 1, 0),
                  blocks=(Block(HEAP, 1, data=tuple_bytes),))


def main(folder):
    target, early, source, done = (os.path.join(folder, name) for name in ("t", "early", "s", "done"))
    log = Log(MAGIC)
    log.add(checkpoint(log, False, 700))
    cluster(early, 3 * [b"t"], **{"checkPoint": 0x100028, "cp.redo": 0x100028, "cp.nextXid": 700})
    write_segments(os.path.join(early, "pg_wal"), log)

    log.add(insert())
    log.add(checkpoint(log, False))
    assert [start for _, start, _, _ in log.placed] == [0x100028, 0x1000A0, 0x1000E0]
    cluster(target, 3 * [b"t"])
    write_segments(os.path.join(target, "pg_wal"), log)
    write(os.path.join(target, "old"), b"old")
    write(os.path.join(target, "postgresql.conf"), b"port = 5432\n")

    cluster(source, 3 * [b"s"], **{"cp.tli": 2})
    cluster(done, [b"t", b"s", b"t"],
            **{"cp.tli": 2, "state": 5, "minRecoveryPoint": 0x1000E0, "minRecoveryPointTli": 2})
    for root in (source, done):
        write(os.path.join(root, "pg_wal", "00000002.history"), b"1\t0/1000A0\tpromoted\n")
        write(os.path.join(root, "pg_wal", "000000020000000000000001"), 1048576 * b"2")
        write(os.path.join(root, "postgresql.conf"), b"port = 5433\n")
    write(os.path.join(source, "postmaster.opts"), b"postgres\n")
    write(os.path.join(done, "backup_label"), LABEL)


if __name__ == "__main__":
    main(sys.argv[1])
