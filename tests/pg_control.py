#!/usr/bin/env python3
"""Lays out PostgreSQL 16 control files, independently of the crates here.

A control file has 8192 bytes. Its fields stand at fixed offsets, numbers with the lowest byte
first, and at 288 stands the CRC-32C of the 288 bytes before it (PostgreSQL 16,
src/include/catalog/pg_control.h). The CRC is computed here too.

    pg_control.py FILE..   writes the example cluster's control file to each FILE, and makes its folder
"""
import os
import struct
import sys

# name, offset, form of struct
FIELDS = [
    ("sysid", 0, "<Q"), ("version", 8, "<I"), ("catalog", 12, "<I"), ("state", 16, "<I"),
    ("time", 24, "<q"), ("checkPoint", 32, "<Q"),
    ("cp.redo", 40, "<Q"), ("cp.tli", 48, "<I"), ("cp.prevTli", 52, "<I"), ("cp.fpw", 56, "<B"),
    ("cp.nextXid", 64, "<Q"), ("cp.nextOid", 72, "<I"), ("cp.nextMulti", 76, "<I"),
    ("cp.nextMultiOffset", 80, "<I"), ("cp.oldestXid", 84, "<I"), ("cp.oldestXidDb", 88, "<I"),
    ("cp.oldestMulti", 92, "<I"), ("cp.oldestMultiDb", 96, "<I"), ("cp.time", 104, "<q"),
    ("cp.oldestCommitTs", 112, "<I"), ("cp.newestCommitTs", 116, "<I"),
    ("cp.oldestActiveXid", 120, "<I"),
    ("unloggedLsn", 128, "<Q"), ("minRecoveryPoint", 136, "<Q"),
    ("minRecoveryPointTli", 144, "<I"), ("backupStart", 152, "<Q"), ("backupEnd", 160, "<Q"),
    ("endRequired", 168, "<B"),
    ("walLevel", 172, "<I"), ("walLogHints", 176, "<B"), ("maxConnections", 180, "<I"),
    ("maxWorkers", 184, "<I"), ("maxSenders", 188, "<I"), ("maxPrepared", 192, "<I"),
    ("maxLocks", 196, "<I"), ("trackCommitTs", 200, "<B"),
    ("maxAlign", 204, "<I"), ("floatFormat", 208, "<Q"), ("blcksz", 216, "<I"),
    ("relseg", 220, "<I"), ("walBlcksz", 224, "<I"), ("walSegSize", 228, "<I"),
    ("nameLen", 232, "<I"), ("indexKeys", 236, "<I"), ("toastChunk", 240, "<I"),
    ("loBlock", 244, "<I"), ("float8ByVal", 248, "<B"), ("checksumVersion", 252, "<I"),
    ("nonce", 256, "32s"),
]

# the bytes of the float 1234567.0, the highest first
assert struct.pack(">d", 1234567.0).hex() == "4132d68700000000"

# a cluster that was shut down on timeline 1
EXAMPLE = {
    "sysid": 7300000000000000001, "version": 1300, "catalog": 202307071, "state": 1,
    "time": 1700000000, "checkPoint": 0x1000E0,
    "cp.redo": 0x1000E0, "cp.tli": 1, "cp.prevTli": 1, "cp.fpw": 1, "cp.nextXid": 701,
    "cp.nextOid": 16385, "cp.nextMulti": 1, "cp.nextMultiOffset": 0, "cp.oldestXid": 700,
    "cp.oldestXidDb": 1, "cp.oldestMulti": 1, "cp.oldestMultiDb": 1, "cp.time": 1700000000,
    "unloggedLsn": 1000,
    "walLevel": 1, "walLogHints": 1, "maxConnections": 100, "maxWorkers": 8, "maxSenders": 10,
    "maxPrepared": 0, "maxLocks": 64, "trackCommitTs": 0,
    "maxAlign": 8, "floatFormat": 0x4132D68700000000, "blcksz": 8192, "relseg": 131072,
    "walBlcksz": 8192, "walSegSize": 1048576, "nameLen": 64, "indexKeys": 32,
    "toastChunk": 1996, "loBlock": 2048, "float8ByVal": 1, "checksumVersion": 0,
    "nonce": bytes(range(32)),
}


def crc_step(state):
    """What eight bits do to the state of the CRC-32C: reflected polynomial 82F63B78."""
    for _ in range(8):
        state = (state >> 1) ^ 0x82F63B78 if state & 1 else state >> 1
    return state


CRC_STEPS = [crc_step(byte) for byte in range(256)]


def crc32c(data):
    """The CRC-32C, byte by byte, start and end turned over."""
    crc = 0xFFFFFFFF
    for byte in data:
        crc = CRC_STEPS[(crc ^ byte) & 0xFF] ^ (crc >> 8)
    return crc ^ 0xFFFFFFFF


assert crc32c(b"123456789") == 0xE3069283


def front(values, edits=()):
    """The 288 bytes before the CRC; an edit is an offset, a form and a value put there after."""
    out = bytearray(288)
    for name, at, form in FIELDS:
        if name in values:
            struct.pack_into(form, out, at, values[name])
    for at, form, value in edits:
        struct.pack_into(form, out, at, value)
    return bytes(out)


def control_file(values, edits=()):
    """The 8192 bytes of a control file that says this."""
    head = front(values, edits)
    return (head + struct.pack("<I", crc32c(head))).ljust(8192, b"\0")


def main():
    for path in sys.argv[1:]:
        os.makedirs(os.path.dirname(path) or ".", exist_ok=True)
        with open(path, "wb") as out:
            out.write(control_file(EXAMPLE))


if __name__ == "__main__":
    main()
