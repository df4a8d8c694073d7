#!/usr/bin/env python3
"""Lays out a PostgreSQL 16 log and the lines that a dump of it shows, independently of the crates.

The log is of timeline 1, in segments of 1 MiB from 0/100000 on: some hundred records over three
segments. Numbers stand with the lowest byte first. The pages and records are laid out after
PostgreSQL 16, src/include/access/xlog_internal.h and xlogrecord.h, the lines after
src/bin/pg_waldump/pg_waldump.c and src/backend/access/rmgrdesc/xlogdesc.c; what a line has behind
the name of the operation, and the names of Hash and custom managers, are those of docs/RECORDS.md.

    wal_log.py DIR [MAGIC]

makes the folder DIR and writes into it the segments to the folder pg_wal, the lines to the file
lines, the lines with a line for each block reference to the file details, and where the log ends to
the file end. The folder s has the log of the example pair's source in its pg_wal. Two more folders
of segments are malformed and compressed: behind a few records stands one that a dump refuses. What
is shown before it stands in malformed.lines and compressed.lines, and where it starts in
malformed.at and compressed.at. MAGIC is that of the pages, else PostgreSQL 16's; with D110, which is
PostgreSQL 15's, its pg_waldump can be held against the lines.
"""
import os
import struct
import sys
from typing import NamedTuple, Optional

from pg_control import EXAMPLE, crc32c, front

START, SEGMENT, PAGE = 0x100000, 0x100000, 8192

HEAP, TOAST, INDEX = (1663, 5, 16384), (1663, 5, 16387), (1663, 5, 16390)
SEQUENCE, SHARED = (1663, 5, 16395), (1664, 0, 1260)

MANAGERS = {"XLOG": 0, "Transaction": 1, "Storage": 2, "CLOG": 3, "Standby": 8, "Heap2": 9,
            "Heap": 10, "Btree": 11, "Hash": 12, "Sequence": 15, "custom128": 128}

FORKS = ["main", "fsm", "vm", "init"]


class Image(NamedTuple):
    """A full-page image, without the bytes of its hole."""
    hole_at: int = 0
    hole: int = 0
    apply: bool = True


class Block(NamedTuple):
    """A block reference. Without an id it has the one behind that of the reference before it."""
    rel: tuple
    number: int
    fork: int = 0
    data: bytes = b""
    image: Optional[Image] = None
    will_init: bool = False
    id: Optional[int] = None


class Record(NamedTuple):
    """A record. Its body is that of its parts, unless other bytes stand in place of it."""
    manager: str
    info: int
    xid: int
    name: str
    text: str = ""
    main: bytes = b""
    blocks: tuple = ()
    origin: Optional[int] = None
    top: Optional[int] = None
    body: Optional[bytes] = None


def filler(size, seed):
    """Bytes that no line tells."""
    return (bytes(range(seed % 200 + 1, 251)) * (size // 50 + 1))[:size]


def numbered(blocks):
    """Each block reference with its id."""
    last = -1
    for block in blocks:
        last = last + 1 if block.id is None else block.id
        yield last, block


def block_header(block_id, block, before):
    """The header of a block reference behind another one."""
    same = before is not None and before.rel == block.rel
    flags = (block.fork | (0x10 if block.image else 0) | (0x20 if block.data else 0)
             | (0x40 if block.will_init else 0) | (0x80 if same else 0))
    out = struct.pack("<BBH", block_id, flags, len(block.data))
    if block.image:
        hole_at, hole, apply = block.image
        out += struct.pack("<HHB", PAGE - hole, hole_at, (1 if hole else 0) | (2 if apply else 0))
    if not same:
        out += struct.pack("<III", *block.rel)
    return out + struct.pack("<I", block.number)


def body_of(record):
    """The headers of the fragments, then each block's image and bytes, then the main bytes."""
    if record.body is not None:
        return record.body
    headers, payload, before = b"", b"", None
    for block_id, block in numbered(record.blocks):
        headers += block_header(block_id, block, before)
        if block.image:
            payload += filler(PAGE - block.image.hole, block.number)
        payload += block.data
        before = block
    if record.origin is not None:
        headers += struct.pack("<BH", 253, record.origin)
    if record.top is not None:
        headers += struct.pack("<BI", 252, record.top)
    if len(record.main) > 255:
        headers += struct.pack("<BI", 254, len(record.main))
    elif record.main:
        headers += struct.pack("<BB", 255, len(record.main))
    return headers + payload + record.main


def record_bytes(record, prev):
    """A record whose checksum is that of its body and then of the first 20 bytes of its header."""
    body = body_of(record)
    head = struct.pack("<IIQBBH", 24 + len(body), record.xid, prev, record.info,
                       MANAGERS[record.manager], 0)
    return head + struct.pack("<I", crc32c(body + head)) + body


def position(at, digits=1):
    return f"{at >> 32:X}/{at & 0xFFFFFFFF:0{digits}X}"


def rel_text(rel):
    return "/".join(map(str, rel))


def short_ref(block_id, block):
    fork = f" fork {FORKS[block.fork]}" if block.fork else ""
    image = "" if not block.image else " FPW" if block.image.apply else " FPW for WAL verification"
    return f", blkref #{block_id}: rel {rel_text(block.rel)}{fork} blk {block.number}{image}"


def long_ref(block_id, block):
    image = ""
    if block.image:
        word = "FPW" if block.image.apply else "FPW for WAL verification"
        image = f" ({word}); hole: offset: {block.image.hole_at}, length: {block.image.hole}"
    return (f"\n\tblkref #{block_id}: rel {rel_text(block.rel)} fork {FORKS[block.fork]}"
            f" blk {block.number}{image}")


class Log:
    """A log as far as it is written: its bytes from START on, and the records with their places."""

    def __init__(self, magic):
        self.magic, self.bytes, self.placed, self.prev = magic, bytearray(), [], 0

    def end(self):
        """Where the bytes end."""
        return START + len(self.bytes)

    def begin_page(self, info, remaining):
        first = self.end() % SEGMENT == 0
        self.bytes += struct.pack("<HHIQII", self.magic, info | (2 if first else 0), 1, self.end(),
                                  remaining, 0)
        if first:
            self.bytes += struct.pack("<QII", EXAMPLE["sysid"], SEGMENT, PAGE)

    def place(self):
        """Where the next record starts; the header of its page is written."""
        self.bytes += bytes(-len(self.bytes) % 8)
        if len(self.bytes) % PAGE == 0:
            self.begin_page(0, 0)
        return self.end()

    def put(self, data):
        """Adds bytes, with a page's header wherever one is due."""
        while data:
            if len(self.bytes) % PAGE == 0:
                self.begin_page(1, len(data))
            room = PAGE - len(self.bytes) % PAGE
            self.bytes += data[:room]
            data = data[room:]

    def add(self, record):
        start = self.place()
        data = record_bytes(record, self.prev)
        self.put(data)
        self.placed.append((record, start, self.prev, len(data)))
        self.prev = start

    def switch(self):
        """A switch record, behind which the segment is zeros."""
        self.add(Record("XLOG", 0x40, 0, "SWITCH"))
        while len(self.bytes) % SEGMENT:
            if len(self.bytes) % PAGE == 0:
                self.begin_page(0, 0)
            self.bytes += bytes(-len(self.bytes) % PAGE)

    def fill_page(self, left):
        """A record that ends so many bytes before its page does."""
        room = PAGE - left - self.place() % PAGE
        assert 40 <= room <= 24 + 2 + 255
        self.add(Record("XLOG", 0x20, 0, "NOOP", main=filler(room - 26, 0)))

    def drop(self, record):
        """The first bytes of a record that was never finished, and the record that says so."""
        start = self.place()
        self.bytes += record_bytes(record, self.prev)[:-len(self.bytes) % PAGE]
        self.begin_page(8, 0)
        self.add(Record("XLOG", 0xD0, 0, "OVERWRITE_CONTRECORD", f"lsn {position(start)}",
                        struct.pack("<Qq", start, 753_105_600_000_000)))

    def lines(self, details):
        for record, start, prev, total in self.placed:
            images = sum(PAGE - block.image.hole for block in record.blocks if block.image)
            refs = "".join((long_ref if details else short_ref)(*each)
                           for each in numbered(record.blocks))
            yield (f"rmgr: {record.manager:<11} len (rec/tot): {total - images:6}/{total:6}, "
                   f"tx: {record.xid:10}, lsn: {position(start, 8)}, prev {position(prev, 8)}, "
                   f"desc: {record.name} {record.text}{refs}")


def checkpoint(log, online, next_xid=701):
    at, word = log.place(), "online" if online else "shutdown"
    values = dict(EXAMPLE, **{"cp.redo": at, "cp.nextXid": next_xid})
    return Record("XLOG", 0x10 if online else 0x00, 0, f"CHECKPOINT_{word.upper()}",
                  f"redo {position(at)}; tli 1; prev tli 1; fpw on; xid 0:{next_xid}; oid 16385; multi 1; "
                  "offset 0; oldest xid 700 in DB 1; oldest multi 1 in DB 1; oldest/newest commit "
                  f"timestamp xid: 0/0; oldest running xid 0; {word}", front(values)[40:128])


def heap_records(xid, block):
    """A transaction that inserts, updates, locks and deletes rows."""
    row = filler(40, xid)
    yield Record("Heap", 0x00, xid, "INSERT", f"off: {xid % 90 + 1}, flags: 0x00",
                 struct.pack("<HB", xid % 90 + 1, 0), (Block(HEAP, block, data=row),))
    yield Record("Btree", 0x00, xid, "INSERT_LEAF", f"off: {xid % 200}",
                 struct.pack("<H", xid % 200), (Block(INDEX, block // 4 + 1, data=row[:16]),))
    yield Record("Heap", 0x40, xid, "HOT_UPDATE", f"old_xmax: {xid}, old_off: 3, "
                 "old_infobits: 0x10, flags: 0x20, new_xmax: 0, new_off: 4",
                 struct.pack("<IHBBIH", xid, 3, 0x10, 0x20, 0, 4),
                 (Block(HEAP, block, data=row[:12]),))
    yield Record("Heap", 0x20, xid, "UPDATE", f"old_xmax: {xid}, old_off: 2, old_infobits: 0x00, "
                 "flags: 0x00, new_xmax: 0, new_off: 1",
                 struct.pack("<IHBBIH", xid, 2, 0, 0, 0, 1),
                 (Block(HEAP, block + 1, data=row), Block(HEAP, block)))
    yield Record("Heap", 0x60, xid, "LOCK", f"xmax: {xid}, off: 5, infobits: 0x02, flags: 0x00",
                 struct.pack("<IHBB", xid, 5, 2, 0), (Block(HEAP, block),), origin=1)
    yield Record("Heap", 0x10, xid, "DELETE", f"xmax: {xid}, off: 6, infobits: 0x04, flags: 0x01",
                 struct.pack("<IHBB", xid, 6, 4, 1), (Block(TOAST, block),), top=xid - 1)
    info, name = (0x20, "ABORT") if xid % 8 == 3 else (0x00, "COMMIT")
    yield Record("Transaction", info, xid, name, f"time {xid}", struct.pack("<q", xid))


def other_records(xid):
    """One record of each further kind."""
    yield Record("XLOG", 0x30, 0, "NEXTOID", "24577", struct.pack("<I", 24577))
    yield Record("XLOG", 0x70, 0, "RESTORE_POINT", "before ?noon?", struct.pack(
        "<q64s", 753_105_600_000_000, b"before \tnoon\xff\0rest"))
    yield Record("XLOG", 0xA0, 0, "FPI_FOR_HINT", "", b"", (Block(HEAP, 2, image=Image(24, 8000)),))
    yield Record("XLOG", 0xA0, 0, "FPI_FOR_HINT", "", b"",
                 (Block(SHARED, 1, image=Image(200, 4096, False)),))
    yield Record("Standby", 0x10, 0, "RUNNING_XACTS",
                 f"nextXid {xid}; latestCompletedXid {xid - 1}; oldestRunningXid {xid}",
                 struct.pack("<iiIIII", 0, 0, 0, xid, xid, xid - 1))
    yield Record("Storage", 0x10, xid, "CREATE", "rel 1663/5/16400 fork vm",
                 struct.pack("<IIII", 1663, 5, 16400, 2))
    yield Record("CLOG", 0x00, xid, "ZEROPAGE", "page 5", struct.pack("<I", 5))
    yield Record("Heap", 0x80, xid, "INSERT+INIT", "off: 1, flags: 0x08", struct.pack("<HB", 1, 8),
                 (Block(TOAST, 0, data=filler(1990, 1), will_init=True),))
    yield Record("Heap2", 0xD0, xid, "MULTI_INSERT+INIT", "ntuples: 2, flags: 0x02",
                 struct.pack("<BxH", 2, 2), (Block(TOAST, 1, data=filler(77, 2), will_init=True),))
    yield Record("Heap2", 0x10, xid, "PRUNE", "horizon: 699, nredirected: 0, ndead: 1",
                 struct.pack("<IHHB", 699, 0, 1, 0), (Block(HEAP, 7, data=struct.pack("<H", 4)),))
    yield Record("Heap2", 0x40, xid, "VISIBLE", "horizon: 0, flags: 0x01", struct.pack("<IB", 0, 1),
                 (Block(HEAP, 0, fork=2), Block(HEAP, 7, image=Image(300, 5000))))
    yield Record("Btree", 0x40, xid, "SPLIT_R", "level: 0, firstrightoff: 120, newitemoff: 200, "
                 "postingoff: 0", struct.pack("<IHHH", 0, 120, 200, 0),
                 (Block(INDEX, 1, data=filler(64, 3)),
                  Block(INDEX, 9, data=filler(900, 4), will_init=True), Block(INDEX, 2)))
    yield Record("Btree", 0xA0, xid, "NEWROOT", "level: 0", struct.pack("<II", 3, 0),
                 (Block(INDEX, 3, will_init=True),
                  Block(INDEX, 0, data=filler(28, 5), will_init=True, id=2)))
    yield Record("Hash", 0x20, xid, "INFO_20", "", struct.pack("<H", 4),
                 (Block((1663, 5, 16410), 6, data=filler(16, 6)), Block((1663, 5, 16410), 0)))
    yield Record("Sequence", 0x00, xid, "LOG", "rel 1663/5/16395",
                 struct.pack("<III", *SEQUENCE) + filler(41, 7),
                 (Block(SEQUENCE, 0, will_init=True),))
    yield Record("custom128", 0x30, xid, "INFO_30", "", filler(20_000, 8),
                 (Block(HEAP, 3, fork=3), Block(HEAP, 4, fork=1), Block(INDEX, 5)))
    yield Record("Transaction", 0x80, xid, "COMMIT",
                 "time -5; subxacts: 801 802; rels: 1663/5/16384 1664/0/1260",
                 struct.pack("<qIiIIi6I", -5, 6, 2, 801, 802, 2, *HEAP, *SHARED))


def images(first):
    """A record with an image for each id that a block reference may have."""
    blocks = tuple(Block(TOAST, first + at, image=Image()) for at in range(33))
    return Record("XLOG", 0xB0, 0, "FPI", "", b"", blocks)


def example(magic):
    """The log."""
    log = Log(magic)
    log.add(checkpoint(log, False))
    for xid in range(701, 715):
        for record in heap_records(xid, xid - 701):
            log.add(record)
    for record in other_records(715):
        log.add(record)
    while PAGE - log.place() % PAGE > 250:
        log.add(Record("Standby", 0x00, 0, "LOCK", "", struct.pack("<iIII", 1, 715, 5, 16384)))
    log.fill_page(8)  # behind it a header that goes on on the next page
    log.add(checkpoint(log, True))
    log.switch()
    for xid in range(716, 723):
        for record in heap_records(xid, xid - 701):
            log.add(record)
    while log.end() < START + 2 * SEGMENT:  # the last one goes on in the third segment
        log.add(images(100))
    for xid in range(723, 727):
        for record in heap_records(xid, 60):
            log.add(record)
    while PAGE - log.place() % PAGE > 250:
        log.add(Record("XLOG", 0x20, 0, "NOOP"))
    log.fill_page(0)  # behind it the header of the next page
    log.add(Record("XLOG", 0x80, 0, "FPW_CHANGE", "off", b"\0"))
    log.drop(images(200))
    for record in heap_records(727, 61):
        log.add(record)
    return log


def source(magic):
    """A log of one record: that of the source of the example pair."""
    log = Log(magic)
    log.add(checkpoint(log, False, 700))
    return log


def refused(magic, body):
    """A log whose last record has this body."""
    log = Log(magic)
    for record in heap_records(701, 0):
        log.add(record)
    log.add(Record("XLOG", 0xB0, 0, "FPI", body=body))
    return log


def malformed():
    """A body in which the header of a fragment of no kind stands behind a block reference."""
    return block_header(0, Block(HEAP, 4), None) + b"\x64"


def compressed():
    """A body whose second block reference has an image that pglz made shorter."""
    image = struct.pack("<BBHHHB", 1, 0x90, 0, 100, 0, 2 | 4) + struct.pack("<I", 5)
    return block_header(0, Block(HEAP, 4), None) + image + filler(100, 9)


def write(path, lines):
    with open(path, "w", encoding="ascii") as out:
        out.writelines(line + "\n" for line in lines)


def write_segments(folder, log):
    os.makedirs(folder)
    for at in range(0, len(log.bytes), SEGMENT):
        name = f"{1:08X}{0:08X}{(START + at) // SEGMENT:08X}"
        with open(os.path.join(folder, name), "wb") as out:
            out.write(log.bytes[at:at + SEGMENT].ljust(SEGMENT, b"\0"))


def main(folder, version="D113"):
    magic = int(version, 16)
    log = example(magic)
    write_segments(os.path.join(folder, "pg_wal"), log)
    write(os.path.join(folder, "lines"), log.lines(False))
    write(os.path.join(folder, "details"), log.lines(True))
    write(os.path.join(folder, "end"), [position(log.place())])
    write_segments(os.path.join(folder, "s", "pg_wal"), source(magic))
    for name, body in [("malformed", malformed()), ("compressed", compressed())]:
        log = refused(magic, body)
        at = os.path.join(folder, name)
        write_segments(at, log)
        write(f"{at}.lines", list(log.lines(False))[:-1])
        write(f"{at}.at", [position(log.placed[-1][1])])


if __name__ == "__main__":
    main(*sys.argv[1:])
