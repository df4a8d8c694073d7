#!/usr/bin/env python3
"""Times pg_walreplay beside a server's own replay of the same log: docs/BENCHMARKS.md, "A replay of a real log".

    replay_times.py WORK PGBIN PROGRAM ROUNDS [SCALE]

WORK is an empty folder, PGBIN the folder of PostgreSQL's programs of version 15 or 16, PROGRAM the one of this repository, and
SCALE that of pgbench, 20 where it isn't given. It has to run as an ordinary user. It makes a pair whose source has most of the log,
rewinds the target, and replays copies of it, turn by turn: by the program, which always syncs, and by a server without and with
its syncs. Where WORK is in memory, a sync takes no time. WORK keeps the rewound target, as old16 and as rewound.
"""
import os
import re
import resource
import shutil
import sys
import time

from server_format import convert
from server_pair import Machine, Server

SETTINGS = """
listen_addresses = ''
wal_log_hints = on
autovacuum = off
fsync = off
synchronous_commit = off
checkpoint_timeout = 1h
max_wal_size = 8GB
wal_keep_size = 8GB
"""
RECOVERY = """
restore_command = 'false'
recovery_target_timeline = 'current'
log_line_prefix = '%%n '
fsync = %s
"""
TABLES = ["create table filled (id int primary key, kind int, line text)",
          "insert into filled select g, g %% 1000, md5(g::text) from generate_series(1, %d) g"]
CHANGES = ["insert into filled select g, g %% 1000, md5(g::text) || md5(g::text) from generate_series(%d, %d) g",
           "update filled set kind = kind + 1 where id %% 7 = %d", "delete from filled where id %% 11 = %d", "vacuum filled"]
STARTED = re.compile(r"(\S+) LOG:  redo starts at")
REDONE = re.compile(r"redo done at \S+ system usage: CPU: user: (\S+) s, system: (\S+) s, elapsed: (\S+) s")
READY = re.compile(r"(\S+) LOG:  database system is ready to accept connections")


def position(text):
    high, low = text.split("/")
    return int(high, 16) << 32 | int(low, 16)


def bench(server, transactions):
    server.machine.done("pgbench", "-h", server.socket, "-U", "postgres", "-n", "-c", 2, "-t", transactions,
                        "--random-seed", 1, "shop")


def make_pair(machine, scale):
    """The source is the standby that was promoted; its tables lay in both clusters before."""
    old, new = Server(machine, "old"), Server(machine, "new")
    machine.done("initdb", "-D", old.data, "-E", "UTF8", "--locale=C", "-A", "trust", "-U", "postgres", "--no-sync")
    old.settings(SETTINGS)
    old.start()
    old.ask("create database shop")
    machine.done("pgbench", "-h", old.socket, "-U", "postgres", "-i", "-q", "-s", scale, "shop")
    for line in TABLES:
        old.ask(line % (20000 * scale) if "%" in line else line, "shop")
    machine.done("pg_basebackup", "-h", old.socket, "-U", "postgres", "-D", new.data, "-X", "stream", "-c", "fast", "-R", "--no-sync")
    new.settings("")
    new.start()
    new.wait_for("pg_last_wal_replay_lsn() >= '%s'" % old.ask("select pg_current_wal_insert_lsn()"))
    new.promote()
    old.ask("update filled set line = 'old' where id < 100", "shop")
    old.stop()
    bench(new, 1000 * scale)
    for line in CHANGES:
        new.ask(line % ((20001 * scale, 40000 * scale) if "series" in line else 1) if "%" in line else line, "shop")
    bench(new, 1000 * scale)
    new.stop()
    return old, new


def timed(machine, *words):
    """The output, and the seconds of the clock and those of the processor, in the program and in the system's calls."""
    before, start = resource.getrusage(resource.RUSAGE_CHILDREN), time.monotonic()
    ended = machine.run(*words)
    wall, after = time.monotonic() - start, resource.getrusage(resource.RUSAGE_CHILDREN)
    if ended.returncode:
        raise RuntimeError(ended.stderr)
    return ended.stdout, (wall, after.ru_utime - before.ru_utime, after.ru_stime - before.ru_stime)


def by_program(machine, program, target):
    """Its replay: the seconds, and where it ended."""
    copy = shutil.copytree(target, machine.path("copy"))
    try:
        told, spent = timed(machine, program, "pg_walreplay", copy)
        return spent, re.search(r"replayed (\d+) records to (\S+)", told)
    finally:
        shutil.rmtree(copy)


def ready_log(server):
    """What a server has logged once it is a primary."""
    for _ in range(600):
        with open(server.log) as log:
            text = log.read()
        if READY.search(text):
            return text
        time.sleep(0.1)
    raise RuntimeError("the server isn't a primary after a minute")


def by_server(machine, target, fsync):
    """A server's: the seconds of its redo alone, and of the clock until the pages are written and it is a primary."""
    copy = Server(machine, "copied")
    shutil.copytree(target, copy.data)
    copy.settings(RECOVERY % fsync)
    open(os.path.join(copy.data, "recovery.signal"), "w").close()
    copy.start()
    text = ready_log(copy)
    copy.stop("immediate")
    shutil.rmtree(copy.data)
    os.unlink(copy.log)
    user, system, elapsed = map(float, REDONE.search(text).groups())
    return (elapsed, user, system), (float(READY.search(text)[1]) - float(STARTED.search(text)[1]),)


def make_target(machine, program, scale):
    """The rewound target in the program's format and in the server's, and where its log begins."""
    old, new = make_pair(machine, scale)
    for server in (old, new):
        convert(machine.version, 16, server.data, server.data + "16")
    target, real = old.data + "16", machine.path("rewound")
    machine.run(program, "pg_rewind", "-D", target, "--source-pgdata", new.data + "16").check_returncode()
    convert(16, machine.version, target, real)
    shutil.copy(os.path.join(old.data, "postgresql.conf"), real)
    for done in (old.data, new.data, new.data + "16"):
        shutil.rmtree(done)
    with open(os.path.join(target, "backup_label")) as label:
        return target, real, position(re.match(r"START WAL LOCATION: (\S+) ", label.read())[1])


def stop_all(machine):
    """Stops the servers that still run, where something failed under them."""
    for name in os.listdir(machine.work):
        if os.path.exists(machine.path(name, "postmaster.pid")):
            machine.real("pg_ctl", "-D", machine.path(name), "-m", "immediate", "-w", "-s", "stop")


def measure(machine, program, rounds, scale):
    target, real, begin = make_target(machine, program, scale)
    least = {}
    for _ in range(rounds):
        spent, told = by_program(machine, program, target)
        rows = [("pg_walreplay", spent)]
        for fsync in ("off", "on"):
            redo, until = by_server(machine, real, fsync)
            rows += [("server, fsync %s, redo" % fsync, redo), ("server, fsync %s, redo and writing" % fsync, until)]
        for name, row in rows:
            print("%-34s %s" % (name, " ".join("%6.2f" % seconds for seconds in row)), flush=True)
            least[name] = [min(pair) for pair in zip(least.get(name, row), row)]
    size = (position(told[2]) - begin) / 1e6
    print("%s records, %.0f MB of log; MB a second of the clock, and of the processor" % (told[1], size))
    for name, row in least.items():
        print("%-34s %s" % (name, " ".join("%6.1f" % (size / seconds) for seconds in (row[0], sum(row[1:])) if seconds)))
    print("load", *os.getloadavg())


def main(work, programs, program, rounds, scale=20):
    machine = Machine(work, programs)
    try:
        measure(machine, program, int(rounds), int(scale))
    finally:
        stop_all(machine)


if __name__ == "__main__":
    main(*sys.argv[1:])
