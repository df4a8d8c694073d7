#!/usr/bin/env python3
"""The commands beside PostgreSQL's own programs and servers; tests/servers runs this.

    server_main.py WORK PGBIN PROGRAM

WORK is an empty folder, PGBIN the folder of PostgreSQL's programs, and PROGRAM the one of this repository.
Prints a line for each check, and last 'N passed, M failed', with ', K skipped' where some were.
"""
import sys

import server_rewind
import server_tools
from server_checks import Checks
from server_format import convert
from server_pair import Machine, make_pair


def main(work, programs, program):
    machine = Machine(work, programs)
    checks = Checks(machine, program)
    print("PostgreSQL %d in %s" % (machine.version, programs), flush=True)
    pair = checks.step(lambda checks: make_pair(machine))
    if pair:
        old, new = pair
        for server in pair:
            convert(machine.version, 16, server.data, server.data + "16")
        for name, server, timeline in (("target's", old, 1), ("source's", new, 2)):
            checks.step(server_tools.beside_pg_controldata, name, server.data)
            for more in ([], ["-b"]):
                checks.step(server_tools.beside_pg_waldump, name, server.data, timeline, *more)
        checks.step(server_tools.beside_pg_archivecleanup, machine.path("archive"))
        if checks.step(server_rewind.rewind, old.data, new.data):
            checks.step(server_rewind.stops, old.data, new.data)
            checks.step(server_rewind.resumes, old.data, new.data)
            checks.step(server_rewind.replay_stops, new.data)
            crashed = checks.step(server_rewind.servers, old, new)
            if crashed:
                checks.step(server_tools.reset_of_a_log, *crashed)
    print("%d passed, %d failed%s" % (checks.passed, checks.failed,
                                      ", %d skipped" % checks.skipped if checks.skipped else ""), flush=True)
    return 1 if checks.failed else 0


if __name__ == "__main__":
    sys.exit(main(*sys.argv[1:]))
