"""pg_controldata, pg_waldump, pg_archivecleanup and pg_resetwal beside PostgreSQL's own."""
import os
import re
import shutil

from server_checks import control_lines, unequal, unequal_lines
from server_format import convert, is_segment
from server_pair import Server

TIMES = ("pg_control last modified:", "Time of latest checkpoint:")


def beside_pg_controldata(checks, name, cluster):
    """`cluster` has the server's own format; the program reads the one beside it, of version 16."""
    real = control_lines(checks.machine.done("pg_controldata", cluster), "Catalog version number:")
    ours = checks.ours("pg_controldata", cluster + "16")
    checks.expect("pg_controldata of the %s cluster" % name, ours.stderr,
                  unequal_lines(real, control_lines(ours.stdout, "Catalog version number:")))


def shown(text):
    """What is the same of a dump's records: all but their texts, of which the name of the operation is, where docs/RECORDS.md
    names it. A reference that has a line of its own is that line."""
    records = []
    for line in text.split("\n"):
        record = re.match(r"(rmgr: (\S+) .* desc: )(\S*)[^\n]*?((?:, blkref #\d+: .*)?)$", line)
        if record:
            head, manager, operation, references = record.groups()
            records.append((head, operation if manager != "LogicalMessage" else "", references))
        elif line.startswith("\t"):
            records.append(line)
    return records


def beside_pg_waldump(checks, name, cluster, timeline, *more):
    segments = filter(is_segment, os.listdir(os.path.join(cluster, "pg_wal")))
    first = min(segment for segment in segments if segment[:8] == "%08X" % timeline)
    start = "0/%X" % (int(first[16:], 16) << 20)
    words = ["-t", timeline, "-s", start, *more]
    real = checks.machine.real("pg_waldump", "-p", os.path.join(cluster, "pg_wal"), *words)
    ours = checks.ours("pg_waldump", "-p", os.path.join(cluster + "16", "pg_wal"), *words)
    end = re.fullmatch(r"pg_waldump: error: LogEnds (\S+) \w+\n", ours.stderr)
    checks.expect(" ".join(["pg_waldump", *more, "of the", name, "log"]),
                  "" if end and " at %s:" % end[1] in real.stderr else "ends: %s and %s" % (real.stderr, ours.stderr),
                  unequal_lines(shown(real.stdout), shown(ours.stdout)),
                  "" if len(shown(ours.stdout)) > 1000 else "few records")


def cleaned(machine, run, archive, kept):
    """What a program says of a clean-up and of a dry run before it, and the names that it tells and that it removes."""
    copy = shutil.copytree(archive, machine.path("copy"), copy_function=os.link)
    dry, ended = run("pg_archivecleanup", "-n", copy, kept), run("pg_archivecleanup", copy, kept)
    removed = set(os.listdir(archive)) - set(os.listdir(copy))
    shutil.rmtree(copy)
    told = {os.path.basename(line) for line in dry.stdout.split()}
    return (dry.returncode, ended.returncode, ended.stdout, ended.stderr), told, removed


def beside_pg_archivecleanup(checks, archive):
    names = sorted(os.listdir(archive))
    segments = [name for name in names if is_segment(name)]
    odd = [next(name for name in names if name.endswith(end)) for end in (".backup", ".partial")]
    for kept in (*odd, segments[0], segments[len(segments) // 2], segments[-1]):
        real, ours = (cleaned(checks.machine, run, archive, kept) for run in (checks.machine.real, checks.ours))
        checks.expect("pg_archivecleanup up to %s" % kept, unequal(real[0], ours[0]),
                      *["%s not by both: %s" % (what, ", ".join(sorted(one ^ other)))
                        for what, one, other in zip(("told", "removed"), real[1:], ours[1:]) if one != other])


def without_log(machine, version, source, target):
    """A copy of a cluster, in the format of this version, whose log is lost."""
    convert(machine.version, version, source, target)
    for name in os.listdir(os.path.join(target, "pg_wal")):
        if name != "archive_status":
            os.unlink(os.path.join(target, "pg_wal", name))
    return target


def reset_of_a_log(checks, crashed, dump):
    """The cluster at `crashed` was stopped hard behind a checkpoint, and held what the dump says."""
    machine = checks.machine
    ours = without_log(machine, 16, crashed, machine.path("reset16"))
    real = without_log(machine, machine.version, crashed, machine.path("reset.real"))
    checks.expect("pg_resetwal refuses a cluster that wasn't shut down",
                  checks.answers(1, "", "pg_resetwal: error: NotClean %s 6\n" % ours, "pg_resetwal", "-D", ours))
    checks.expect("pg_resetwal -f", checks.answers(0, "Write-ahead log reset\n", "", "pg_resetwal", "-f", "-D", ours))
    machine.done("pg_resetwal", "-f", "-D", real)
    server = Server(machine, "reset")
    convert(16, machine.version, ours, server.data)
    checks.expect("a reset is that of the real pg_resetwal", unequal_lines(
        *[control_lines(machine.done("pg_controldata", root), *TIMES) for root in (real, server.data)]),
        unequal(*[sorted(filter(is_segment, os.listdir(os.path.join(root, "pg_wal")))) for root in (real, server.data)]))
    server.settings("archive_mode = off")
    server.start()
    checks.expect("a server starts after pg_resetwal -f, and holds what it held", unequal_lines(dump, server.dump()))
    server.stop()
