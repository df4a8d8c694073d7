"""pg_rewind and pg_walreplay beside PostgreSQL's own pg_rewind and its servers, and what they leave by pg_walcompare."""
import hashlib
import os
import re
import shutil

import server_masks
import server_stops
from server_checks import control_lines, unequal, unequal_lines
from server_format import BLOCK, convert, is_segment, read
from server_pair import Server

MARK, REPLAY_MARK = "pg_rewind.unfinished", "pg_walreplay.unfinished"
MAIN_FORK = re.compile(r"(global|base/\d+)/\d+(\.\d+)?")
REPLAYED = ("base/", "global/", "pg_xact/", "pg_multixact/")
# What a rewind doesn't copy: what lies in these folders at the root, and these names anywhere (docs/FORMATS.md).
EMPTIED = ("pg_stat_tmp", "pg_replslot", "pg_dynshmem", "pg_notify", "pg_serial", "pg_snapshots", "pg_subtrans")
UNCOPIED = ("postgresql.auto.conf.tmp", "current_logfiles.tmp", "backup_label", "tablespace_map", "backup_manifest", "postmaster.pid",
            "postmaster.opts")
SAME_TIMELINE = "pg_rewind: source and target cluster are on the same timeline\npg_rewind: no rewind required\n"
# lines of pg_controldata that tell from where on a cluster is consistent
CONSISTENT = ("Minimum recovery ending location:", "Min recovery ending loc's timeline:")
OWN_SETTINGS = ("postgresql.conf", "postgresql.auto.conf", "pg_hba.conf", "pg_ident.conf")


def tree(root):
    """What lies below a root: of each path the sum of its file's bytes, or None for a folder."""
    found = {}
    for folder, folders, files in os.walk(root):
        for name in folders + files:
            path = os.path.join(folder, name)
            found[os.path.relpath(path, root)] = None if os.path.isdir(path) else hashlib.sha256(read(path)).digest()
    return found


def blocks(root, path):
    """The blocks of a file, none where there is no such file."""
    path = os.path.join(root, path)
    data = read(path) if os.path.isfile(path) else b""
    return [data[at:at + BLOCK] for at in range(0, len(data), BLOCK)]


class Rewound:
    """What two rewinds of one target left, and where that differs but by the time of the run."""

    def __init__(self, machine, real, ours, old, new):
        """Roots in one format: what the two left, and the clusters from which they made it."""
        self.machine, self.real, self.ours, self.old, self.new = machine, real, ours, old, new
        self.touched = 0

    def label(self, root):
        with open(os.path.join(root, "backup_label")) as label:
            return [line for line in label if not line.startswith("START TIME: ")]

    def control(self, root):
        return control_lines(self.machine.done("pg_controldata", root), "pg_control last modified:")

    def is_kept_log(self, path):
        """The real pg_rewind keeps segments of the target between the common checkpoint and the fork."""
        folder, name = os.path.split(path)
        checkpoint = re.search(r"\(file (\w+)\)", "".join(self.label(self.real)))[1]
        with open(os.path.join(self.new, "pg_wal", "00000002.history")) as history:
            high, low = history.readline().split("\t")[1].split("/")
        fork = "%08X%08X%08X" % (1, int(high, 16), int(low, 16) >> 20)
        return folder == "pg_wal" and is_segment(name) and checkpoint <= name <= fork and not os.path.exists(
            os.path.join(self.new, path)) and blocks(self.real, path) == blocks(self.old, path) != []

    def only_touched(self, path):
        """Each block that differs is the source's in ours and the target's in the real one: the target's log touched it in
        a way that the real one doesn't see."""
        real, ours, old, new = (blocks(root, path) for root in (self.real, self.ours, self.old, self.new))
        differ = [at for at, (one, other) in enumerate(zip(real, ours)) if one != other]
        self.touched += len(differ)
        return bool(MAIN_FORK.fullmatch(path)) and len(real) == len(ours) and all(
            real[at:at + 1] == old[at:at + 1] and ours[at:at + 1] == new[at:at + 1] for at in differ)

    def is_same(self, path):
        if path == "backup_label":
            return self.label(self.real) == self.label(self.ours)
        if path == "global/pg_control":
            return self.control(self.real) == self.control(self.ours)
        return self.only_touched(path)

    def differences(self):
        real, ours = tree(self.real), tree(self.ours)
        return ", ".join(
            [path for path in sorted(set(real) & set(ours)) if real[path] != ours[path] and not self.is_same(path)] +
            [path + " is missing" for path in sorted(set(real) - set(ours)) if not self.is_kept_log(path)] +
            [path + " is too much" for path in sorted(set(ours) - set(real))])


def report(run, *words):
    ended = run("pg_rewind", *words)
    return ended.returncode, ended.stdout, ended.stderr


def rewind(checks, old, new):
    """Leaves rewound16, in the program's format, and rewound, in the server's. Whether it was done."""
    machine, target, source = checks.machine, checks.machine.path("rewound16"), new + "16"
    words = ["-D", target, "--source-pgdata", source]
    real = shutil.copytree(old, machine.path("rewound.real"))
    shutil.copytree(old + "16", target)
    before, source_before = tree(target), tree(source)
    wanted = report(machine.real, "-n", "-D", real, "--source-pgdata", new)
    checks.expect("pg_rewind -n reports what the real one does, and changes nothing",
                  unequal(wanted, report(checks.ours, "-n", *words)), before != tree(target) and "the target has changed")
    wanted = report(machine.real, "--no-sync", "-D", real, "--source-pgdata", new)
    seen = report(checks.ours, *words)
    checks.expect("pg_rewind reports what the real one does", unequal(wanted, seen),
                  "" if wanted[2].endswith("Done!\n") else "nothing was to be done")
    checks.expect("pg_rewind leaves the source", source_before != tree(source) and "it has changed")
    checks.expect("a rewound cluster isn't rewound again",
                  checks.answers(1, "", "pg_rewind: error: NotClean %s 5\n" % target, "pg_rewind", *words))
    convert(16, machine.version, target, machine.path("rewound"))
    pair = Rewound(machine, real, machine.path("rewound"), old, new)
    checks.expect("pg_rewind leaves the tree of the real one, but for what docs/COMMANDS.md says", pair.differences())
    shutil.rmtree(real)
    return seen[0] == 0


def refusals(checks, target, source, mark):
    """What is wrong with what each command that changes or compares clusters says of a target with a mark."""
    line = "%s: error: Unfinished " + os.path.join(target, mark) + "\n"
    for words in (["pg_rewind", "-D", target, "--source-pgdata", source], ["pg_rewind", "-D", source, "--source-pgdata", target],
                  ["pg_resetwal", "-f", "-D", target], ["pg_walreplay", target], ["pg_walcompare", target, source]):
        if checks.is_built(words[0]):
            yield checks.answers(1, "", line % words[0], *words)


def killed(checks, name, words, cluster, source, mark, points):
    """Runs over copies of a cluster, each killed at one of these changes. Whether runs can be killed here."""
    machine, target = checks.machine, checks.machine.path("stopped16")
    for kind, number in points:
        shutil.copytree(cluster, target)
        ended = server_stops.run_until(kind, number, [checks.program, *words], machine.env)
        if ended is None:
            checks.skip("a %s that is killed" % name, "calls can't be traced here")
            shutil.rmtree(target)
            return False
        left = tree(target)
        checks.expect("a %s that is killed at its %s %d leaves a target that is refused" % (name, kind, number),
                      not ended and "it came to its end", mark not in left and "there is no mark",
                      *refusals(checks, target, source, mark), left != tree(target) and "a refusal has changed it")
        shutil.rmtree(target)
    return True


def stops(checks, old, new):
    """Rewinds that are killed where the mark is still empty, before its plan is written out to the disk, at a copy, at a cut, at a
    removal, and where all is done but written out to the disk."""
    machine, target, source = checks.machine, checks.machine.path("stopped16"), new + "16"
    words = ["pg_rewind", "-D", target, "--source-pgdata", source]
    source_before = tree(source)
    points = ("write", 1), ("sync", 3), ("write", 300), ("cut", 100), ("remove", 50), ("sync", 5)
    if not killed(checks, "rewind", words, old + "16", source, MARK, points):
        return
    for command in ("pg_walreplay", "pg_walcompare"):
        if not checks.is_built(command):
            checks.skip("%s refuses a rewind that was killed" % command, "it answers NotBuilt")
    shutil.copytree(old + "16", target)
    checks.ours(*words)
    convert(16, machine.version, target, machine.path("stopped"))
    again = Rewound(machine, machine.path("rewound"), machine.path("stopped"), old, new)
    checks.expect("after them a new copy is rewound to the same tree", again.differences(),
                  again.touched and "other blocks were copied", source_before != tree(source) and "the source has changed")
    shutil.rmtree(target)
    shutil.rmtree(machine.path("stopped"))


def resumes(checks, old, new):
    """Rewinds that are killed, the first two before their mark is whole, and completed by --resume: at once, or after a resume that
    is killed too."""
    machine, target, source = checks.machine, checks.machine.path("stopped16"), new + "16"
    words = ["-D", target, "--source-pgdata", source]
    points = (("write", 1, None), ("sync", 3, ("write", 1)),
              ("write", 300, None), ("cut", 100, ("write", 200)), ("remove", 50, ("remove", 40)), ("sync", 5, ("cut", 20)))
    for kind, number, more in points:
        shutil.copytree(old + "16", target)
        stop = [(kind, number, ["pg_rewind", *words])] + ([(*more, ["pg_rewind", "--resume", *words])] if more else [])
        ended = [server_stops.run_until(at, turn, [checks.program, *run], machine.env) for at, turn, run in stop]
        if None in ended:
            checks.skip("a rewind that is resumed", "calls can't be traced here")
            shutil.rmtree(target)
            return
        left = tree(target)
        wanted = report(checks.ours, "-n", "--resume", *words)
        changed = left != tree(target) and "a dry run has changed it"
        seen = report(checks.ours, "--resume", *words)
        convert(16, machine.version, target, machine.path("stopped"))
        again = Rewound(machine, machine.path("rewound"), machine.path("stopped"), old, new)
        checks.expect("a rewind that was killed at its %s %d%s is completed by --resume" % (kind, number, ", and again," if more else ""),
                      not all(ended) and "it came to its end", changed, unequal(wanted, seen),
                      "" if seen[2].endswith("Done!\n") else "nothing was to be done",
                      again.differences(), again.touched and "other blocks were copied")
        shutil.rmtree(target)
        shutil.rmtree(machine.path("stopped"))


def replay_stops(checks, new):
    """Replays that are killed where the mark is still empty, at a block, and where all is done but written out to the disk."""
    if not checks.is_built("pg_walreplay"):
        checks.skip("a replay that is killed", "pg_walreplay answers NotBuilt")
        return
    machine = checks.machine
    killed(checks, "replay", ["pg_walreplay", machine.path("stopped16")], machine.path("rewound16"), new + "16", REPLAY_MARK,
           (("write", 1), ("write", 9000), ("sync", 3)))


def compared(path, trees):
    """Whether replay has to leave this path as the server does."""
    relation = re.fullmatch(r"((?:global|base/\d+)/\d+)(_vm|_init)?(\.\d+)?", path)
    if relation:
        unlogged = not relation[2] and any(relation[1] + "_init" in side for side in trees)
        return not unlogged
    return path.startswith(("pg_xact/", "pg_multixact/")) or path.endswith("pg_filenode.map")


def masked(root, path):
    """What replay is compared by: of a map's page all but its header."""
    if "_vm" in path:
        return [page[24:] for page in blocks(root, path)]
    if MAIN_FORK.fullmatch(path.replace("_init", "")):
        return [server_masks.mask(page, block) for block, page in enumerate(blocks(root, path))]
    return blocks(root, path)


def replay(checks, server, end):
    """The log that came with the rewound cluster, replayed by the program and, up to this position, by a server, which is
    stopped by now."""
    machine = checks.machine
    target = shutil.copytree(machine.path("rewound16"), machine.path("replayed16"))
    before = tree(target)
    ended = checks.ours("pg_walreplay", target)
    line = re.fullmatch(r"pg_walreplay: replayed (\d+) records to (\S+) on timeline 2\n", ended.stdout)
    trees = tree(target), tree(server.data)
    differ = [path for path in sorted(set(trees[0]) | set(trees[1])) if compared(path, trees)
              and ((path in trees[0]) != (path in trees[1]) or masked(target, path) != masked(server.data, path))]
    checks.expect("pg_walreplay replays the log of a rewound cluster", ended.stderr,
                  unequal(end, line[2]) if line else "it says %r" % ended.stdout)
    checks.expect("pg_walreplay leaves the relations and the status that a server leaves", ", ".join(differ))
    convert(16, machine.version, target, machine.path("replayed"))
    changed = [path for path in sorted(set(before) | set(trees[0])) if not path.startswith(REPLAYED)
               and before.get(path, "") != trees[0].get(path, "")]
    checks.expect("and the control file that a server leaves, no label and no mark, and the rest as it was", unequal_lines(*[
        control_lines(machine.done("pg_controldata", root), "pg_control last modified:")
        for root in (server.data, machine.path("replayed"))]), unequal(["backup_label"], changed))
    checks.expect("a replayed cluster isn't replayed again", checks.answers(
        1, "", "pg_walreplay: error: NoLabel %s\n" % target, "pg_walreplay", target))


def whole_copy(source, rewound, target):
    """What a rewind takes of the source, all of it, with the label and the control file that the rewind made."""
    shutil.copytree(source, target)
    for path in sorted(tree(target), reverse=True):
        name = os.path.basename(path)
        if "/" in path and path.split("/")[0] in EMPTIED or name in UNCOPIED or name.startswith("pg_internal.init"):
            full = os.path.join(target, path)
            os.rmdir(full) if os.path.isdir(full) else os.remove(full)
    for path in ("backup_label", "global/pg_control"):
        shutil.copy(os.path.join(rewound, path), os.path.join(target, path))
    return target


def comparison(checks, source):
    """The rewound cluster that was replayed, beside a whole copy of the source that is replayed too."""
    machine = checks.machine
    target = machine.path("replayed16")
    copy = whole_copy(source, machine.path("rewound16"), machine.path("copied16"))
    ended = checks.ours("pg_walreplay", copy)
    before = tree(target), tree(copy)
    checks.expect("pg_walcompare finds no difference between a rewound cluster and a whole copy, both replayed", ended.stderr,
                  checks.answers(0, "pg_walcompare: no difference\n", "", "pg_walcompare", target, copy))
    checks.expect("pg_walcompare refuses a cluster and what lies in it", checks.answers(
        1, "", "pg_walcompare: error: PathsOverlap\n", "pg_walcompare", target, os.path.join(target, "global")))
    checks.expect("pg_walcompare changes nothing", before != (tree(target), tree(copy)) and "something has changed")
    with open(os.path.join(copy, "global/pg_filenode.map"), "r+b") as changed:
        changed.seek(500)
        byte = changed.read(1)[0]
        changed.seek(500)
        changed.write(bytes([byte ^ 1]))
    checks.expect("pg_walcompare finds a byte of a relation map", checks.answers(
        1, "", "pg_walcompare: error: Differs global/pg_filenode.map\n", "pg_walcompare", target, copy))
    shutil.rmtree(copy)


def checked_by_amcheck(checks, name, server):
    machine = checks.machine
    control = os.path.join(machine.done("pg_config", "--sharedir").strip(), "extension", "amcheck.control")
    if not os.path.exists(control) or not os.path.exists(os.path.join(machine.programs, "pg_amcheck")):
        checks.skip("pg_amcheck of the %s cluster" % name, "it isn't on this machine")
        return
    ended = machine.real("pg_amcheck", "-h", server.socket, "-U", "postgres", "--all", "--install-missing", "--heapallindexed")
    checks.expect("pg_amcheck finds nothing in the %s cluster" % name, ended.returncode and "status %d" % ended.returncode,
                  ended.stdout, ended.stderr)


def standby(machine, name, old):
    """The server of a rewound cluster, with the settings that were its own before."""
    server = Server(machine, name)
    for settings in OWN_SETTINGS:
        shutil.copy(os.path.join(old.data, settings), server.data)
    server.settings("archive_mode = off")
    open(os.path.join(server.data, "standby.signal"), "w").close()
    return server


def followed(checks, new, followers):
    """The source under its server, and servers that follow it, by the names of their clusters. They are promoted at the end."""
    new.start()
    for server in followers.values():
        server.settings("primary_conninfo = 'host=%s user=postgres'" % new.socket)
        server.start()
    new.wait_for("(select count(*) from pg_stat_replication where state = 'streaming') = %d" % len(followers))
    new.ask("create table later as select g as id from generate_series(1, 100) g", "shop")
    dump = new.dump()
    for name, server in followers.items():
        server.wait_for("pg_last_wal_replay_lsn() >= '%s'" % new.ask("select pg_current_wal_insert_lsn()"))
        checks.expect("the %s cluster follows the source, and holds what the source holds" % name,
                      unequal_lines(dump, server.dump()), "" if len(dump) > 10000 else "%d lines" % len(dump))
    new.stop()
    for name, server in followers.items():
        server.promote()
        checked_by_amcheck(checks, name, server)


class RewoundByStandby(Rewound):
    """The same of a source that was shut down in recovery, but for the point from which on the result is consistent."""

    def control(self, root):
        return control_lines(self.machine.done("pg_controldata", root), "pg_control last modified:", *CONSISTENT)


def by_standby(checks, old, standby):
    """The primary that was, rewound by a standby that followed its successor and was stopped; beside the real one."""
    machine, source = checks.machine, standby.data + "16.stopped"
    target, real = machine.path("again16"), machine.path("again.real")
    convert(machine.version, 16, standby.data, source)
    shutil.copytree(old.data + "16", target)
    shutil.copytree(old.data, real)
    words = ["-D", target, "--source-pgdata", source]
    wanted = report(machine.real, "--no-sync", "-D", real, "--source-pgdata", standby.data)
    checks.expect("pg_rewind by a standby that was stopped reports what the real one does",
                  unequal(wanted, report(checks.ours, *words)), "" if wanted[2].endswith("Done!\n") else "nothing was to be done")
    convert(16, machine.version, target, machine.path("again"))
    pair = RewoundByStandby(machine, real, machine.path("again"), old.data, standby.data)
    points = [[line for line in machine.done("pg_controldata", root).split("\n") if line.startswith(CONSISTENT)]
              for root in (standby.data, machine.path("again"))]
    checks.expect("and leaves the tree of the real one, consistent where the standby is", pair.differences(), unequal_lines(*points))
    copy = whole_copy(source, target, machine.path("copied16"))
    replayed = [checks.ours("pg_walreplay", root) for root in (target, copy)]
    checks.expect("replayed, it is what a whole copy of the standby is", *[ended.stderr for ended in replayed], checks.answers(
        0, "pg_walcompare: no difference\n", "", "pg_walcompare", target, copy))
    for root in (target, source):
        checks.expect("a standby needs no rewind by a cluster on its timeline",
                      unequal((0, "", SAME_TIMELINE), report(checks.ours, "-D", root, "--source-pgdata", copy)))
    for root in (source, target, real, copy, machine.path("again")):
        shutil.rmtree(root)


def servers(checks, old, new):
    """The rewound cluster under a server, as docs/COMMANDS.md tells: alone, then behind the source, then promoted. Returns a
    cluster whose server was stopped hard behind a checkpoint, and what it held."""
    machine = checks.machine
    checkpoint = re.search(r"Latest checkpoint location: *(\S+)", machine.done("pg_controldata", new.data))[1]
    target = standby(machine, "rewound", old)
    target.start()
    target.wait_for("pg_last_wal_replay_lsn() > '%s'" % checkpoint)
    end = target.ask("select pg_last_wal_replay_lsn()")
    target.stop()
    checks.expect("a server starts on a rewound cluster, and reaches the end of its log")
    if checks.is_built("pg_walreplay") and checks.is_built("pg_walcompare"):
        by_standby(checks, old, target)
    followers = {"rewound": target}
    if checks.is_built("pg_walreplay"):
        replay(checks, target, end)
        if checks.is_built("pg_walcompare"):
            comparison(checks, new.data + "16")
        else:
            checks.skip("pg_walcompare of what pg_walreplay left", "it answers NotBuilt")
        followers["replayed"] = standby(machine, "replayed", old)
    else:
        checks.skip("pg_walreplay beside a server", "it answers NotBuilt")
    followed(checks, new, followers)
    dump = target.dump()
    target.ask("checkpoint")
    for server in followers.values():
        server.stop("immediate")
    return target.data, dump
