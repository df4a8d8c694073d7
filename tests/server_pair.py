"""PostgreSQL servers in a folder of their own, and the pair of clusters that tests/servers looks at."""
import os
import re
import subprocess
import time

HERE = os.path.dirname(os.path.abspath(__file__))
SETTINGS = """
listen_addresses = ''
wal_log_hints = on
autovacuum = off
fsync = off
shared_buffers = 16MB
checkpoint_timeout = 1h
wal_keep_size = 64MB
min_wal_size = 2MB
wal_retrieve_retry_interval = 100ms
archive_mode = on
archive_command = 'cp "%p" "{archive}/%f"'
"""


class Machine:
    """A folder to work in, and the programs of one version of PostgreSQL."""

    def __init__(self, work, programs):
        self.work, self.programs = work, programs
        version = subprocess.run([os.path.join(programs, "postgres"), "--version"], capture_output=True, text=True)
        self.version = int(re.search(r"\) (\d+)", version.stdout).group(1))
        self.env = {"PATH": "/usr/local/bin:/usr/bin:/bin", "HOME": work, "LC_ALL": "C", "TZ": "UTC"}

    def path(self, *names):
        return os.path.join(self.work, *names)

    def real(self, name, *words):
        """Runs one of PostgreSQL's own programs, however it ends."""
        return self.run(os.path.join(self.programs, name), *words)

    def run(self, *words):
        return subprocess.run([str(word) for word in words], env=self.env, cwd=self.work, stdin=subprocess.DEVNULL,
                              stdout=subprocess.PIPE, stderr=subprocess.PIPE, text=True, timeout=120)

    def done(self, name, *words):
        """The output of one of PostgreSQL's own programs, which has to succeed."""
        ended = self.real(name, *words)
        if ended.returncode:
            raise RuntimeError(" ".join([name, *map(str, words)]) + ": " + (ended.stderr or ended.stdout).strip())
        return ended.stdout


class Server:
    """The server of one data folder. Its socket lies in a folder beside that, so that it needs no port."""

    def __init__(self, machine, name):
        self.machine, self.name = machine, name
        self.data, self.socket, self.log = (machine.path(name + end) for end in ("", ".socket", ".log"))
        os.makedirs(self.socket, exist_ok=True)

    def settings(self, text):
        with open(os.path.join(self.data, "postgresql.conf"), "a") as out:
            out.write(text + "\nunix_socket_directories = '%s'\n" % self.socket)

    def start(self):
        os.chmod(self.data, 0o700)
        ended = self.machine.real("pg_ctl", "-D", self.data, "-l", self.log, "-w", "-t", 60, "-s", "start")
        if ended.returncode:
            with open(self.log) as log:
                raise RuntimeError("the server of %s doesn't start: %s" % (self.name, "".join(log.readlines()[-4:])))

    def stop(self, how="fast"):
        self.machine.done("pg_ctl", "-D", self.data, "-m", how, "-w", "-t", 60, "-s", "stop")

    def promote(self):
        self.machine.done("pg_ctl", "-D", self.data, "-w", "-t", 60, "-s", "promote")

    def psql(self, database, *words):
        return self.machine.done("psql", "-h", self.socket, "-U", "postgres", "-d", database, "-XAtq",
                                 "-v", "ON_ERROR_STOP=1", *words)

    def ask(self, query, database="template1"):
        return self.psql(database, "-c", query).strip()

    def script(self, name, database, side=0):
        self.psql(database, "-v", "side=%d" % side, "-f", os.path.join(HERE, name))

    def wait_for(self, query):
        """Waits until the answer to the query is yes."""
        for _ in range(600):
            if self.ask("select (%s)::text" % query) == "true":
                return
            time.sleep(0.1)
        raise RuntimeError("%s: never true on the server of %s" % (query, self.name))

    def dump(self):
        """All that the server holds as SQL, but for what unlogged tables hold and lines that hang on the run."""
        text = self.machine.done("pg_dumpall", "-h", self.socket, "-U", "postgres", "--no-unlogged-table-data")
        return [line for line in text.split("\n") if not line.startswith(("\\restrict", "\\unrestrict"))]


def lock_what_is_updated(server, database):
    """A lock on rows that another transaction updates at that time."""
    words = [os.path.join(server.machine.programs, "psql"), "-h", server.socket, "-U", "postgres", "-d", database, "-XAtq"]
    other = subprocess.Popen(words, env=server.machine.env, stdin=subprocess.PIPE, stdout=subprocess.PIPE, text=True)
    print("begin; update locked set line = line || 'u' where id between 50 and 60; select 'there';", file=other.stdin,
          flush=True)
    other.stdout.readline()
    server.ask("begin; select count(*) from (select from locked where id between 50 and 60 for key share) q; commit", database)
    other.communicate("commit;\n")


def make_pair(machine):
    """Leaves two clusters that were one, both shut down, and an archive that both filled: `old` is the primary that
    was, `new` the standby that was promoted while `old` went on."""
    old, new = Server(machine, "old"), Server(machine, "new")
    os.mkdir(machine.path("archive"))
    machine.done("initdb", "-D", old.data, "--wal-segsize=1", "-E", "UTF8", "--locale=C", "-A", "trust", "-U", "postgres",
                 "--no-sync")
    # the next transactions and multixacts are at the end of a page
    machine.done("pg_resetwal", "-D", old.data, "-x", 32300, "-m", "2047,1", "-O", 1633)
    old.settings(SETTINGS.format(archive=machine.path("archive")))
    old.start()
    old.ask("drop database postgres")  # which nothing here needs
    for database in ("shop", "only_new_keeps", "only_old_keeps"):
        old.ask("create database %s strategy = wal_log" % database)
    for database in ("shop", "only_new_keeps"):
        old.script("server_tables.sql", database)
    machine.done("pg_basebackup", "-h", old.socket, "-U", "postgres", "-D", new.data, "-X", "stream", "-c", "fast", "-R",
                 "--no-sync")
    new.settings("")
    new.start()
    old.script("server_changes.sql", "shop", 1)
    new.wait_for("pg_last_wal_replay_lsn() >= '%s'" % old.ask("select pg_current_wal_insert_lsn()"))
    new.promote()
    for server, side in ((old, 2), (new, 3)):
        server.script("server_changes.sql", "shop", side)
        lock_what_is_updated(server, "shop")
    old.ask("drop database only_new_keeps")
    new.ask("drop database only_old_keeps")
    for server, name in ((old, "made_by_old"), (new, "made_by_new")):
        server.ask("create database %s strategy = wal_log" % name)
        server.script("server_tables.sql", name)
        server.stop()
    return old, new
