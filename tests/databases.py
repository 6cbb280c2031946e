#!/usr/bin/env python3
"""Databases under load, and how they are judged after a power cut: SQLite, and PostgreSQL and MariaDB if they are installed.

Each load commits rows numbered 1, 2, .. and moves money between accounts. After a cut no number may be missing before the last one, and the
sum of all accounts must be the same.
"""
import contextlib
import hashlib
import json
import os
import random
import signal
import sqlite3
import subprocess
import sys
import threading
import time

from cut_chain import ENVIRONMENT, run, unmount

ACCOUNTS = 1000


def text_of(number):
    return hashlib.sha1(b"%d" % number).hexdigest()


class Commits:
    """When each commit was confirmed, kept outside of the disk under test."""

    def __init__(self):
        self.moments = []

    def follow(self, process):
        def note():
            for _ in process.stdout:
                self.moments.append(time.time())

        threading.Thread(target=note, daemon=True).start()

    def lost(self, found, cut):
        """How many commits that were confirmed before a cut are missing, and the seconds from the first of them to the cut."""
        told = [moment for moment in self.moments if moment <= cut]
        if found >= len(told):
            return 0, 0.0
        return len(told) - found, cut - told[found]


def feed(process, statements, commits):
    """Sends statements to a client of a database, each after the answer to the one before it."""
    def go_on():
        number = 0
        with contextlib.suppress(OSError, ValueError):
            while True:
                number += 1
                process.stdin.write(statements(number).encode())
                process.stdin.flush()
                if process.stdout.readline().strip() != b"%d" % number:
                    return
                commits.moments.append(time.time())

    threading.Thread(target=go_on, daemon=True).start()


def children_of(parent):
    """The processes that a process has started."""
    found = []
    for name in filter(str.isdigit, os.listdir("/proc")):
        with contextlib.suppress(OSError, IndexError, ValueError), open(f"/proc/{name}/stat", encoding="utf-8") as file:
            if int(file.read().rsplit(")", 1)[1].split()[1]) == parent:
                found.append(int(name))
    return found


def end(processes):
    """Kills processes, and waits until they are gone."""
    for process in processes:
        with contextlib.suppress(ProcessLookupError):
            os.kill(process, signal.SIGKILL)
    for _ in range(200):
        if not any(is_alive(process) for process in processes):
            return
        time.sleep(0.05)


def is_alive(process):
    try:
        with open(f"/proc/{process}/stat", encoding="utf-8") as file:
            return file.read().rsplit(")", 1)[1].split()[0] != "Z"
    except OSError:
        return False


def make_file_system(folder, raw, databases):
    """Makes ext4 with the databases in a file."""
    mount = f"{folder}/prepared"
    run(["mkfs.ext4", "-q", "-F", "-E", "nodiscard,lazy_itable_init=0,lazy_journal_init=0", raw])
    os.makedirs(mount)
    run(["mount", "-o", "loop", raw, mount])
    try:
        for database in databases:
            database.make(mount, f"{folder}/room")
    finally:
        unmount(mount)


class Sqlite:
    """A database of SQLite in a journal mode. `DELETE` wants EXTRA: FULL doesn't sync the removal that commits."""

    is_there = True

    def __init__(self, name, mode):
        self.name, self.mode = name, mode

    def path(self, folder):
        return f"{folder}/{self.name}.db"

    def make(self, folder, room):
        connection = self.connect(self.path(folder))
        connection.executescript("""
            create table numbers(number integer primary key, text text, padding blob);
            create table accounts(id integer primary key, balance integer, padding blob);
            create index texts on numbers(text);
        """)
        connection.execute("begin")
        connection.executemany("insert into accounts values(?, 1000, zeroblob(300))", [(at,) for at in range(ACCOUNTS)])
        connection.execute("commit")
        connection.close()

    def connect(self, path):
        connection = sqlite3.connect(path, isolation_level=None, timeout=30)
        connection.execute(f"pragma journal_mode={self.mode}")
        connection.execute(f"pragma synchronous={'FULL' if self.mode == 'wal' else 'EXTRA'}")
        connection.execute("pragma wal_autocheckpoint=300")
        return connection

    def start(self, folder, room):
        """Starts a process that commits until it is killed; its commits."""
        process = subprocess.Popen([sys.executable, os.path.abspath(__file__), "load", self.name, self.mode, folder], env=ENVIRONMENT, stdin=subprocess.DEVNULL,
                                   stdout=subprocess.PIPE, stderr=subprocess.DEVNULL)
        self.process = process
        commits = Commits()
        commits.follow(process)
        return commits

    def kill(self):
        self.process.kill()
        self.process.wait()

    def load(self, folder):
        connection, drawn, number = self.connect(self.path(folder)), random.Random(), 0
        while True:
            number += 1
            connection.execute("begin immediate")
            connection.execute("insert into numbers values(?, ?, ?)", (number, text_of(number), drawn.randbytes(drawn.choice((50, 400, 3000)))))
            one, other = drawn.sample(range(ACCOUNTS), 2)
            connection.execute("update accounts set balance = balance - 7 where id = ?", (one,))
            connection.execute("update accounts set balance = balance + 7 where id = ?", (other,))
            connection.execute("commit")
            os.write(1, b"%d\n" % number)

    def judge(self, folder, room):
        """What is wrong, and the last number; in a process of its own, so that no handle of a broken file system stays."""
        status, text = run([sys.executable, os.path.abspath(__file__), "judge", self.name, self.mode, folder], check=False)
        try:
            return json.loads(text.strip().splitlines()[-1])
        except (IndexError, ValueError):
            return [f"{self.name}: the judge ended with status {status}: {text[-200:]}"], 0

    def judge_here(self, folder):
        wrong, last = [], 0
        try:
            connection = sqlite3.connect(self.path(folder))
            if (found := connection.execute("pragma integrity_check").fetchall()) != [("ok",)]:
                wrong.append(f"{self.name}: integrity_check: {str(found[0])[:100]!r}")
            count, last = connection.execute("select count(*), coalesce(max(number), 0) from numbers").fetchone()
            if count != last:
                wrong.append(f"{self.name}: {count} rows up to {last}")
            if any(text != text_of(number) for number, text in connection.execute("select number, text from numbers")):
                wrong.append(f"{self.name}: a wrong row")
            if (sums := connection.execute("select sum(balance), count(*) from accounts").fetchone()) != (1000 * ACCOUNTS, ACCOUNTS):
                wrong.append(f"{self.name}: sums {sums}")
        except sqlite3.Error as error:
            wrong.append(f"{self.name}: {error}")
        return wrong, last


class Postgres:
    """A cluster of PostgreSQL that checkpoints every 1.5 s, under pgbench and a client of its own. Its pages have checksums, and full_page_writes is on as by default."""

    name = "postgres"
    programs = "/usr/lib/postgresql/15/bin"
    is_there = os.path.exists(f"{programs}/initdb") and os.path.exists(f"{programs}/pg_amcheck")

    def command(self, *words, **settings):
        """Runs one of its programs, as the user postgres."""
        return run(["runuser", "-u", "postgres", "--", f"{self.programs}/{words[0]}", *words[1:]], cwd="/", **settings)

    def make(self, folder, room):
        data = f"{folder}/postgres"
        os.makedirs(data)
        run(["chown", "postgres", data])
        os.chmod(data, 0o700)
        self.command("initdb", "-k", "-D", data, "-A", "trust", "-E", "UTF8", "--locale=C", "--wal-segsize=1")
        with open(f"{data}/postgresql.conf", "a", encoding="utf-8") as file:
            file.write("listen_addresses = ''\nshared_buffers = 16MB\nmax_wal_size = 32MB\nmin_wal_size = 8MB\nbgwriter_delay = 10ms\n")
        self.launch(folder, room)
        run([f"{self.programs}/pgbench", "-h", room, "-U", "postgres", "-i", "-q", "-s", "1", "postgres"])
        self.query(room, "create extension amcheck; create table numbers(number int primary key, text text)")
        self.stop(folder)

    def launch(self, folder, room, *settings):
        os.makedirs(room, exist_ok=True)
        os.chmod(room, 0o777)
        words = " ".join(["-c", f"unix_socket_directories={room}", *settings])
        status, text = self.command("pg_ctl", "-D", f"{folder}/postgres", "-l", f"{room}/log", "-w", "-t", "60", "-o", words, "start", check=False)
        if status:
            raise RuntimeError(f"postgres doesn't start: {text[-200:]!r}")

    def stop(self, folder):
        self.command("pg_ctl", "-D", f"{folder}/postgres", "-m", "fast", "-w", "-t", "20", "stop", check=False)

    def query(self, room, text):
        return run(["psql", "-h", room, "-U", "postgres", "-qAt", "-v", "ON_ERROR_STOP=1", "-c", text, "postgres"]).strip()

    def client(self, room):
        return subprocess.Popen(["psql", "-h", room, "-U", "postgres", "-qAt", "-v", "ON_ERROR_STOP=1", "postgres"], env=ENVIRONMENT, stdin=subprocess.PIPE,
                                stdout=subprocess.PIPE, stderr=subprocess.DEVNULL)

    def start(self, folder, room):
        self.launch(folder, room)
        with open(f"{folder}/postgres/postmaster.pid", encoding="utf-8") as file:
            self.server = int(file.readline())
        bench = subprocess.Popen([f"{self.programs}/pgbench", "-h", room, "-U", "postgres", "-n", "-c", "3", "-j", "2", "-T", "3000", "postgres"], env=ENVIRONMENT,
                                 stdin=subprocess.DEVNULL, stdout=subprocess.DEVNULL, stderr=subprocess.DEVNULL)
        numbers, checkpoints, commits = self.client(room), self.client(room), Commits()
        self.clients = [bench, numbers, checkpoints]
        feed(numbers, lambda number: f"insert into numbers values({number}, '{text_of(number)}') returning number;\n", commits)
        feed(checkpoints, lambda number: f"select pg_sleep(1.5)::text is null; checkpoint; select {number};\n", Commits())
        return commits

    def kill(self):
        for client in self.clients:
            client.kill()
            client.wait()
        end([self.server, *children_of(self.server)])

    def judge(self, folder, room):
        wrong, last = [], 0
        for path in (f"{folder}/postgres/postmaster.pid", f"{room}/.s.PGSQL.5432.lock", f"{room}/.s.PGSQL.5432"):
            # (of the killed server, whose number may belong to another process now)
            with contextlib.suppress(FileNotFoundError):
                os.unlink(path)
        try:
            self.launch(folder, room, "-c", "fsync=off")
        except RuntimeError as error:
            return [str(error)], 0
        try:
            sums = self.query(room, "select (select sum(abalance) from pgbench_accounts), (select sum(tbalance) from pgbench_tellers), "
                                    "(select sum(bbalance) from pgbench_branches), (select coalesce(sum(delta), 0) from pgbench_history)").split("|")
            if len(set(sums)) != 1:
                wrong.append(f"postgres: sums {sums}")
            count, last = map(int, self.query(room, "select count(*), coalesce(max(number), 0) from numbers").split("|"))
            if count != last:
                wrong.append(f"postgres: {count} rows up to {last}")
            status, text = run([f"{self.programs}/pg_amcheck", "-h", room, "-U", "postgres", "--heapallindexed", "-d", "postgres"], check=False)
            if status:
                wrong.append(f"postgres: pg_amcheck: {text[:150]!r}")
        except RuntimeError as error:
            wrong.append(f"postgres: {str(error)[-200:]!r}")
        self.stop(folder)
        status, text = self.command("pg_checksums", "--check", "-D", f"{folder}/postgres", check=False)
        if status:
            wrong.append(f"postgres: pg_checksums: {text[:150]!r}")
        return wrong, last


class MariaDb:
    """A server of MariaDB with InnoDB: direct I/O, a sync at each commit and the doublewrite buffer, as by default."""

    name = "mariadb"
    program = "/usr/sbin/mariadbd"
    is_there = os.path.exists(program) and os.path.exists("/usr/bin/innochecksum")
    tables = ("numbers", "accounts")

    def make(self, folder, room):
        data = f"{folder}/mariadb"
        os.makedirs(data)
        run(["chown", "mysql", data])
        run(["mariadb-install-db", "--no-defaults", "--user=mysql", f"--datadir={data}", "--auth-root-authentication-method=normal", "--skip-test-db",
             "--innodb-log-file-size=16M"])
        self.launch(folder, room)
        self.query(room, "create database bank; use bank; create table numbers(number int primary key, text varchar(40)) engine=innodb; "
                         "create table accounts(id int primary key, balance int, padding varbinary(300)) engine=innodb; "
                         f"insert into accounts select seq, 1000, repeat('x', 300) from seq_0_to_{ACCOUNTS - 1}")
        self.stop()

    def launch(self, folder, room, *settings):
        os.makedirs(room, exist_ok=True)
        os.chmod(room, 0o777)
        self.process = subprocess.Popen([self.program, "--no-defaults", "--user=mysql", f"--datadir={folder}/mariadb", f"--socket={room}/mariadb.sock",
                                         "--skip-networking", "--innodb-buffer-pool-size=16M", "--innodb-log-file-size=16M", "--innodb-flush-method=O_DIRECT",
                                         f"--log-error={room}/mariadb.log", "--innodb-max-dirty-pages-pct-lwm=1", *settings],
                                        env=ENVIRONMENT, stdin=subprocess.DEVNULL, stdout=subprocess.DEVNULL, stderr=subprocess.DEVNULL, cwd="/")
        for _ in range(1200):
            status, _ = run(["mariadb-admin", "--no-defaults", "-uroot", "-S", f"{room}/mariadb.sock", "ping"], check=False)
            if status == 0:
                return
            if self.process.poll() is not None:
                break
            time.sleep(0.05)
        with open(f"{room}/mariadb.log", errors="replace", encoding="utf-8") as file:
            raise RuntimeError(f"mariadbd doesn't start: {file.read()[-300:]!r}")

    def stop(self):
        self.process.terminate()
        try:
            self.process.wait(30)
        except subprocess.TimeoutExpired:
            self.kill()

    def query(self, room, text):
        return run(["mariadb", "--no-defaults", "-uroot", "-S", f"{room}/mariadb.sock", "-N", "-B", "-e", text]).strip()

    def start(self, folder, room):
        self.launch(folder, room)
        client = subprocess.Popen(["mariadb", "--no-defaults", "-uroot", "-S", f"{room}/mariadb.sock", "-N", "-B", "-n", "bank"], env=ENVIRONMENT,
                                  stdin=subprocess.PIPE, stdout=subprocess.PIPE, stderr=subprocess.DEVNULL)
        drawn, commits = random.Random(), Commits()

        def statements(number):
            one, other = drawn.sample(range(ACCOUNTS), 2)
            return (f"begin; insert into numbers values({number}, '{text_of(number)}'); update accounts set balance = balance - 7 where id = {one}; "
                    f"update accounts set balance = balance + 7 where id = {other}; commit; select {number};\n")

        self.client = client
        feed(client, statements, commits)
        return commits

    def kill(self):
        if client := getattr(self, "client", None):
            client.kill()
            client.wait()
        self.process.kill()
        self.process.wait()

    def judge(self, folder, room):
        wrong, last = [], 0
        try:
            self.launch(folder, room, "--innodb-flush-log-at-trx-commit=0")
        except RuntimeError as error:
            return [str(error)], 0
        try:
            count, last = map(int, self.query(room, "select count(*), coalesce(max(number), 0) from bank.numbers").split())
            if count != last:
                wrong.append(f"mariadb: {count} rows up to {last}")
            if (sums := self.query(room, "select sum(balance), count(*) from bank.accounts").split()) != [str(1000 * ACCOUNTS), str(ACCOUNTS)]:
                wrong.append(f"mariadb: sums {sums}")
            for table in self.tables:
                if not (said := self.query(room, f"check table bank.{table} extended")).endswith("OK"):
                    wrong.append(f"mariadb: check table {table}: {said[:150]!r}")
        except RuntimeError as error:
            wrong.append(f"mariadb: {str(error)[-200:]!r}")
        self.stop()
        for table in self.tables:
            status, text = run(["innochecksum", f"{folder}/mariadb/bank/{table}.ibd"], check=False)
            if status:
                wrong.append(f"mariadb: innochecksum {table}: {text[:120]!r}")
        return wrong, last


if __name__ == "__main__":
    task, name, mode, folder = sys.argv[1:]
    if task == "load":
        Sqlite(name, mode).load(folder)
    else:
        print(json.dumps(Sqlite(name, mode).judge_here(folder)))
