"""The three kinds of databases that RT stands on, each in a folder of its own, started and stopped
here: nobody else reaches it. RT's words for it are given by the environment."""
import glob
import os
import shutil
import sqlite3
import subprocess
import time

NOBODY = 65534    # PostgreSQL's server refuses to be run by root
BOOT = 60


class Sqlite:
    name = "SQLite"

    def __init__(self, _, room):
        self.room, self.path = room, os.path.join(room, "rt.db")

    def start(self):
        os.makedirs(self.room, exist_ok=True)
        if os.path.exists(self.path):
            os.remove(self.path)

    def stop(self):
        pass

    def words(self):
        return {"RT_TRY_TYPE": "SQLite", "RT_TRY_NAME": self.path}

    def sql(self, text):
        file = sqlite3.connect(self.path)
        file.executescript(text)
        file.close()

    def keep(self):
        """Keeps the tables as they are, and again puts them back so."""
        shutil.copy(self.path, self.path + ".kept")

    def again(self):
        shutil.copy(self.path + ".kept", self.path)

    def tsv(self, text, out):
        """What a statement answers, words between tabs."""
        with open(out, "wb") as file:
            subprocess.run(["sqlite3", "-readonly", "-tabs", self.path], input=text.encode(), stdout=file,
                           check=True)

    def tables(self):
        """Where the tables stand as from_rt.py reads them, once they are written."""
        return self.path

    def written(self, _):
        return self.path


class Server:
    """A server of a database, with its client."""

    def __init__(self, packages, room):
        self.packages, self.room = packages, room
        self.data, self.process = os.path.join(room, "data"), None

    def program(self, name, *folders):
        found = [path for folder in folders for top in (self.packages.root, "/")
                 for path in glob.glob(os.path.join(top, folder, name))]
        return found[0]

    def run(self, *words, **how):
        return subprocess.run(words, env=self.packages.environment(), check=True, **how)

    def serve(self, *words, **how):
        with open(os.path.join(self.room, "server.log"), "ab") as log:
            self.process = subprocess.Popen(words, env=self.packages.environment(), stdout=log,
                                            stderr=log, cwd=self.room, **how)
        end = time.monotonic() + BOOT
        while self.process.poll() is None and time.monotonic() < end:
            if subprocess.run([*self.client(None)], input=b"SELECT 1;", env=self.packages.environment(),
                              stdout=subprocess.DEVNULL, stderr=subprocess.DEVNULL).returncode == 0:
                return
            time.sleep(0.2)
        raise RuntimeError(f"{self.name} doesn't start: {self.room}/server.log")

    def stop(self):
        if self.process:
            self.process.terminate()
            self.process.wait(BOOT)
            self.process = None

    def sql(self, text):
        self.run(*self.client("rt"), input=text.encode(), stdout=subprocess.DEVNULL)

    def tables(self):
        return os.path.join(self.room, "tables")

    def written(self, program):
        """Lets the client write them, by from_rt.py's program."""
        with open(self.tables(), "wb") as file:
            self.run("sh", program, *self.client("rt")[1:], stdout=file)
        return self.tables()


class Postgres(Server):
    name = "PostgreSQL"
    program_of = "psql"

    def client(self, database):
        return [self.program("psql", "usr/lib/postgresql/*/bin"), "-h", self.room, "-U", "rt",
                "-d", database or "postgres", "-v", "ON_ERROR_STOP=1", "-q"]

    def start(self):
        how = {"user": NOBODY, "group": NOBODY, "extra_groups": []} if os.getuid() == 0 else {}
        os.makedirs(self.room, exist_ok=True)
        if how:
            os.chown(self.room, NOBODY, NOBODY)
        initdb = self.program("initdb", "usr/lib/postgresql/*/bin")
        self.run(initdb, "-D", self.data, "-U", "rt", "-A", "trust", "-E", "UTF8", "--locale=C.UTF-8",
                 stdout=subprocess.DEVNULL, cwd=self.room, **how)
        self.serve(self.program("postgres", "usr/lib/postgresql/*/bin"), "-D", self.data, "-k", self.room,
                   "-c", "listen_addresses=", "-c", "fsync=off", **how)
        self.run(*self.client(None), input=b"CREATE DATABASE rt;")

    def keep(self):
        self.run(*self.client(None), input=b"CREATE DATABASE kept TEMPLATE rt;")

    def again(self):
        self.run(*self.client(None), input=b"DROP DATABASE rt;\nCREATE DATABASE rt TEMPLATE kept;")

    def words(self):
        return {"RT_TRY_TYPE": "Pg", "RT_TRY_NAME": "rt", "RT_TRY_HOST": self.room, "RT_TRY_USER": "rt"}

    def tsv(self, text, out):
        with open(out, "wb") as file:
            self.run(*self.client("rt"), "-At", "-F", "\t", input=text.encode(), stdout=file)


class MariaDB(Server):
    name = "MariaDB"
    program_of = "mysql"

    def client(self, database):
        return [self.program("mariadb", "usr/bin"), "--no-defaults", "--socket", self.socket(), "-u", "root",
                *([database] if database else [])]

    def socket(self):
        return os.path.join(self.room, "s")

    def start(self):
        os.makedirs(self.room, exist_ok=True)
        usr = os.path.dirname(os.path.dirname(self.program("mariadbd", "usr/sbin")))
        words = ["--no-defaults", f"--basedir={usr}", f"--datadir={self.data}", "--user=root"]
        self.run("sh", os.path.join(usr, "bin", "mariadb-install-db"), *words,
                 "--auth-root-authentication-method=normal", "--skip-test-db", stdout=subprocess.DEVNULL)
        self.serve(os.path.join(usr, "sbin", "mariadbd"), *words, "--skip-networking",
                   f"--socket={self.socket()}", f"--plugin-dir={usr}/lib/mysql/plugin",
                   f"--lc-messages-dir={usr}/share/mysql", "--innodb-flush-log-at-trx-commit=0",
                   "--character-set-server=utf8mb4", "--max-allowed-packet=64M")
        self.run(*self.client(None), input=b"CREATE DATABASE rt CHARACTER SET utf8mb4;")

    def sql(self, text):
        """By the rules of an old server, which take a date of zeros, and with counting of any length."""
        super().sql("SET SESSION sql_mode = '', max_recursive_iterations = 100000;\n" + text)

    def keep(self):
        dump = self.client("rt")
        dump[0] = self.program("mariadb-dump", "usr/bin")
        with open(os.path.join(self.room, "kept.sql"), "wb") as file:
            self.run(*dump, stdout=file)

    def again(self):
        with open(os.path.join(self.room, "kept.sql"), "rb") as file:
            self.run(*self.client("rt"), stdin=file)

    def words(self):
        return {"RT_TRY_TYPE": "mysql", "RT_TRY_NAME": "rt", "RT_TRY_HOST": "localhost", "RT_TRY_USER": "root",
                "RT_TRY_SOCKET": self.socket()}

    def tsv(self, text, out):
        with open(out, "wb") as file:
            self.run(*self.client("rt"), "-N", "-B", input=text.encode(), stdout=file)


SERVERS = {"sqlite": Sqlite, "postgresql": Postgres, "mariadb": MariaDB}
