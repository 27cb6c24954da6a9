"""The programs of the desk on the office's clock: `desk_web` as a server, and the others beside it.

The clock is Debian's libfaketime: it reads the moment from a file at each look at the clock, and leaves
the time that waits are measured by as it is."""
import os
import subprocess
import time

from client import free_port, message, said

from office.setup import minute
from office.ways import reply_to

FAKETIME = "/usr/lib/x86_64-linux-gnu/faketime/libfaketimeMT.so.1"
# the seconds after which a program counts as one that doesn't end, on a machine that does much else
PATIENCE = 1800


class Clock:
    """The minute of the office, in a file."""

    def __init__(self, path):
        self.path, self.now = path, None
        self.set(minute(2026, 1, 1))

    def set(self, moment):
        if moment == self.now:
            return
        with open(self.path + ".new", "w", encoding="ascii") as file:
            file.write(time.strftime("%Y-%m-%d %H:%M:30", time.gmtime(moment * 60)))
        os.replace(self.path + ".new", self.path)
        self.now = moment

    def around(self):
        """The variables by which a program goes by it."""
        return {**os.environ, "LD_PRELOAD": FAKETIME, "FAKETIME_TIMESTAMP_FILE": self.path,
                "FAKETIME_NO_CACHE": "1", "FAKETIME_DONT_FAKE_MONOTONIC": "1", "TZ": "UTC"}


class Programs:
    """Where the programs are, and the folder with the tables and the settings."""

    def __init__(self, bins, room):
        self.bins, self.room = bins, room
        self.clock = Clock(self.path("clock"))
        self.options = ["--db", self.path("desk.db"), "--settings", self.path("settings.toml")]

    def path(self, name):
        return os.path.join(self.room, name)

    def bin(self, name):
        return self.bins.get(name) or os.path.join(self.bins["all"], name)

    def write(self, name, text):
        with open(self.path(name), "w", encoding="utf-8", newline="") as file:
            file.write(text)
        os.chmod(self.path(name), 0o600)

    def run(self, name, words, given=b"", **how):
        """What a program prints, its status, and what goes to its standard error."""
        ended = subprocess.run([self.bin(name), *words], input=given, capture_output=True, timeout=PATIENCE,
                               check=False, **how)
        return ended.stdout.decode(errors="replace"), ended.returncode, ended.stderr.decode(errors="replace")

    def command(self, ask, words):
        """One command on the file."""
        return self.run("desk", [*self.options, "--caller", ask.by, "--at", str(ask.at), *words])[:2]

    def load(self, lines, *options, **how):
        return self.run("desk_load", [*self.options, *options], lines, **how)


class Server:
    """`desk_web` on the file of the office."""

    def __init__(self, programs, tables="desk.db"):
        self.programs, self.tables, self.child, self.port = programs, tables, None, 0
        self.starts, self.slowest_start, self.told, self.most = 0, 0.0, b"", 0

    def start(self):
        """Whether it listens. What it told instead is kept."""
        programs, self.port, began = self.programs, free_port(), time.monotonic()
        words = [programs.bin("desk_web"), "--db", programs.path(self.tables), "--settings",
                 programs.path("settings.toml"), "--port", str(self.port), "--copies", programs.path("copy.db")]
        self.child = subprocess.Popen(words, stdout=subprocess.PIPE, stderr=subprocess.PIPE,
                                      env=programs.clock.around(), cwd=programs.room)
        self.told = said(self.child, PATIENCE)
        self.starts, self.slowest_start = self.starts + 1, max(self.slowest_start, time.monotonic() - began)
        return self.told == b"listening %d\n" % self.port

    def runs(self):
        return self.child is not None and self.child.poll() is None

    def kill(self, signal):
        self.most = max(self.most, self.memory("VmHWM:"))
        self.child.send_signal(signal)
        return self.gone()

    def gone(self, seconds=PATIENCE):
        """How it ended: its status, what it printed since it listened, and its standard error."""
        try:
            status = self.child.wait(timeout=seconds)
        except subprocess.TimeoutExpired:
            self.child.kill()
            self.child.wait()
            status = None
        printed, errors = self.child.stdout.read(), self.child.stderr.read()
        self.child.stdout.close()
        self.child.stderr.close()
        self.child = None
        return status, printed, errors

    def stop(self, token):
        """Asks it to stop."""
        self.most = max(self.most, self.memory("VmHWM:"))
        reply = reply_to(self.port, message("POST /stop", token=token))
        return reply.rpartition(b"\r\n\r\n")[2], self.gone()

    def memory(self, which="VmRSS:"):
        """What it holds of memory, in KiB, or by `VmHWM:` what it held at most. One that has ended holds none."""
        with open(f"/proc/{self.child.pid}/status", encoding="utf-8") as file:
            return next((int(it.split()[1]) for it in file if it.startswith(which)), 0)

    def most_of_day(self):
        """What those that ended since this was asked held at most."""
        most, self.most = self.most, 0
        return most
