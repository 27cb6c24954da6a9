"""A clean Debian, in which things are typed as on a new server: made by debootstrap, with a systemd of
its own and no network but the loopback.

The root that each begins with is made once, in DESK_ROOT or else /var/tmp/desk-clean-root, and stays.
It needs root, debootstrap and systemd-nspawn."""
import os
import subprocess
import sys
import tempfile
import time

BASE = os.environ.get("DESK_ROOT", "/var/tmp/desk-clean-root")
RELEASE = "bookworm"
# what a server has, what the package recommends, and what makes a clock stand wrong
PACKAGES = ("adduser bash-completion ca-certificates curl dbus faketime man-db nginx-light openssl procps psmisc "
            "sqlite3 systemd systemd-sysv")
ENV = {"PATH": "/usr/local/sbin:/usr/local/bin:/usr/sbin:/usr/bin:/sbin:/bin", "HOME": "/root",
       "LANG": "C.UTF-8", "TERM": "dumb"}


def made_base():
    """The root that each clean one begins with."""
    if not os.path.exists(f"{BASE}/made"):
        print(f"clean: debootstrap makes {BASE}, in some minutes", file=sys.stderr, flush=True)
        subprocess.run(["debootstrap", "--variant=minbase",
                        "--include=" + ",".join(PACKAGES.split()), RELEASE, f"{BASE}/root"],
                       check=True, stdout=subprocess.DEVNULL)
        # nothing but a desk is looked at there
        subprocess.run(["chroot", f"{BASE}/root", "systemctl", "disable", "nginx"], check=True,
                       capture_output=True)
        with open(f"{BASE}/made", "w", encoding="utf-8"):
            pass
    return f"{BASE}/root"


class Clean:
    """A clean root that is booted; closing it takes all away."""

    def __init__(self):
        base = made_base()
        # an overlay can't stand on an overlay
        self.room = tempfile.mkdtemp(prefix="desk-clean-", dir=os.path.dirname(BASE))
        self.root = f"{self.room}/root"
        for name in ("root", "upper", "work"):
            os.mkdir(f"{self.room}/{name}")
        subprocess.run(["mount", "-t", "overlay", "overlay", "-o",
                        f"lowerdir={base},upperdir={self.room}/upper,workdir={self.room}/work", self.root],
                       check=True)
        self.told = open(f"{self.room}/told", "wb")
        self.nspawn = subprocess.Popen(
            ["systemd-nspawn", "--quiet", "--directory", self.root, "--register=no", "--keep-unit",
             "--private-network", "--machine", f"desk{os.getpid()}", "--boot"],
            stdin=subprocess.DEVNULL, stdout=self.told, stderr=self.told, start_new_session=True)
        try:
            self.leader = self.found_leader()
            self.wait()
        except BaseException:
            self.close()
            raise

    def found_leader(self):
        """The first process of the root, as this machine numbers it."""
        for _ in range(300):
            path = f"/proc/{self.nspawn.pid}/task/{self.nspawn.pid}/children"
            with open(path, encoding="ascii") as children:
                for pid in children.read().split():
                    with open(f"/proc/{pid}/comm", encoding="utf-8") as comm:
                        if comm.read().strip() == "systemd":
                            return pid
            time.sleep(0.1)
        raise RuntimeError("no systemd came up in the clean root")

    def wait(self):
        """Waits until all that starts with the system has started."""
        for _ in range(300):
            if self.run("systemctl is-system-running")[0].strip() in ("running", "degraded"):
                return
            time.sleep(0.2)
        raise RuntimeError("the clean root didn't start")

    def run(self, text, seconds=300, given=b""):
        """What a shell of root's prints of this text, both streams as they come, and its status."""
        words = ["nsenter", "--target", self.leader, "--mount", "--uts", "--ipc", "--net", "--pid",
                 "--root", "--wd", "setsid", "--wait", "bash", "-c", f"cd /root\n{text}"]
        run = subprocess.run(words, input=given, stdout=subprocess.PIPE, stderr=subprocess.STDOUT, env=ENV,
                             timeout=seconds, check=False)
        return run.stdout.decode(errors="replace"), run.returncode

    def put(self, path, name):
        """A file of this machine, as /root/NAME."""
        subprocess.run(["cp", "-r", path, f"{self.root}/root/{name}"], check=True)

    def close(self):
        """Takes the root away."""
        if self.nspawn.poll() is None:
            self.nspawn.terminate()
            try:
                self.nspawn.wait(60)
            except subprocess.TimeoutExpired:
                self.nspawn.kill()
                self.nspawn.wait()
        self.told.close()
        subprocess.run(["umount", "--lazy", self.root], check=False)
        subprocess.run(["rm", "-rf", self.room], check=True)

    def __enter__(self):
        return self

    def __exit__(self, *_):
        self.close()
