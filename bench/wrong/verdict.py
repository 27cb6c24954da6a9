"""What a check of a crate with wrong changes says of each of them."""
import os
import re
import shutil
import signal
import subprocess
import tempfile
import threading
from typing import NamedTuple

from wrong.change import applied, groups_of
from wrong.kit import LIB, RT

# The most seconds of one check.
LIMIT = 5400
REFUSED, KILLED = "refused", "NO VERDICT: its check was killed, most likely for memory"
BY_NAME = "refused, but only by a written proof, which names what it takes away"
LINE = re.compile(r"(?m)^fn (\S+): (.*)$")
# The line of a function whose own goals aren't proved. Where it goes on with what the function
# calls, its own goals are told by name.
OWN = re.compile(
    r"not proved$"
    r"|no proof: expected answers in (?!.*; it calls )"
    r"|no proof: expected answers in .*`search` did not prove `"
)
# An error in a written proof: the folder of its function, and what is said.
IN_PROOF = re.compile(r"(?m)^(?:\./)?proofs/(\S+)/\w+\.antt:\d+:\d+: error: (.*)$")
# It names what isn't there any more.
LACKS_NAME = re.compile(r"has no field|is not in scope|has no `|was not admitted")


class Ran(NamedTuple):
    """A check that ended: its status, or None for one that was stopped, and all that it wrote."""

    status: int
    text: str

    def reached(self):
        """Whether the prover was asked: the last line is a verdict."""
        return self.status in (0, 1) and bool(re.search(r"(?m)^(logic|only)=\S.*\n?\Z", self.text))

    def lines(self):
        """What is told of each function, by its name."""
        return dict(LINE.findall(self.text))

    def failing(self):
        """The functions whose own goals aren't proved."""
        return {name for name, said in self.lines().items() if OWN.match(said)}


def run(words, folder):
    """Runs a check in the folder, and returns what it came to and what it used."""
    how = {"stdin": subprocess.DEVNULL, "stdout": subprocess.PIPE, "stderr": subprocess.STDOUT}
    begun, stopped = subprocess.Popen(words, cwd=folder, errors="replace", **how), []

    def stop():
        stopped.append(True)
        begun.kill()

    timer = threading.Timer(LIMIT, stop)
    timer.start()
    text = begun.stdout.read()
    _, ended, used = os.wait4(begun.pid, 0)
    timer.cancel()
    begun.returncode = os.waitstatus_to_exitcode(ended)
    begun.stdout.close()
    return Ran(None if stopped else begun.returncode, text), used


class Trial:
    """A crate whose changes are tried, each on a copy of its own, over what the check before it
    kept."""

    def __init__(self, crate, folder, room):
        self.crate, self.folder, self.room = crate, folder, room
        # How many checks there were, the seconds of a processor that they took, and the most GB of
        # one.
        self.checks, self.seconds, self.most = 0, 0, 0

    def check(self, texts, changes=()):
        """Checks of the crate with these texts what the changes stand in, or all where none are
        given."""
        flags = [word for it in asked_of(changes) for word in ("--only", it)]
        self.checks += 1
        with tempfile.TemporaryDirectory(dir=self.room) as copy:
            for part in LIB.PARTS:
                if os.path.isdir(f"{self.folder}/{part}"):
                    shutil.copytree(f"{self.folder}/{part}", f"{copy}/{part}")
            for file, text in texts.items():
                with open(f"{copy}/{file}", "w", encoding="utf-8") as it:
                    it.write(text)
            words = self.crate.words(["--jobs", "1", *flags], keeps=False)
            words += ["--incremental", f"{self.room}/kept"]
            os.makedirs(f"{self.room}/kept", exist_ok=True)
            ran, used = run([*LIB.guarded(), LIB.RATTLE, "check", *words], copy)
        self.seconds += used.ru_utime + used.ru_stime
        self.most = max(self.most, used.ru_maxrss / 1e6)
        return ran

    def try_all(self, changes):
        """What each of the changes comes to, with how many others it was tried, in the order of the
        groups."""
        for texts, members in groups_of(self.folder, changes):
            ran = self.check(texts, members)
            for it, refused in zip(members, judged(ran, members)):
                if refused:
                    yield it, refused, len(members)
                elif ran.status in (None, -signal.SIGKILL):
                    yield it, kind_of(ran, it), len(members)
                else:
                    yield it, self.alone(it, ran if len(members) == 1 else None), 1

    def alone(self, change, ran=None):
        """What the change comes to with no other beside it: ran is its own check, where there was
        one."""
        texts = applied(self.folder, change.pairs)[0]
        ran = ran or self.check(texts, [change])
        refused = judged(ran, [change])[0]
        if refused:
            return refused
        # (a check of one function says nothing of the others, and stops where there is none)
        says_little = asked_of([change]) and (ran.reached() or ran.status == 2)
        return kind_of(self.check(texts) if says_little else ran, change)


def asked_of(changes):
    """The functions that the changes stand in, by their paths; of one in an impl, which rt may
    write below another module, all of its module. None where one stands in the crate's root, so
    that all of the crate is checked."""
    places = {place for it in changes for place in it.places}
    if any(not it.module for it in places):
        return []
    return sorted({it.module if it.owner else f"{it.module}::{it.name}" for it in places})


def pattern_of(crate, place, is_near):
    """The names that rt may print of the function: in the module of its file, or anywhere, as for
    the methods of another module's type."""
    at = re.escape(f"{crate}::{place.module}::" if place.module else f"{crate}::")
    before = at if is_near or not place.owner else rf"{re.escape(crate)}::(?:\w+::)*"
    whole = "::".join(it for it in (place.owner, re.escape(place.name)) if it)
    return re.compile(rf"{before}(?:{whole}|fn::{whole}::\S+)$")


def names_of(crate, place, lines):
    """The lines that are the function's own or its closures'."""
    for is_near in (True, False):
        pattern = pattern_of(crate, place, is_near)
        found = {it for it in lines if pattern.match(it)}
        if any("::fn::" not in it for it in found):
            return found
    return set()


def names_of_all(change, lines):
    """The lines of the functions that the change stands in."""
    return set().union(*[names_of(change.crate, it, lines) for it in change.places])


def unread_in(ran, members):
    """The first line that says that a text of the crate couldn't be read, or None."""
    files = {file for it in members for file, _, _ in it.pairs}
    return next((it for it in ran.text.split("\n") if RT.unread(it, files)), None)


def judged(ran, members):
    """How each of these changes, tried together, was refused in its own function, or None where it
    wasn't. Where it cannot be told which of them a line is of, none was, nor where a text could not
    be read."""
    if not ran.reached() or unread_in(ran, members):
        return [None] * len(members)
    lines, failing = ran.lines(), ran.failing()
    own = [names_of_all(it, lines) for it in members]
    every = [name for names in own for name in names]
    if len(every) > len(set(every)) or failing - set(every) and len(members) > 1:
        return [None] * len(members)
    pairs = zip(members, own)
    return [refused_by(ran, it, names) if names & failing else None for it, names in pairs]


def refused_by(ran, change, names):
    """How the change is refused by these lines of its functions: where all that is said of them is
    that their written proofs name what it took away, no clause was tried."""
    if any("`search` did not prove `" in ran.lines()[it] for it in names & ran.failing()):
        return REFUSED
    said = [
        text
        for folder, text in IN_PROOF.findall(ran.text)
        for place in change.places
        if re.fullmatch(rf"{place.module.replace('::', '/')}/?(?:\S+/)?{place.name}", folder)
    ]
    return BY_NAME if said and all(LACKS_NAME.search(it) for it in said) else REFUSED


def kind_of(ran, change):
    """Why a change that was tried alone isn't refused by its own function."""
    lines = ran.text.rstrip("\n").split("\n")
    if ran.status == -signal.SIGKILL:
        return KILLED
    if ran.status is None:
        return f"NO VERDICT: its check took more than {LIMIT} seconds"
    if LIB.STALE.search(ran.text):
        return "NO VERDICT: a library below could not be used: build them anew"
    first = next((it for it in lines if re.search(r"\berror(\[[\w-]+\])?:", it)), lines[-1])
    if ran.status == 1 and not ran.reached() and re.search(r"\berror\[[\w-]+\]", ran.text):
        return f"NOT COMPILED: {first[:200]}"
    if not ran.reached():
        return f"NO VERDICT: its check ended with status {ran.status}: {first[:200]}"
    if not all(names_of(change.crate, place, ran.lines()) for place in change.places):
        names = ", ".join(sorted(it.name for it in change.places))
        return f"FUNCTION NOT FOUND: no line of the check is of {names}"
    if ran.status == 0:
        return "NOT REFUSED: the crate is still proved with it"
    unread = unread_in(ran, [change])
    if unread:
        return f"NOT READ: {unread[:200]}"
    refused = judged(ran, [change])[0]
    if refused:
        return refused
    others = ", ".join(sorted(ran.failing())[:3]) or "no function by its own goals"
    return f"ONLY A CALLER REFUSES IT: its own goals are proved, and not those of {others}"
