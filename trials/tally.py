"""What the trials share: the program that is tried, runs of it, and the count of what is tried and
what is wrong."""
import os
import subprocess
import sys

TOP = os.path.dirname(os.path.dirname(os.path.abspath(__file__)))
DESK = os.environ.get("DESK", os.path.join(TOP, "bin", "desk"))
# the seconds after which a run counts as one that doesn't end
PATIENCE = 120
# how many complaints are printed
SHOWN = 40


def program():
    """The program that is named as the first argument; else the one that DESK names, or bin/desk."""
    return os.path.abspath(sys.argv[1]) if sys.argv[1:] else DESK


class Tally:
    def __init__(self):
        self.tried = self.wrong = 0

    def holds(self, what, is_so):
        """Counts a try, and says what was tried where it isn't so."""
        self.tried += 1
        if not is_so:
            self.wrong += 1
            if self.wrong <= SHOWN:
                print(what, flush=True)

    def expect(self, what, given, wanted):
        self.holds(f"{what}: {given!r} in place of {wanted!r}", given == wanted)

    def floor(self, what, found, least=1):
        """What is counted has to come often enough: a judge that meets nothing has seen nothing."""
        self.holds(f"{what}: {found}, and not at least {least}", found >= least)

    def run(self, words, given=b"", output=subprocess.PIPE, **how):
        """What the words print, and their status. Nothing may go to the standard error."""
        try:
            ended = subprocess.run(words, input=given, stdout=output, stderr=subprocess.PIPE,
                                   timeout=PATIENCE, **how)
        except subprocess.TimeoutExpired:
            self.holds(f"{words[1:]}: not done after {PATIENCE} seconds", False)
            return "", None
        if ended.stderr:
            self.holds(f"{words[1:]}: on the standard error: {ended.stderr!r}", False)
        return (ended.stdout or b"").decode(errors="replace"), ended.returncode

    def do(self, part):
        """A part of the trial. What it can't go on after, a file that isn't there say, is wrong."""
        try:
            part()
        except Exception as error:
            self.holds(f"{part.__name__} can't go on: {error!r}", False)

    def end(self):
        """Says how many were tried. The status is 1 where one of them is wrong."""
        print(f"{self.tried} tried, {self.wrong} wrong")
        sys.exit(1 if self.wrong else 0)
