"""What a run has seen: answers by way, kind and outcome, their times, faults, and how things grew."""
import collections
import os
import resource
import statistics
from typing import NamedTuple

from rules import REFUSALS

# the ways that a picture has together; all others are pages
GROUPS = {"http": "the interface", **dict.fromkeys(("shell", "file", "load"), "the programs of the command line")}
# those in which no program is started for an answer
SERVED = {"http", "page (a form)", "page (read)"}


class Night(NamedTuple):
    """What stands at a night: memory in KiB, that of the day's servers at most, and of the one that has just
    started; bytes of the file and its log; seconds of the first page."""
    at: int
    requests: int
    most: int
    started: int
    file: int
    log: int
    home: float


class Figures:
    def __init__(self):
        self.answers = collections.Counter()
        self.times = collections.defaultdict(list)
        self.by_hour, self.asked_by_hour = collections.defaultdict(list), collections.Counter()
        self.faults, self.sessions = collections.Counter(), collections.Counter()
        self.nights, self.loads, self.fields = [], [], set()
        self.seldom = collections.Counter()
        self.compared = collections.Counter()

    def answered(self, ask, code, seconds):
        """One answer, its outcome, and how long it took."""
        self.counted(ask, code)
        self.timed(ask.way if ask.way != "page" else "page (a form)" if not ask.reads else "page (read)", ask.at,
                   seconds)

    def counted(self, ask, code):
        """One answer and its outcome, where no time is told of it."""
        self.answers[ask.way, ask.name, code] += 1
        self.asked_by_hour[GROUPS.get(ask.way, "pages"), hour_of(ask.at)] += 1

    def timed(self, way, at, seconds):
        self.times[way].append(seconds)
        if way in SERVED:
            self.by_hour[hour_of(at)].append(seconds)

    def night(self, night):
        self.nights.append(night)
        self.loads.append(os.getloadavg()[1])

    def usual(self):
        """The seconds that an answer of the interface takes here."""
        return statistics.median(self.times["http"][-200:] or [0.002])

    def refusals(self):
        """The commands and readings with the refusals that they met."""
        return {(name, code) for _, name, code in self.answers if code in REFUSALS}

    def total(self):
        return sum(self.answers.values())

    def middles(self):
        """The count, the middle and the slowest of each way, in milliseconds."""
        for way, times in sorted(self.times.items()):
            yield way, len(times), 1000 * statistics.median(times), 1000 * max(times)


def hour_of(at):
    return at // 60 % 24


def processor_minutes():
    """What of the processors' time this program has had, and the programs that it ran."""
    used = (resource.getrusage(it) for it in (resource.RUSAGE_SELF, resource.RUSAGE_CHILDREN))
    return [(it.ru_utime + it.ru_stime) / 60 for it in used]


def outcome(answer):
    """What an answer comes to, in a word: done, the refusal, or that it was no command."""
    text = next((it for it in answer if isinstance(it, (str, dict))), "")
    if isinstance(text, dict):
        text = "bad search" if "no such search" in text else text.get("refused") or "ok"
    words = text.split()
    if words[:1] == ["bad"] or 2 in answer:
        return words[3] if len(words) > 3 else text.strip() or "bad words"
    return words[2] if words[:1] == ["refused"] and len(words) > 2 else "done"
