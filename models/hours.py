"""Moments, opening hours and the limits of levels, by docs/settings.md."""
import datetime
import io
import struct
from bisect import bisect_right
from zoneinfo import ZoneInfo

START, END = 15778080, 68374080
DAY = 1440
EPOCH = datetime.datetime(1970, 1, 1)
WEEK = ["sun", "mon", "tue", "wed", "thu", "fri", "sat"]


def moment_text(moment):
    return (EPOCH + datetime.timedelta(minutes=moment)).strftime("%Y-%m-%d %H:%M")


def day_of(year, month, day):
    """The number of a day, from 1970-01-01 on."""
    return (datetime.datetime(year, month, day) - EPOCH).days


def minute_of(time):
    hours, minutes = time.split(":")
    return int(hours) * 60 + int(minutes)


class Calendar:
    """Opening hours, as the runs of open minutes in their order: each from its first minute up to
    the one after its last."""

    def __init__(self, table):
        first, last = table.get("years", [2000, 2099])
        self.days = range(day_of(first, 1, 1), day_of(last, 12, 31) + 1)
        self.holidays = {day_of(*map(int, text.split("-"))) for text in table.get("holidays", [])}
        self.week = [[tuple(map(minute_of, text.split("-"))) for text in table.get(name, [])]
                     for name in WEEK]
        self.zone = list(self.stretches(table))
        self.runs = [run for first, end, offset in self.zone
                     for run in self.runs_of(first, end, offset)]
        self.begins = [first for first, _ in self.runs]

    def stretches(self, table):
        """The stretches of one offset: the first minute, the one after the last, and the offset."""
        if "rule" in table:
            first, changes = changes_of(table["rule"], self.days)
        else:
            first, changes = table.get("offset", 0), table.get("changes", [])
        begins = [START] + [max(minute, START) for minute, _ in changes]
        offsets = [first] + [offset for _, offset in changes]
        return zip(begins, begins[1:] + [END], offsets)

    def runs_of(self, first, end, offset):
        """The runs of open minutes within a stretch of one offset."""
        begin, last = (first + offset) // DAY, (end + offset) // DAY
        for day in range(max(begin, self.days.start), min(last + 1, self.days.stop)):
            if day in self.holidays:
                continue
            midnight = day * DAY - offset
            for opens, closes in self.week[(day + 4) % 7]:
                run = max(first, midnight + opens), min(end, midnight + closes)
                if run[0] < run[1]:
                    yield run

    def runs_from(self, moment):
        """The runs of open minutes from a moment on."""
        for first, end in self.runs[max(bisect_right(self.begins, moment) - 1, 0):]:
            if moment < end:
                yield max(first, moment), end

    def local(self, moment):
        """What clocks show at a moment, as the moment that they would show at no offset; or None."""
        shown = moment + [offset for first, _, offset in self.zone if first <= moment][-1]
        return shown if START <= shown <= END else None

    def first_open(self, moment):
        return next((first for first, _ in self.runs_from(moment)), None)


def changes_of(rule, days):
    """The first offset of a POSIX rule, and its changes in those days and a day around them."""
    zone = zone_of(rule)
    minutes = range((days.start - 1) * DAY, (days.stop + 1) * DAY, DAY)
    known, changes = offset_at(zone, minutes[0]), []
    first = known
    for minute in minutes:
        if offset_at(zone, minute) != known:
            known = offset_at(zone, minute)
            changes.append((change_before(zone, minute, known), known))
    return first, changes


def change_before(zone, minute, offset):
    """The first minute of the last day before that one which has the offset."""
    return next(m for m in range(minute - DAY, minute + 1) if offset_at(zone, m) == offset)


def offset_at(zone, minute):
    moment = (EPOCH + datetime.timedelta(minutes=minute)).replace(tzinfo=datetime.timezone.utc)
    return int(moment.astimezone(zone).utcoffset().total_seconds()) // 60


def zone_of(rule):
    """A zone that goes by the rule alone: a file of a zone without a change of its own."""
    def block(version):
        counts = struct.pack(">4sc15x6l", b"TZif", version, 0, 0, 0, 0, 1, 4)
        return counts + struct.pack(">lbb", 0, 0, 0) + b"UTC\0"
    return ZoneInfo.from_file(io.BytesIO(block(b"2") + block(b"2") + f"\n{rule}\n".encode()))


class Level:
    """A level of service: a calendar, whether its limits start at once, and its limits."""

    def __init__(self, table, calendar):
        self.calendar = calendar
        self.starts_at_once = table.get("start_immediately", False)
        self.ignored = table.get("ignore", [])
        self.limits = {name: limit for name, limit in table.items()
                       if name in ("response", "keep_in_loop", "resolve")}

    def due(self, name, moment, stays):
        """When a limit that counts from a moment is used up, or None. Minutes don't count that lie
        in a stay, a triple of status, begin and end, in a status which the level ignores."""
        if name not in self.limits:
            return None
        start = moment if self.starts_at_once else self.calendar.first_open(moment)
        if start is None:
            return None
        if "real_minutes" in self.limits[name]:
            left, runs = self.limits[name]["real_minutes"], [(start, END)]
        else:
            left, runs = self.limits[name]["business_minutes"], self.calendar.runs_from(start)
        pauses = [(begin, end) for status, begin, end in stays if status in self.ignored]
        return last_of(left, without(runs, pauses))


def last_of(count, runs):
    """The minute after so many minutes of the runs, or None where they have fewer."""
    for first, end in runs:
        if count <= end - first:
            return first + count
        count -= end - first
    return None


def without(runs, pauses):
    """The runs without the minutes of the pauses."""
    for first, end in runs:
        for begin, until in sorted(pauses):
            if begin < until and begin < end and first < until:
                if first < begin:
                    yield first, begin
                first = max(first, until)
        if first < end:
            yield first, end
