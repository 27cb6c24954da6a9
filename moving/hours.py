"""RT's levels and opening hours as the desk's settings write them."""
from rows import Fault

DAYS = ["sun", "mon", "tue", "wed", "thu", "fri", "sat"]
WEEK = {str(day): {"Start": "9:00", "End": "18:00"} for day in range(1, 6)}
LIMITS = {"Response": "response", "KeepInLoop": "keep_in_loop", "Resolve": "resolve"}
ZONES = "/usr/share/zoneinfo/"
MOST = 525_600    # minutes of a limit


def clock(text):
    hour, minute = (text.split(":") + ["0"])[:2]
    return f"{int(hour):02}:{int(minute):02}"


def rule(zone):
    """The rule of a zone by its name, as the system has it at the end of its file."""
    try:
        with open(ZONES + zone, "rb") as file:
            return file.read().rsplit(b"\n", 2)[1].decode()
    except OSError as fault:
        raise Fault(f"this system has no time zone {zone}: {fault.strerror}") from fault


def intervals(day):
    """The open intervals of a day: RT's start and end, without its breaks."""
    begin, found = clock(day["Start"]), []
    for pause in day.get("Breaks") or []:
        found.append(f"{begin}-{clock(pause['Start'])}")
        begin = clock(pause["End"])
    end = clock(day["End"])
    return found + [f"{begin}-{'24:00' if end == '00:00' else end}"]


def zone_of(configuration, name):
    """The time zone of a level. RT takes that of the ticket's queue first, so a level that is the
    default of a queue with a zone has it."""
    agreements = configuration["agreements"]
    for default in (agreements.get("QueueDefault") or {}).values():
        if isinstance(default, dict) and default.get("Level") == name and default.get("Timezone"):
            return default["Timezone"]
    return agreements["Levels"][name].get("Timezone") or configuration["zone"] or "UTC"


class Hours:
    """The levels that are used, and the calendars that they need."""

    def __init__(self, configuration, years, level_names, calendar_names, status_of, report):
        self.configuration, self.years = configuration, years
        self.agreements, self.week_of = configuration["agreements"], configuration["hours"]
        self.level_names, self.calendar_names = level_names, calendar_names
        self.status_of, self.report = status_of, report
        self.calendars, self.levels, self.plain = {}, {}, set()

    def level(self, name):
        """The name of a level in the desk; none where RT's configuration lacks it."""
        if not name:
            return None
        told = (self.agreements.get("Levels") or {}).get(name)
        if told is None:
            self.report.left("level that isn't configured")
            return None
        found = self.level_names.of(name, name)
        if found not in self.levels:
            self.levels[found] = self.level_text(found, name, told)
        return found

    def level_text(self, found, name, told):
        """RT counts each limit from the event: so does the desk where a level starts immediately."""
        lines = [f"[level.{found}]", f'calendar = "{self.calendar(name, told)}"',
                 "start_immediately = true"]
        ignored, is_plain = set(), True
        for key, limit in LIMITS.items():
            if told.get(key) is None:
                continue
            how = told[key] if isinstance(told[key], dict) else {"BusinessMinutes": told[key]}
            lines += [f"{limit} = {text}"] if (text := self.limit(how)) else []
            ignored |= {self.status_of(status) for status in how.get("IgnoreOnStatuses") or []}
            outside = (told.get("OutOfHours") or {}).get(key)
            self.report.left("limit of other hours (OutOfHours)", bool(outside))
            both = how.get("BusinessMinutes") and how.get("RealMinutes")
            is_plain = is_plain and not (outside or both or how.get("IgnoreOnStatuses"))
        if ignored:
            self.report.other("IgnoreOnStatuses made the level's `ignore`, which is another rule")
            lines.append("ignore = [" + ", ".join(f'"{status}"' for status in sorted(ignored)) + "]")
        if is_plain:
            self.plain.add(found)
        return "\n".join(lines) + "\n"

    def limit(self, how):
        open_minutes, all_minutes = (int(how.get(it) or 0) for it in ("BusinessMinutes", "RealMinutes"))
        if not 0 < (open_minutes or all_minutes) <= MOST:
            return self.report.left(f"limit of no minutes, or of more than {MOST:,}")
        if open_minutes and all_minutes:
            self.report.left("limit in real minutes beside open ones")
        if open_minutes:
            return f"{{ business_minutes = {open_minutes} }}"
        return f"{{ real_minutes = {all_minutes} }}"

    def calendar(self, name, told):
        hours, zone = told.get("BusinessHours") or "Default", zone_of(self.configuration, name)
        text = hours if zone == "UTC" else f"{hours}-{zone.split('/')[-1]}"
        found = self.calendar_names.of((hours, zone), text)
        if found not in self.calendars:
            self.calendars[found] = self.calendar_text(found, self.week_of.get(hours) or WEEK, zone)
        return found

    def calendar_text(self, found, week, zone):
        lines = [f"[calendar.{found}]"]
        if zone != "UTC":
            lines.append(f'rule = "{rule(zone)}"')
            self.report.other("time zone by its name, made a rule")
        days = []
        for day in week.get("holidays") or []:
            days += [day] if len(day) == 10 else [
                f"{year}-{day}" for year in self.years if day != "02-29" or year % 4 == 0]
        if days:
            lines.append("holidays = [" + ", ".join(f'"{day}"' for day in sorted(set(days))) + "]")
        for place, day in enumerate(DAYS):
            told = week.get(str(place))
            if told and told.get("Start") is not None:
                spans = intervals(told)
                self.report.left("interval of a day beyond the fourth", max(0, len(spans) - 4))
                lines.append(f"{day} = [" + ", ".join(f'"{span}"' for span in spans[:4]) + "]")
        return "\n".join(lines) + "\n"

    def text(self):
        return "\n".join([*self.calendars.values(), *self.levels.values()])
