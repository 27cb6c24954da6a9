"""Moments of RT's tables, in minutes since 1970-01-01 00:00 UTC. Their seconds are dropped."""
import datetime
import functools

# what the desk knows of moments
FIRST = int(datetime.datetime(2000, 1, 1, tzinfo=datetime.timezone.utc).timestamp()) // 60
END = int(datetime.datetime(2100, 1, 1, tzinfo=datetime.timezone.utc).timestamp()) // 60


@functools.lru_cache(maxsize=100_000)
def minutes_of_day(text):
    year, month, day = int(text[:4]), int(text[5:7]), int(text[8:10])
    return (datetime.date(year, month, day).toordinal() - 719_163) * 1440


def minute(text):
    """The minute of a moment; none where there is none, or one that no calendar has: MySQL writes
    0000-00-00, and RT 1970-01-01 00:00:00 for a moment that isn't set."""
    if not text:
        return None
    try:
        return minutes_of_day(text[:10]) + int(text[11:13]) * 60 + int(text[14:16]) or None
    except ValueError:
        return None
