"""What became of each transaction of RT's: told by lines, or left out, and why."""
from kinds import name_of
from report import LINE


class Fates:
    """Writes a row for each transaction: its number, the first of its lines and how many there are,
    or 0 and 0, and what became of it."""

    def __init__(self, file, report):
        self.file, self.report = file, report

    def became(self, it, first, count, fate):
        fate = LINE if count else fate
        self.report.became(name_of(it), fate)
        self.file.write(f"{it.id}\t{first if count else 0}\t{count}\t{fate}\n")
