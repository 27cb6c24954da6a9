"""What the move leaves out, and what it carries in another form: by kind, with counts. Each
transaction of RT's and each attachment stands in one row, so that the rows add up to what RT has."""
import array
import collections

LEFT, OTHER, ADDED = "Left out", "Carried in another form", "Lines that RT has no transaction for"
LINE = "a line"


class Report:
    def __init__(self):
        self.parts = {title: collections.Counter() for title in (LEFT, OTHER, ADDED)}
        self.transactions, self.attachments = collections.Counter(), collections.Counter()
        self.names, self.tickets = [], collections.defaultdict(lambda: array.array("q"))

    def left(self, kind, count=1, ticket=None):
        """Counts what is left out, and of which ticket."""
        self.parts[LEFT][kind] += count
        if count and ticket is not None:
            self.tickets[LEFT, kind].append(ticket)

    def other(self, kind, count=1, ticket=None):
        self.parts[OTHER][kind] += count
        if count and ticket is not None:
            self.tickets[OTHER, kind].append(ticket)

    def added(self, kind):
        self.parts[ADDED][kind] += 1

    def became(self, kind, fate):
        """What became of a transaction of a kind."""
        self.transactions[kind, fate] += 1

    def attached(self, kind, count=1):
        self.attachments[kind] += count

    def text(self):
        lines = []
        for title, counts in self.parts.items():
            told = [f"{count:8,} {kind}" for kind, count in counts.most_common() if count]
            lines += [f"{title}:", *told, ""]
        return "\n".join([*lines, *self.counted("transactions", self.transactions_told()),
                          *self.counted("attachments of tickets", self.attachments.items())])

    def transactions_told(self):
        told = sorted(self.transactions.items(), key=lambda it: (it[0][0], -it[1]))
        return [(f"{kind}: {fate}", count) for (kind, fate), count in told]

    @staticmethod
    def counted(what, rows):
        rows = [(kind, count) for kind, count in rows if count]
        return [f"What became of all {sum(count for _, count in rows):,} {what}:",
                *(f"{count:8,} {kind}" for kind, count in rows), ""]

    def tickets_text(self):
        """The numbers of the tickets of each kind, each once."""
        rows = [f"{title}\t{kind}\t{' '.join(map(str, sorted(set(numbers))))}\n"
                for (title, kind), numbers in sorted(self.tickets.items())]
        return "".join(rows)

    def names_text(self):
        """Each name of RT's beside the one that it has here."""
        rows = [("what", "in RT", "here"), *sorted(self.names)]
        return "".join("\t".join(row) + "\n" for row in rows)
