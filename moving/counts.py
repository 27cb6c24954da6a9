#!/usr/bin/env python3
"""Counts what a move left of RT, and has no code in common with it. The status is 1 where something
of RT is neither told nor left out by name, and where the desk's file has another count.

    counts.py COUNTED OUT [FILE]

COUNTED is what a client of RT's database writes of moving/counts.sql, OUT is that of from_rt.py, and
FILE the desk's, if it is loaded already. It asks:
- whether each transaction of RT stands once in fates.tsv, and each kind in the report, as often as
  the database has it;
- whether each filing, reply and comment of a ticket that is carried has its line, of its own sort;
- whether the texts name as many files as were attached to them, and whether the report has as many
  attachments of tickets as the database;
- whether the desk's histories have as many entries of each sort as there are lines."""
import array
import collections
import os
import re
import sqlite3
import sys

SHOWN = 40
VERBS = ("queue", "create", "status", "correspond", "comment", "watch", "unwatch", "level", "link", "take",
         "steal", "untake", "give")
# which lines may tell what was written, by the type of the transaction
TEXTS = {"Create": ("create", "correspond", "comment"), "Correspond": ("correspond",), "Comment": ("comment",)}
# kinds of entries in the desk's file that lines alone make, with their verbs; a reply makes a move too
ENTRIES = {1: ("create",), 4: ("correspond",), 5: ("comment",), 6: ("watch",), 7: ("unwatch",),
           8: ("link",), 10: ("level",), 3: ("take", "steal", "untake", "give")}
MARK = "(a file: "
TOO_LONG = "left out, since its ticket's history is too long"


def is_file(name, kind, encoding, size):
    if name == "named" or encoding == "external":
        return True
    if kind.startswith(("multipart/", "message/")):
        return size == "full"
    return kind not in ("text/plain", "text/html")


class Lines:
    """Of each line its verb, its request, and how many files it names."""

    def __init__(self, path):
        self.verbs, self.numbers, self.files = array.array("b"), array.array("l"), array.array("l")
        with open(path, encoding="utf-8", newline="\n") as file:
            for line in file:
                words = line.split(" ", 4)
                verb = words[2]
                number = words[4 if words[3] == "-d" else 3].split(" ")[0].strip()
                self.verbs.append(VERBS.index(verb))
                self.numbers.append(int(number) if number.isdigit() else 0)
                self.files.append(line.count(MARK))
        self.count = collections.Counter(VERBS[it] for it in self.verbs)


class Counting:
    def __init__(self, lines):
        self.lines, self.wrong = lines, 0
        self.carried, self.files, self.attachments = set(), collections.Counter(), collections.Counter()
        self.kinds, self.named, self.attached = collections.Counter(), 0, 0

    def tell(self, what):
        self.wrong += 1
        if self.wrong <= SHOWN:
            print(f"wrong: {what}")

    def transactions(self, counted, fates):
        """The rows of both stand in the order of the transactions' numbers."""
        fate = None
        for words in counted:
            if words[0] == "ticket" and words[2] == "ticket" and words[3] == "queue":
                self.carried.add(words[1])
            elif words[0] == "attachment":
                self.attachments[int(words[1])] += 1
                if is_file(*words[2:6]):
                    self.files[words[1]] += 1
            elif words[0] == "transaction":
                fate = next(fates, None)
                self.one(words[1:], fate)
        if next(fates, None) is not None:
            self.tell("fates.tsv has transactions that RT hasn't got")

    def one(self, words, fate):
        id, ticket, what, kind, field = words
        is_of_ticket = what == "RT::Ticket"
        field = "" if kind == "CustomField" else field
        self.attached += self.attachments[int(id)] if is_of_ticket else 0
        self.kinds[f"{kind or 'of no type'} {field}".strip() if is_of_ticket else f"of {what}"] += 1
        if fate is None or fate[0] != id:
            return self.tell(f"transaction {id} has no row in fates.tsv, where {fate} stands")
        first, count = int(fate[1]) - 1, int(fate[2])
        if not is_of_ticket or kind not in TEXTS or ticket not in self.carried or fate[3] == TOO_LONG:
            return None
        verbs = [VERBS[self.lines.verbs[at]] for at in range(first, first + count)] if count else []
        if not any(verb in TEXTS[kind] for verb in verbs):
            return self.tell(f"transaction {id}, {kind} of ticket {ticket}, has no line of its own")
        named = sum(self.lines.files[at] for at in range(first, first + count))
        self.named += self.files[id]
        if named < self.files[id]:
            return self.tell(f"transaction {id} names {named} of its {self.files[id]} files")
        return None

    def report(self, path):
        """What the report says of each kind has to add up to what the database has of it."""
        told, is_there, attached = collections.Counter(), False, -1
        with open(path, encoding="utf-8") as file:
            for line in file:
                if line.startswith("What became of all"):
                    is_there = "transactions" in line
                    attached = attached if is_there else int(line.split()[4].replace(",", ""))
                elif is_there and (found := re.fullmatch(r" *([0-9,]+) ([^:]*(?:::[^:]*)*): .*\n", line)):
                    told[found[2]] += int(found[1].replace(",", ""))
        for kind in sorted({*told, *self.kinds}):
            if told[kind] != self.kinds[kind]:
                self.tell(f"the report has {told[kind]:,} {kind}, and RT {self.kinds[kind]:,}")
        if attached != self.attached:
            self.tell(f"the report has {attached:,} attachments of tickets, and RT {self.attached:,}")

    def desk(self, path):
        file = sqlite3.connect(f"file:{path}?mode=ro", uri=True)
        found = dict(file.execute("SELECT kind, COUNT(*) FROM entry GROUP BY kind"))
        for kind, verbs in ENTRIES.items():
            wanted = sum(self.lines.count[verb] for verb in verbs)
            if kind == 8:    # a link that comes, or one that goes
                found[8] = found.get(8, 0) + found.get(9, 0)
            if found.get(kind, 0) != wanted:
                self.tell(f"the desk has {found.get(kind, 0):,} entries of {verbs}, and there are {wanted:,} lines")
        by_request = collections.Counter()
        for verb, number in zip(self.lines.verbs, self.lines.numbers):
            by_request[number] += VERBS[verb] in ("correspond", "comment")
        there = dict(file.execute("SELECT request, COUNT(*) FROM entry WHERE kind IN (4, 5) GROUP BY request"))
        for number in sorted({*there, *(it for it, count in by_request.items() if count)}):
            if there.get(number, 0) != by_request[number]:
                self.tell(f"request {number} has {there.get(number, 0)} texts, and {by_request[number]} lines")
        file.close()


def rows(path):
    with open(path, encoding="utf-8", errors="replace", newline="\n") as file:
        for line in file:
            yield line.removesuffix("\n").split("\t")


def main():
    if len(sys.argv) not in (3, 4):
        print(__doc__, file=sys.stderr)
        return 2
    counted, out = sys.argv[1:3]
    counting = Counting(Lines(os.path.join(out, "lines")))
    counting.transactions(rows(counted), rows(os.path.join(out, "fates.tsv")))
    counting.report(os.path.join(out, "report.txt"))
    if len(sys.argv) == 4:
        counting.desk(sys.argv[3])
    print(f"{sum(counting.kinds.values()):,} transactions and {counting.named:,} files of RT,"
          f" {len(counting.lines.verbs):,} lines: {counting.wrong:,} wrong")
    return 1 if counting.wrong else 0


if __name__ == "__main__":
    sys.exit(main())
