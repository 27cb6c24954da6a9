#!/usr/bin/env python3
"""Compares the texts of the lines with RT's own: it has no code in common with the converter. The status
is 1 where one has other words.

    worded.py TEXTS OUT

TEXTS is what moving/texts.pl prints, and OUT is that of from_rt.py. The names of files behind a text are
the move's own, and line ends at its end don't count. Of a page of HTML, which RT makes a text by rules of
its own, the words have to be the same."""
import collections
import json
import os
import re
import sys

SHOWN = 20
LINE = re.compile(r'\d+ \S+ (?:correspond|comment) \d+ (?:-- )?"(.*)"\n', re.DOTALL)
ESCAPED = re.compile(r"\\(.)")
NAMED = re.compile(r"\(a file: [^\n]*\)")
CONTROL = re.compile(r"[\x00-\x08\x0b-\x1f\x7f]")


def plain(word):
    """What a quoted word of a line stands for."""
    return ESCAPED.sub(lambda found: {"n": "\n", "t": "\t"}.get(found[1], found[1]), word)


def texts_of(out):
    """Of each transaction the text of its lines, without the names of files."""
    with open(os.path.join(out, "lines"), encoding="utf-8", newline="\n") as file:
        lines = file.readlines()
    with open(os.path.join(out, "fates.tsv"), encoding="utf-8", newline="\n") as fates:
        for row in fates:
            id, first, count, _ = row.split("\t")
            found = [LINE.fullmatch(it) for it in lines[int(first) - 1:int(first) - 1 + int(count)]]
            said = "".join(plain(it[1]) for it in found if it).split("\n")
            while said and NAMED.fullmatch(said[-1]):
                said.pop()
            yield id, "\n".join(said)


def words(text):
    return re.findall(r"\w+", text)


def is_same(kind, wanted, found):
    wanted = CONTROL.sub("", wanted.replace("\r\n", "\n").replace("\r", "\n"))
    if not words(wanted) and found == "(no text)":
        return True
    return words(wanted) == words(found) if kind == "text/html" else wanted.strip("\n") == found.strip("\n")


def main():
    if len(sys.argv) != 3:
        print(__doc__, file=sys.stderr)
        return 2
    with open(sys.argv[1], encoding="utf-8") as file:
        told = json.load(file)
    counts, wrong = collections.Counter(), 0
    for id, found in texts_of(sys.argv[2]):
        if id not in told:
            continue
        kind, wanted = told.pop(id)
        counts["pages of HTML" if kind == "text/html" else "texts"] += 1
        if not is_same(kind, wanted, found):
            wrong += 1
            if wrong <= SHOWN:
                print(f"transaction {id}: {wanted!r:.200} in RT, {found!r:.200} here")
    print(", ".join(f"{count:,} {kind}" for kind, count in sorted(counts.items())), "as RT tells them:",
          f"{wrong:,} others, {len(told):,} without a line")
    return 1 if wrong or not counts["texts"] else 0


if __name__ == "__main__":
    sys.exit(main())
