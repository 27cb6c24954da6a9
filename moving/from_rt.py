#!/usr/bin/env python3
"""Reads the tables of Request Tracker 4.4 or 5.0 and writes what the desk needs to become the same
desk. TABLES is a file of SQLite, or what the client of a server wrote:

    from_rt.py commands psql > tables.sh     prints a program for psql, or for mysql, with which
                                             `sh tables.sh rt5 > tables` writes what rt5 has

CONFIG is what moving/config.pl prints. OUT is a folder, made here, into which it writes

    settings.toml   what holds from the move on
    import.toml     the same people, statuses and levels with everything allowed, for the move alone
    lines           MOMENT CALLER COMMAND .., a line each, as after the %% of a script
    report.txt      what is left out, by kind and count; what became of each kind of transaction
    people.tsv      each name of RT's beside the one that it has here; the report ends with it
    left.tsv        of what is left out or carried in another form, the tickets' numbers, by kind
    fates.tsv       each transaction: its number, its first line, how many lines, what became of it
    names.json      which name and which number became which, for compare.py

It prints the report too. RT's numbers are kept: a number between two tickets, which RT gave to a
reminder say, is filed as a request that says nothing."""
import argparse
import json
import os
import sys

import clients
import lifecycles
import tables
from fates import Fates
from files import Folder, Nowhere
from replay import Replay
from report import Report
from rights import Rights
from rows import Fault, open_tables, read
from source import MOST_REQUESTS, Source
from texts import Texts
from tokens import Tokens, owned
from wording import GAP, Wording

# what the desk reads of settings, in bytes
LONGEST = 1_048_576
EVERYTHING = '[[grant]]\nto = "everyone"\nrights = ["SuperUser"]\n'
GAP_LIFECYCLE = f"""[lifecycle.{GAP}]
initial = ["nothing"]
active = ["never"]
inactive = ["gone"]
create = ["gone"]
on_create = "gone"
"""


def settings(wording, rights, keeps_numbers, tokens=None):
    """The settings that hold from the move on; without rights, those for the move alone."""
    persons = sorted(wording.persons.given.values())
    parts = [f"persons = {lifecycles.quoted(persons)}\n", rights.groups_text() if rights else "",
             rights.grants_text() if rights else EVERYTHING]
    parts += [tokens.settings()] if tokens else []
    parts += [GAP_LIFECYCLE] if keeps_numbers else []
    parts += [it.real() if rights else it.open_wide() for it in wording.cycles.values()]
    return "\n".join([*parts, wording.hours.text()])


def write(folder, name, text):
    """A file that its owner alone can read: all of these tell of people."""
    with owned(os.path.join(folder, name)) as file:
        file.write(text)


def check_length(folder, *names):
    for name in names:
        if os.path.getsize(os.path.join(folder, name)) > LONGEST:
            raise Fault(f"{name} is longer than {LONGEST:,} bytes, and the desk doesn't read it: there are"
                        " too many people, or too many tokens")


def check_numbers(source, keeps_numbers):
    most = source.last_number if keeps_numbers else len(source.tickets)
    if most > MOST_REQUESTS:
        raise Fault(f"{most:,} requests: the desk has at most {MOST_REQUESTS:,}"
                    + ("; --new-numbers leaves out those that say nothing" if keeps_numbers else ""))


def leave_out(source, replay):
    """Counts what no line and no setting tells."""
    report = source.report
    for row in source.rows("others"):
        report.left(row.kind, row.count)
    report.left("address, password and real name of a user", len(source.users) - 2)
    for row in source.tickets.values():
        report.left("priority of a ticket", bool(row.priority), row.id)
        report.left("time worked on a ticket", bool(row.worked), row.id)
    report.left("seconds of a moment", replay.count)


def bodies(place, with_files):
    if with_files and not place.has("whole_bodies"):
        raise Fault("TABLES has no files: let from_rt.py commands print the program by --files")
    return read(place, "whole_bodies" if with_files or not place.has("bodies") else "bodies")


def move(words):
    report, keeps_numbers = Report(), not words.new_numbers
    for path in filter(None, (words.tokens, words.files)):
        if os.path.lexists(path):
            raise Fault(f"{path} is there already")
    with open(words.config, encoding="utf-8") as file:
        configuration = json.load(file)
    place = open_tables(words.tables)
    source = Source(place, configuration, report)
    check_numbers(source, keeps_numbers)
    wording = Wording(source, report)
    os.makedirs(words.out, mode=0o700, exist_ok=True)
    files = Folder(words.files) if words.files else Nowhere()
    texts = Texts(bodies(place, bool(words.files)), report, files)
    with owned(os.path.join(words.out, "lines")) as lines, \
            owned(os.path.join(words.out, "fates.tsv")) as fates:
        replay = Replay(source, wording, texts, Fates(fates, report), lines, keeps_numbers)
        replay.run()
    rights = Rights(source, wording)
    tokens = Tokens(wording.everybody()) if words.tokens else None
    if tokens:
        tokens.write(words.tokens)
    leave_out(source, replay)
    write(words.out, "settings.toml", settings(wording, rights, keeps_numbers, tokens))
    write(words.out, "import.toml", settings(wording, None, keeps_numbers))
    write(words.out, "names.json", json.dumps(
        {**wording.told(replay.requests), "files": bool(words.files), "cut": sorted(replay.cut)},
        ensure_ascii=False, indent=1))
    write(words.out, "people.tsv", report.names_text())
    told = f"{len(source.tickets):,} tickets became {replay.count:,} lines\n\n{report.text()}"
    write(words.out, "left.tsv", report.tickets_text())
    write(words.out, "report.txt", f"{told}\nNames, in RT and here:\n{report.names_text()}")
    print(told, end="")
    check_length(words.out, "settings.toml", "import.toml")


def words_of(arguments):
    if arguments[:1] == ["commands"]:
        parser = argparse.ArgumentParser(prog="from_rt.py commands")
        parser.add_argument("client", choices=sorted(clients.CLIENTS))
        parser.add_argument("--files", action="store_true", help="let it write attached files too")
        return parser.parse_args(arguments[1:])
    parser = argparse.ArgumentParser(description=__doc__,
                                     formatter_class=argparse.RawDescriptionHelpFormatter)
    parser.add_argument("tables", metavar="TABLES")
    parser.add_argument("config", metavar="CONFIG")
    parser.add_argument("out", metavar="OUT")
    parser.add_argument("--new-numbers", action="store_true", help="leave requests that say nothing out")
    parser.add_argument("--files", metavar="DIR", help="write attached files out, below a new folder")
    parser.add_argument("--tokens", metavar="FILE",
                        help="make a token for each user, and a table of name, address and token")
    return parser.parse_args(arguments)


def main():
    words = words_of(sys.argv[1:])
    try:
        if "client" in words:
            print(clients.commands(words.client, words.files), end="")
        else:
            move(words)
    except (Fault, OSError) as fault:
        sys.exit(f"from_rt.py: {fault}")


if __name__ == "__main__":
    main()
