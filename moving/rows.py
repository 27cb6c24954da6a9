"""Reads the rows of RT's tables: out of a file of SQLite, or of what a client wrote of a server's."""
import collections
import re
import sqlite3

import tables
from moments import minute

ESCAPED = re.compile(rb"\\(.)", re.DOTALL)
PLAIN = {b"n": b"\n", b"t": b"\t", b"r": b"\r", b"b": b"\b", b"f": b"\f", b"v": b"\v", b"0": b"\0"}
MAGIC = b"SQLite format 3\0"


class Fault(Exception):
    """What is wrong with what was given, for people."""


def text(word):
    return word.decode("utf-8", "replace")


def plain(word):
    """What a client meant by a word of a line."""
    if b"\\" not in word:
        return word
    return ESCAPED.sub(lambda found: PLAIN.get(found[1], found[1]), word)


def of_number(word):
    return None if word is None else int(word)


def of_text(word):
    return None if word is None else text(word) if isinstance(word, bytes) else str(word)


def of_moment(word):
    return None if word is None else minute(of_text(word))


def of_bytes(word):
    return b"" if word is None else word if isinstance(word, bytes) else str(word).encode()


KINDS = {"n": of_number, "m": of_moment, "b": of_bytes, "": of_text}


def kinds_of(name):
    return [column.partition(":")[2] for column in tables.STATEMENTS[name].columns]


def row_type(name):
    columns = tables.STATEMENTS[name].columns
    return collections.namedtuple(name, [column.partition(":")[0] for column in columns])


class SqliteTables:
    """A file of SQLite, read in one transaction."""

    def __init__(self, path):
        self.file = sqlite3.connect(f"file:{path}?mode=ro", uri=True, isolation_level=None)
        self.file.text_factory = bytes
        self.file.execute("BEGIN")

    def has(self, _):
        return True

    def words(self, name):
        octets = "LENGTH(CAST(Content AS BLOB))"
        try:
            yield from self.file.execute(tables.text_of(name, octets))
        except sqlite3.Error as fault:
            raise Fault(f"these aren't the tables of RT 4.4 or 5.0: {fault}") from fault


class WrittenTables:
    """What psql or mysql wrote."""

    def __init__(self, path):
        self.path, self.begins = path, {}
        place, last = 0, b""
        with open(path, "rb") as file:
            for line in file:
                place += len(line)
                if line.startswith(b"# "):
                    last = line[2:].strip()
                    self.begins[text(last)] = place
        if last != b"end":
            raise Fault(f"{path} has no end: the client was stopped before it had written all")
        self.word = self.of_mysql if "mysql" in self.begins else self.of_psql

    def has(self, name):
        return name in self.begins

    def lines(self, name):
        with open(self.path, "rb") as file:
            file.seek(self.begins[name])
            for line in file:
                if line.startswith(b"# "):
                    return
                yield line.removesuffix(b"\n")

    @staticmethod
    def of_psql(_, word):
        return None if word == b"\\N" else plain(word)

    @staticmethod
    def of_mysql(kind, word):
        if kind == "b":
            return plain(word)
        return None if word == b"NULL" else word if kind == "n" else plain(word[1:])

    def words(self, name):
        if name not in self.begins:
            raise Fault(f"{self.path} has no {name}: let from_rt.py commands print the program anew")
        kinds, word = kinds_of(name), self.word
        for line in self.lines(name):
            yield [word(kind, it) for kind, it in zip(kinds, line.split(b"\t"))]


def open_tables(path):
    try:
        with open(path, "rb") as file:
            begin = file.read(len(MAGIC))
    except OSError as fault:
        raise Fault(f"{path}: {fault.strerror}") from fault
    return SqliteTables(path) if begin == MAGIC else WrittenTables(path)


def read(place, name):
    """The rows of one kind, each with the names of its columns."""
    row_of, of = row_type(name), [KINDS[kind] for kind in kinds_of(name)]
    for words in place.words(name):
        yield row_of(*[convert(word) for convert, word in zip(of, words)])
