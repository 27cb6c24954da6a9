"""The cases of a move: some lines of SQL each, over tables that hold base.sql, and what has to come
of them. A case is a file NAME.case: on its first line what it is, then SQL, and lines that say what
is wanted:

    -- line: WORDS       a line of the move, without its moment        -- no line: WORDS  in none
    -- whole line: LINE  a line with its moment
    -- report: N KIND    a row of the report
    -- setting: TEXT     stands in settings.toml                       -- no setting: TEXT
    -- person: ROW       a row of people.tsv
    -- token: NAME ADDRESS  and a token behind it                      -- no token: NAME
    -- file: PATH TEXT   a file that was written, and what it holds
    -- desk: SQL => WORDS  of the desk's file, once the lines are loaded
    -- fault: TEXT       from_rt.py ends with it
    -- options: WORDS, -- config: JSON, -- on: DATABASES  for from_rt.py, RT's configuration, where it is tried

Of each case all its lines have to be taken by the desk, counts.py has to find nothing wrong, and
compare.py nothing that differs."""
import dataclasses
import glob
import json
import os
import re
import shutil
import sqlite3
import subprocess
import sys

HERE = os.path.dirname(os.path.abspath(__file__))
FOLDER = os.path.join(HERE, "cases")
KEYS = ("line", "no line", "whole line", "report", "setting", "no setting", "person", "token", "no token", "file", "desk",
        "fault")
TOKEN = "[0-9a-f]{32}"


@dataclasses.dataclass
class Case:
    name: str
    sql: str
    wanted: list
    options: list
    configuration: dict
    databases: list


def read_case(path):
    sql, wanted, how = [], [], {"options": "", "config": "{}", "on": "sqlite mariadb postgresql"}
    with open(path, encoding="utf-8", newline="\n") as file:
        next(file)
        for line in file:
            key, _, text = line.removeprefix("-- ").removesuffix("\n").partition(": ")
            if not line.startswith("-- "):
                sql.append(line)
            elif key in how:
                how[key] = text
            elif key in KEYS:
                wanted.append((key, text))
            else:
                raise ValueError(f"{path}: {line}")
    return Case(os.path.basename(path).removesuffix(".case"), "".join(sql), wanted, how["options"].split(),
                json.loads(how["config"]), how["on"].split())


def all_cases():
    return [read_case(path) for path in sorted(glob.glob(os.path.join(FOLDER, "*.case")))]


def base():
    with open(os.path.join(FOLDER, "base.sql"), encoding="utf-8") as file:
        return file.read()


def merged(first, second):
    """A configuration with another's parts in it."""
    if not isinstance(first, dict) or not isinstance(second, dict):
        return second
    return {**first, **{key: merged(first.get(key), value) for key, value in second.items()}}


def text_of(*path):
    try:
        with open(os.path.join(*path), encoding="utf-8", newline="") as file:
            return file.read()
    except FileNotFoundError:
        return ""


class Outcome:
    """What from_rt.py made of tables, and what the desk made of that."""

    def __init__(self, programs, room, tables, configuration, case, load=None):
        self.room, self.tables, self.load = room, tables, load
        self.out, self.desk = os.path.join(room, "out"), os.path.join(room, "desk.db")
        self.programs = programs
        self.config = os.path.join(room, "config.json")
        for name in ("out", "files"):
            shutil.rmtree(os.path.join(room, name), ignore_errors=True)
        for name in ("tokens", "desk.db", "desk.db-wal", "desk.db-shm"):
            if os.path.exists(os.path.join(room, name)):
                os.remove(os.path.join(room, name))
        with open(self.config, "w", encoding="utf-8") as file:
            json.dump(merged(configuration, case.configuration), file)
        options = [word for it in case.options for word in (
            [it, os.path.join(room, it.removeprefix("--"))] if it in ("--files", "--tokens") else [it])]
        done = self.python("from_rt.py", tables, self.config, self.out, *options)
        self.fault = done.stderr
        self.is_moved = done.returncode == 0
        self.whole_lines = text_of(self.out, "lines").split("\n")
        self.lines = [line.partition(" ")[2] for line in self.whole_lines]
        self.report = [" ".join(line.split()) for line in text_of(self.out, "report.txt").split("\n")]

    def python(self, name, *words):
        return subprocess.run([sys.executable, os.path.join(self.programs, name), *words], text=True,
                              stdout=subprocess.PIPE, stderr=subprocess.PIPE)

    def loaded(self):
        """What the desk says of the lines, but that they are done. None without a desk."""
        if not self.load:
            return None
        with open(os.path.join(self.out, "lines"), "rb") as file:
            done = subprocess.run([self.load, "--db", self.desk, "--settings",
                                   os.path.join(self.out, "import.toml")], stdin=file,
                                  stdout=subprocess.PIPE, stderr=subprocess.DEVNULL, text=True)
        return done.stdout

    def rows(self, statement):
        file = sqlite3.connect(f"file:{self.desk}?mode=ro", uri=True)
        found = " ".join(str(word) for row in file.execute(statement) for word in row)
        file.close()
        return found

    def has(self, key, text):
        """Whether that is so; of the desk's file None where there is none."""
        if key == "line":
            return text in self.lines
        if key == "whole line":
            return text in self.whole_lines
        if key == "no line":
            return not any(text in line for line in self.lines)
        if key == "report":
            return text in self.report
        if key in ("setting", "no setting"):
            return (text in text_of(self.out, "settings.toml")) == (key == "setting")
        if key == "person":
            return text in text_of(self.out, "people.tsv").split("\n")
        if key in ("token", "no token"):
            name = re.escape(text.replace(" ", "\t"))
            is_there = re.search(f"^{name}\t.*{TOKEN}$" if key == "no token" else f"^{name}\t{TOKEN}$",
                                 text_of(self.room, "tokens"), re.MULTILINE)
            return bool(is_there) == (key == "token")
        if key == "file":
            place, _, content = text.partition(" ")
            return text_of(self.room, "files", place) == content
        if key == "fault":
            return text in self.fault
        statement, _, wanted = text.partition(" => ")
        return self.rows(statement) == wanted if os.path.exists(self.desk) else None


def unmet(case, outcome, counted):
    """What of a case isn't so. counted is what RT's database has, for counts.py."""
    is_fault = any(key == "fault" for key, _ in case.wanted)
    if not is_fault and not outcome.is_moved:
        return [f"from_rt.py: {outcome.fault.strip()}"]
    wrong = []
    if not is_fault:
        said = outcome.loaded()
        desk = [outcome.desk] if said is not None else []
        wrong += [f"the desk: {said.strip()}"] if said else []
        done = outcome.python("counts.py", counted, outcome.out, *desk)
        wrong += [f"counts.py: {done.stdout.strip()}{done.stderr.strip()}"] if done.returncode else []
        if desk:
            done = outcome.python("compare.py", outcome.tables, outcome.config, outcome.out, outcome.desk)
            wrong += [f"compare.py: {done.stdout.strip()}{done.stderr.strip()}"] if done.returncode else []
    return wrong + [f"{key}: {text}" for key, text in case.wanted if outcome.has(key, text) is False]
