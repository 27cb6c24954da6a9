"""A wrong change of a crate, as an edit file tells it."""
import os
import re
from typing import NamedTuple, Optional

from wrong.source import code_of, function_at, functions, module_of


class Bad(Exception):
    """Why an edit cannot be tried: its kind, and what to say."""

    def __init__(self, kind, why):
        super().__init__(f"{kind}: {why}")


class Place(NamedTuple):
    """The function that a change stands in."""

    file: str
    module: str
    owner: Optional[str]
    name: str


class Change(NamedTuple):
    """An edit that can be tried."""

    crate: str
    file: str
    pairs: tuple
    places: frozenset
    # Whether it changes more than the bodies of functions, so that others may be told as wrong by
    # it.
    is_wide: bool

    @property
    def label(self):
        return f"{self.crate}/{os.path.basename(self.file)}"


def pairs_in(text):
    """The file, the old text and the new text of each pair of an edit file, and the name of the
    function of that file which has to refuse it, where a line `in: NAME` tells one: so does an
    edit of a table or of a constant. Each other line is empty or begins with `#`."""
    file, old, user, found = None, None, None, []
    for number, line in enumerate(text.split("\n"), 1):
        if re.fullmatch(r"in: \w+", line) and user is None and not found:
            user = line[len("in: ") :]
        elif line.startswith("file: ") and old is None:
            file = line[len("file: ") :].strip()
            if os.path.normpath(file) != file or not re.fullmatch(r"src/.*\.rt", file):
                raise Bad("MALFORMED", f"line {number} names no file src/..rt")
        elif line.startswith("old: ") and file and old is None and len(line) > len("old: "):
            old = line[len("old: ") :]
        elif re.match(r"new:( |$)", line) and old is not None:
            found.append((file, old, line[len("new: ") :]))
            old = None
        elif line.strip() and not line.startswith("#"):
            raise Bad("MALFORMED", f"line {number} is not read here: {line[:60]}")
    if old is not None:
        raise Bad("MALFORMED", "an 'old:' line has no 'new:' line")
    if not found:
        raise Bad("MALFORMED", "it has no pair of 'old:' and 'new:'")
    return tuple(found), user


def applied(folder, pairs, texts=()):
    """The texts of the crate's files with these changes, on top of those given, by file; and where
    each pair stood: its file, the text before it and its place in that."""
    texts, stood = dict(texts), []
    for file, old, new in pairs:
        if file not in texts:
            if not os.path.isfile(f"{folder}/{file}"):
                raise Bad("FILE IS MISSING", f"there is no {file}")
            with open(f"{folder}/{file}", encoding="utf-8") as it:
                texts[file] = it.read()
        times = texts[file].count(old)
        if times != 1:
            kind = "TEXT STANDS TWICE" if times else "TEXT IS MISSING"
            raise Bad(kind, f"an 'old:' text stands {times} times in {file}: {old.strip()[:60]}")
        stood.append((file, texts[file], texts[file].index(old), len(old)))
        texts[file] = texts[file].replace(old, new)
    return texts, stood


def stripped(text, at, length):
    """The stretch without the blanks at its ends."""
    part = text[at : at + length]
    return at + len(part) - len(part.lstrip()), at + len(part.rstrip())


def read(crate, folder, edit):
    """The change that an edit file tells of a crate in this folder."""
    try:
        with open(edit, encoding="utf-8") as it:
            pairs, user = pairs_in(it.read())
        texts, stood = applied(folder, pairs)
    except (OSError, ValueError) as error:
        raise Bad("MALFORMED", f"it cannot be read: {error}") from error
    first = {}
    for file, before, _, _ in stood:
        first.setdefault(file, before)
    if all(code_of(first[it]) == code_of(texts[it]) for it in first):
        raise Bad("CHANGES NOTHING", "but for comments and layout, the code is the same with it")
    places, is_wide = places_of(stood, user)
    return Change(crate, edit, pairs, places, is_wide)


def places_of(stood, user):
    """The functions that the pairs stand in, or the one named where none of them does; and whether
    more than bodies is changed."""
    places, is_wide = set(), user is not None
    for file, before, at, length in stood:
        start, end = stripped(before, at, length)
        found = function_at(before, start, end)
        named = [it for it in functions(before) if it.name == user] if not found else []
        # (a constant may be made by a function that is `const`)
        is_wide = is_wide or found is None or start < found.body or found.is_const
        for it in [found] if found else named:
            places.add(Place(file, module_of(file), it.owner, it.name))
    if not places:
        why = "and no line 'in: NAME' tells one of its file that uses what it changes"
        raise Bad("OUTSIDE", f"it stands in no function, {why}")
    return frozenset(places), is_wide


def groups_of(folder, changes):
    """The changes in as few groups as hold them, each with the texts of the files that it changes:
    at most one for a function in a group, and one that changes more than bodies alone."""
    groups = []
    for change in changes:
        for group in groups:
            texts, members = group
            held = {place for it in members for place in it.places}
            if change.is_wide or members[0].is_wide or held & change.places:
                continue
            try:
                group[0] = applied(folder, change.pairs, texts)[0]
            except Bad:
                continue
            members.append(change)
            break
        else:
            groups.append([applied(folder, change.pairs)[0], [change]])
    return groups
