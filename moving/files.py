"""Files that somebody attached to a ticket: how a text names them, and where they are written."""
import os
import re
import unicodedata

LONGEST_NAME = 100
# what no name of a file has here: all but letters, digits and these
ODD = re.compile(r"[^\w.+ -]")


def shown(name):
    """A name on one line, without what would turn or hide a part of it."""
    kept = (it if it == " " or unicodedata.category(it)[0] not in "CZ" else " " for it in name)
    return re.sub(" +", " ", "".join(kept)).strip()[:200]


def on_disk(name):
    """A name of one folder's file: no path, no leading dot, and not too long."""
    last = re.split(r"[/\\]", unicodedata.normalize("NFC", name))[-1]
    plain = ODD.sub("_", last).strip(" .-")
    stem, ending = os.path.splitext(plain)
    while len((stem + ending).encode()) > LONGEST_NAME:
        stem, ending = (stem[:-1], ending) if stem else (ending[:-1], "")
    return (stem + ending).strip(" .") or "file"


class Nowhere:
    """Files stay behind."""

    def put(self, ticket, transaction, name, content):
        return None


class Places:
    """Where each file is below a folder, as TICKET/TRANSACTION/NAME. No two are at one place."""

    def __init__(self):
        self.transaction, self.taken = None, set()

    def put(self, ticket, transaction, name, content):
        if transaction != self.transaction:
            self.transaction, self.taken = transaction, set()
        stem, ending = os.path.splitext(on_disk(name))
        found, number = stem + ending, 1
        while found.casefold() in self.taken:
            number += 1
            found = f"{stem}-{number}{ending}"
        self.taken.add(found.casefold())
        return f"{ticket}/{transaction}/{found}"


class Folder(Places):
    """Writes them there: for their owner alone, and over none."""

    def __init__(self, path):
        super().__init__()
        os.makedirs(path, mode=0o700)
        self.path = path

    def put(self, ticket, transaction, name, content):
        place = super().put(ticket, transaction, name, content)
        path = os.path.join(self.path, place)
        os.makedirs(os.path.dirname(path), mode=0o700, exist_ok=True)
        flags = os.O_WRONLY | os.O_CREAT | os.O_EXCL | os.O_NOFOLLOW
        with open(os.open(path, flags, 0o600), "wb") as file:
            file.write(content)
        return place
