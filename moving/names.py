"""Names of RT as the desk writes them: 1 to 20 of a to z, 0 to 9, - and _, the first a letter."""
import re
import unicodedata

LETTERS = str.maketrans({"ß": "ss", "ł": "l", "ø": "o", "æ": "ae", "đ": "d", "ð": "d", "þ": "th",
                         "ä": "ae", "ö": "oe", "ü": "ue"})


def spelled(text):
    """The letters of a text that a name may have. An address is told by what stands before the @."""
    text = unicodedata.normalize("NFC", text).lower().split("@")[0].translate(LETTERS)
    text = unicodedata.normalize("NFKD", text).encode("ascii", "ignore").decode()
    return re.sub(r"[^a-z0-9_]+", "-", text).strip("-")


def on_one_line(text):
    return re.sub(r"[\x00-\x1f\x7f]", " ", text)


class Names:
    """The names of one kind of thing, no two the same. Persons and groups have one set of them."""

    def __init__(self, kind, report, taken=None):
        self.kind, self.report = kind, report
        self.taken = set() if taken is None else taken
        self.given = {}

    def of(self, key, text):
        """The name of the thing with that key, which RT calls so."""
        if key not in self.given:
            name = self.free(spelled(text or ""))
            self.taken.add(name)
            self.given[key] = name
            self.report.names.append((self.kind, on_one_line(text or ""), name))
            if name != text:
                self.report.other(f"name of a {self.kind}, written otherwise")
        return self.given[key]

    def free(self, name):
        if not name[:1].isalpha():
            name = f"{self.kind[0]}{name or len(self.taken) + 1}"
        name = name[:20].rstrip("-")
        found, number = name, 2
        while found in self.taken:
            ending = f"-{number}"
            found, number = name[:20 - len(ending)] + ending, number + 1
        return found
