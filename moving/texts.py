"""The texts of RT's transactions as the desk takes them: no HTML, no control characters, each file by
its name and size, and in parts of at most 20,000 characters."""
import base64
import binascii
import html.parser
import itertools
import quopri
import re

from files import shown

LONGEST = 20_000
CONTROL = re.compile(r"[\x00-\x08\x0b-\x1f\x7f]")
BREAKS = {"br", "p", "div", "tr", "ul", "ol", "table", "blockquote", "h1", "h2", "h3"}
NOTHING = "(no text)"


class Plain(html.parser.HTMLParser):
    """The words of a page, each block on a line of its own."""

    def __init__(self):
        super().__init__()
        self.parts, self.hidden = [], 0

    def handle_data(self, data):
        if not self.hidden:
            self.parts.append(data)

    def handle_starttag(self, tag, attrs):
        self.hidden += tag in ("style", "script")
        if tag in BREAKS:
            self.parts.append("\n")
        if tag == "li":
            self.parts.append("\n- ")

    def handle_endtag(self, tag):
        self.hidden -= tag in ("style", "script") and self.hidden > 0


def of_page(text):
    page = Plain()
    page.feed(text)
    page.close()
    return "".join(page.parts).strip("\n")


def decoded(row):
    """The bytes of an attachment."""
    if row.encoding == "base64":
        try:
            return base64.b64decode(row.content)
        except binascii.Error:
            return row.content
    return quopri.decodestring(row.content) if row.encoding == "quoted-printable" else row.content


def size_of(row):
    """The bytes of a file: those of base64 by its letters, since they may not have been read."""
    if row.encoding == "quoted-printable":
        return len(decoded(row))
    size = row.size or 0
    return size * 3 // 4 if row.encoding == "base64" else size


def cleaned(text):
    return CONTROL.sub("", text.replace("\r\n", "\n").replace("\r", "\n"))


def parts(text):
    return [text[at:at + LONGEST] for at in range(0, len(text), LONGEST)]


def kind_of(row):
    """What an attachment is: the text itself, a page of HTML, what only holds others, or a file."""
    kind = (row.type or "").lower()
    if row.name or row.encoding == "external":
        return "file"
    if kind.startswith(("multipart/", "message/")) and not row.size:
        return "holder"
    return {"text/plain": "text", "text/html": "page"}.get(kind, "file")


class Texts:
    """The text of each transaction. They have to be asked for in the order of their numbers."""

    def __init__(self, rows, report, files):
        self.report, self.files = report, files
        self.groups = itertools.groupby(rows, lambda row: row.transaction)
        self.next, self.rows = next(self.groups, (None, ()))

    def attachments(self, transaction):
        """Those of a transaction."""
        self.skip(transaction)
        if self.next != transaction:
            return []
        found = list(self.rows)
        self.next, self.rows = next(self.groups, (None, ()))
        return found

    def skip(self, transaction=None):
        """Passes over those of the transactions before this one, or of all that are left."""
        while self.next is not None and (transaction is None or self.next < transaction):
            self.report.attached("of a transaction without a text, as a letter that RT sent",
                                 sum(1 for _ in self.rows))
            self.next, self.rows = next(self.groups, (None, ()))

    def of(self, ticket, transaction, is_writing):
        """The parts of its text. Who writes says something: without a text, that there is none."""
        rows = self.attachments(transaction)
        said = self.words(ticket, [row for row in rows if kind_of(row) in ("text", "page")])
        named = [self.file(ticket, transaction, row) for row in rows if kind_of(row) == "file"]
        self.report.attached("that only holds others",
                             sum(kind_of(row) == "holder" for row in rows))
        if said and named and not said.endswith("\n\n"):
            said += "\n" if said.endswith("\n") else "\n\n"
        text = said + "\n".join(named)
        if not said and named:
            self.report.other("text that is nothing but a file", 1, ticket)
        if not text and is_writing:
            self.report.other(f"text that is empty, told as {NOTHING}", 1, ticket)
            text = NOTHING
        if len(text) > LONGEST:
            self.report.other("text of more than 20,000 characters, cut into parts")
        return parts(text)

    def words(self, ticket, rows):
        """All that is written there; of a text and a page beside it, the text."""
        beside = {row.parent for row in rows if kind_of(row) == "text"}
        found = []
        for row in rows:
            if kind_of(row) == "page" and row.parent in beside:
                self.report.left("HTML beside a plain text", 1, ticket)
                self.report.attached("HTML beside a plain text")
                continue
            self.report.attached("text")
            found.append(self.one(ticket, row))
        return "\n\n".join(it for it in found if it.strip()) or "".join(found)

    def one(self, ticket, row):
        content = decoded(row)
        text = content.decode("utf-8", "replace")
        if text.encode() != content:
            self.report.other("text with bytes that are no UTF-8, shown as �", 1, ticket)
        if kind_of(row) == "page":
            text = of_page(text)
            self.report.other("HTML made a plain text", 1, ticket)
        clean = cleaned(text)
        if clean != text.replace("\r\n", "\n"):
            self.report.left("text's control characters", 1, ticket)
        return clean

    def file(self, ticket, transaction, row):
        self.report.attached("file, named in the text")
        name = shown(row.name or "") or row.type or "without a name"
        if row.encoding == "external":
            self.report.left("file that RT keeps outside its database", 1, ticket)
            return f"(a file: {name}, kept outside the database)"
        place = self.files.put(ticket, transaction, row.name or "file", decoded(row))
        self.report.left("file that was attached, named in its text", place is None, ticket)
        self.report.other("file that was attached, written out", place is not None)
        return f"(a file: {name}, {size_of(row):,} bytes{', in ' + place if place else ''})"


def subject(text, report):
    """A subject: on one line, of 1 to 200 characters."""
    line = re.sub(r"[\x00-\x1f\x7f]", " ", text or "").strip() or "(no subject)"
    if line[:200] != text:
        report.other("subject that was empty, longer than 200, or had odd spaces")
    return line[:200]
