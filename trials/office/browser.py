"""A browser for each person. It keeps the desk's cookie as such a browser does: until it is closed, until the
cookie's own time, or until its person signs out. Whom the desk has to take for signed in is told by
models/sessions.py."""
import collections
import re
import urllib.parse
import zlib
from typing import NamedTuple

import sessions

from office import reader
from office.asks import PAGES, form, form_page, place
from office.differs import Differs
from office.ways import asked, dated, until_answered

# what people do: tick the box, close the browser in the evening, sign out then, or leave it open
TICKS, CLOSES, SIGNS_OUT, LEAVES = range(4)


def habit(person):
    return zlib.crc32(person.encode()) % 4


class Kept(NamedTuple):
    """The value of a cookie, and the minute at which the browser drops it by itself, if it does."""
    value: str
    until: int | None

    def ends(self):
        return int(self.value.split(".")[1])


class Browser:
    """The browsers of all, by their persons. They outlast the server."""

    def __init__(self, clock):
        self.clock, self.port, self.tokens, self.people = clock, 0, {}, {}
        self.kept, self.last, self.counts = {}, None, collections.Counter()

    def moved(self, port, tokens):
        """The server has started, and has these tokens of persons. The cookies of those who left say nothing."""
        self.port, self.tokens = port, tokens
        self.people = {token: person for person, token in tokens.items()}
        for gone in [it for it in self.kept if it not in tokens]:
            self.is_asked_to_sign_in(gone, "/", self.plainly("/", gone))
            del self.kept[gone]

    # ---- sessions

    def stands(self, by):
        """Whether the cookie of a person has to stand for this person now."""
        kept = self.kept.get(by)
        if kept and kept.until is not None and kept.until <= self.clock.now:
            del self.kept[by]
            self.counts["cookies dropped by the browser"] += 1
            kept = None
        return kept is not None and sessions.caller_of(self.people, kept.value, self.clock.now) == by

    def ready(self, by, path="/"):
        """The person is signed in, after that was asked where it has to be. False where no whole reply came."""
        if self.stands(by):
            return True
        page = self.plainly(path, by)
        return page is not None and self.sign_in(by, path, page)

    def sign_in(self, by, path, page):
        """Signs in on the page that came in place of another one."""
        hidden = self.is_asked_to_sign_in(by, path, page)
        keep = habit(by) == TICKS
        fields = {**hidden, "token": self.tokens[by], **({"keep": "yes"} if keep else {})}
        reply = until_answered(self.send, "/sign-in", fields, [])
        if reply is None:
            return False
        now = self.clock.now
        value = sessions.signed_in(self.people, self.tokens[by], now, sessions.MONTH if keep else sessions.DAY)
        lasts = f"Max-Age={60 * sessions.MONTH}; " if keep else ""
        given = reply.code, reply.head.get_all("Set-Cookie"), plain(reply.head["Location"] or "")
        wanted = 303, [f"desk={value}; Path=/; {lasts}HttpOnly; SameSite=Lax"], plain(path)
        if given != wanted:
            raise Differs(f"{by} signs in at {now}: {given} in place of {wanted}")
        self.kept[by] = Kept(value, now + sessions.MONTH if keep else None)
        self.counts["signed in"] += 1
        return True

    def is_asked_to_sign_in(self, by, path, page):
        """The page asks for the token, since the cookie of a person has ended or isn't there; its hidden fields."""
        kept = self.kept.get(by)
        if page is None:
            return {}
        top = reader.read(page.text())
        if page.code != 403 or not reader.is_sign_in(top):
            raise Differs(f"{path} for {by} with {kept} at {self.clock.now}: {page.code}, and no page to sign in")
        if kept:
            self.counts["ended by their time" if kept.ends() <= self.clock.now else "ended by new settings"] += 1
        hidden = reader.forms(top).get("/sign-in", {})
        if [*hidden][:1] != ["next"] or plain(hidden["next"]) != plain(path):
            raise Differs(f"{path} for {by}: the page to sign in leads to {hidden}")
        return hidden

    def evening(self):
        """Some close their browser, and others sign out."""
        for by in list(self.kept):
            if habit(by) == SIGNS_OUT and self.stands(by):
                self.sign_out(by)
            if habit(by) in (CLOSES, SIGNS_OUT):
                self.kept.pop(by, None)

    def sign_out(self, by):
        """A person who is signed in signs out."""
        reply = until_answered(self.send, "/sign-out", {}, [f"Cookie: desk={self.kept[by].value}"])
        given = reply and (reply.code, reply.head.get_all("Set-Cookie"), reply.head["Location"])
        wanted = 303, ["desk=; Path=/; Max-Age=0; HttpOnly; SameSite=Lax"], "/sign-in"
        if given != wanted:
            raise Differs(f"{by} signs out: {given} in place of {wanted}")
        self.counts["signed out"] += 1
        del self.kept[by]

    def post_signed_out(self, ask, hidden):
        """A form that is sent by one who signed out meanwhile: it is asked to sign in, to the form with the text that
        was typed into it, or to the page of a form without one."""
        path, fields = form(ask)
        reply = self.send(path, {**(hidden or {}), **fields}, [])
        kept = self.is_asked_to_sign_in(ask.by, path if "text" in fields else form_page(ask)[0], reply)
        if kept and "text" in fields:
            seen = {"seen": hidden["seen"]} if hidden and "seen" in hidden else {}
            given = {name: feeds(it) for name, it in {**seen, **fields}.items()}
            comes = {name: feeds(kept.get(name, "")) for name in given}
            if comes != given:
                raise Differs(f"{path} for {ask.by}: {comes} comes along in place of {given}")
        self.counts["signed out in another tab"] += 1

    # ---- pages and forms

    def plainly(self, path, by):
        """What comes of a look by the cookie that there is."""
        cookie = [f"Cookie: desk={self.kept[by].value}"] if by in self.kept else []
        reply = until_answered(asked, self.port, "GET", path, ["Sec-Fetch-Site: same-origin", *cookie])
        return dated(reply, self.clock)

    def get(self, by, path):
        """A page, after signing in where that is asked."""
        return self.plainly(path, by) if self.ready(by, path) else None

    def send(self, path, fields, head):
        """A form, with line ends as browsers send them."""
        text = {name: re.sub("\r\n|\r|\n", "\r\n", it) if "\r" not in it else it for name, it in fields.items()}
        body = urllib.parse.urlencode(text).encode()
        host = f"http://127.0.0.1:{self.port}"
        reply = asked(self.port, "POST", path, ["Content-Type: application/x-www-form-urlencoded", f"Origin: {host}",
                                                "Sec-Fetch-Site: same-origin", *head], body)
        return dated(reply, self.clock)

    def page(self, by, name, path):
        """The code and the facts of a page."""
        self.last = reply = self.get(by, path)
        return reply and (reply.code, reader.facts_of(name, reply.code, reply.text()))

    def reading(self, ask):
        path = place(ask)
        if ask.name == "find":
            path += "?" + urllib.parse.urlencode(ask.words[0])
        return self.page(ask.by, PAGES[ask.name], path)

    def post(self, ask, hidden=None):
        """What comes of a form: the code, and the place to which it leads or the facts of its page."""
        path, fields = form(ask)
        if not self.ready(ask.by):
            return None
        seen = {"seen": str(ask.seen)} if ask.name == "correspond" else {}
        self.last = reply = self.send(path, {"me": ask.by, **seen, **(hidden or {}), **fields},
                                      [f"Cookie: desk={self.kept[ask.by].value}"])
        if reply is None:
            return None
        if reply.code == 303:
            return 303, reply.head["Location"]
        return reply.code, reader.facts_of("refused", reply.code, reply.text())


def feeds(text):
    """A text with one kind of line ends."""
    return re.sub("\r\n|\r", "\n", text)


def plain(place):
    """A place without its search and its mark."""
    return re.split("[?#]", place)[0]


def hidden_of(reply, path):
    """The hidden fields of the form with that action on a page, if it stands there."""
    return reader.forms(reader.read(reply.text())).get(path, {}) if reply else {}
