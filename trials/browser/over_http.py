"""The parts that need no browser: the pages' heads and markup, texts that would be markup, and
messages that no page of the desk sends."""
import hashlib
import re
import time

from client import cookie_of
from pages import of_another, of_who_signed_in
from sessions import DAY, MONTH

from browser import markup
from browser.office import FREE, LAST, TALK, TOKENS, TRICKY
from browser.trial import expect, holds, serving, tally
from browser.visitor import form

POLICY = ("default-src 'none'; style-src 'self'; form-action 'self'; frame-ancestors 'none'; "
          "base-uri 'none'")
HTML = "text/html; charset=utf-8"
# who looks at what, and the code that comes
SHOWN = [("bob", it, 200) for it in (
    "/", "/desk/queues/support", "/desk/queues/purchases", "/desk/queues/building",
    "/desk/queues/support/new", f"/desk/requests/{TALK}", f"/desk/requests/{FREE}",
    f"/desk/requests/{TRICKY}", "/desk/requests/6", "/desk/requests/9", "/desk/overdue",
    "/desk/workload", "/?from=elsewhere", "/desk/find", "/desk/find?words=the&replies=yes",
    "/desk/find?queue=support&state=closed&order=due-last", "/desk/find/after/none/3?order=due",
    "/desk/find/before/3/3?owner=Me&late=yes", "/desk/find?words=%22%3E%3Cb%3E&queue=support")]
SHOWN += [("ann", it, 200) for it in ("/", "/desk/queues/support", f"/desk/requests/{TALK}",
                                      "/desk/overdue", "/desk/workload")]
SHOWN += [("eva", "/desk/requests/9", 200), ("dora", "/", 200),
          ("lin", "/desk/queues/building", 200)]
SHOWN += [("ann", "/desk/requests/9", 404), ("bob", "/desk/requests/99", 404),
          ("bob", "/desk/queues/nowhere", 200), ("bob", "/desk", 404),
          ("bob", "/desk/find?word=x", 400), ("bob", "/desk/find?words=%", 400),
          ("bob", "/desk/find?from=x&words=%22%3E%3Cb%3E", 400),
          ("bob", "/desk/find/after/x/1", 404), ("bob", "/desk/findings", 404),
          ("bob", "/desk/nothing", 404), ("bob", "/desk/requests/x", 404),
          ("bob", "/desk/queues/<script>", 404),
          ("bob", "/desk/requests/4294967296", 404), (None, "/", 403), (None, "/sign-in", 200),
          (None, f"/desk/requests/{TALK}", 403), (None, "/desk/nothing", 404)]
HOSTILE = [
    "<script>alert(1)</script>", "\"><img src=x onerror=alert(1)>", "' onclick='alert(1)",
    "</title>", "</textarea></form><script>alert(2)</script>", "<!--", "-->", "]]>",
    "<![CDATA[", "&lt;b&gt;",
    "&amp;&#60;&nbsp;&copy", "</li></ol></main>", "`=`", "\\u003cb\\u003e",
    "\u202etxt.exe\u202c\u2067",
    "%3Cb%3E+%26", "{subject}", "</style><b>", "javascript:alert(1)", "\ufeff<b>\u2028<i>"]


def heads(what, reply, kind=HTML):
    """The lines above each page."""
    expect(f"{what}: its kind", reply.head("content-type"), kind)
    expect(f"{what}: its length", reply.head("content-length"), str(len(reply.body)))
    expect(f"{what}: it may be kept", reply.head("cache-control"), "no-store")
    expect(f"{what}: its policy", reply.head("content-security-policy"), POLICY)
    expect(f"{what}: its referrer", reply.head("referrer-policy"), "same-origin")
    expect(f"{what}: its kind is certain", reply.head("x-content-type-options"), "nosniff")
    expect(f"{what}: who opens it", reply.head("cross-origin-opener-policy"), "same-origin")
    expect(f"{what}: who loads it", reply.head("cross-origin-resource-policy"), "same-origin")
    expect(f"{what}: the connection", reply.head("connection"), "close")


def page(what, reply, code):
    """A page with that code, with its heads and without a fault in its markup."""
    expect(f"{what}: the code", reply.code, code)
    if reply.code == code:
        heads(what, reply)
        expect(f"{what}: its markup", markup.faults(reply.text), [])


def shown():
    """Each page, as several persons see it."""
    with serving("shown") as visitor:
        for person, place, code in SHOWN:
            page(f"{person} at {place}", visitor.get(place, person), code)
        sheet = re.search(r'href="/style\.css\?([0-9a-f]{8})"', visitor.get("/").text)
        holds("a style sheet is named", sheet)
        reply = visitor.get(f"/style.css?{sheet[1]}" if sheet else "/style.css", None)
        expect("its name is its checksum", sheet and sheet[1],
               hashlib.sha256(reply.body).hexdigest()[:8])
        expect("the style sheet", (reply.code, reply.head("content-type")),
               (200, "text/css; charset=utf-8"))
        expect("it is kept", reply.head("cache-control"), "public, max-age=31536000, immutable")
        holds("it has a sheet's length", len(reply.body) > 4_000)
        told = visitor.get("/favicon.ico")
        expect("what is no page is the interface's", (told.code, told.text),
               (404, "bad request 1 NoRoute\n"))


def tell_apart():
    """What one may not see is answered as what isn't there."""
    with serving("apart") as visitor:
        moments = re.compile(r"<time.*?</time>")
        hidden, none = (moments.sub("", visitor.get(f"/desk/requests/{it}", "lin").text)
                        .replace(f"{it}", "N") for it in (TALK, 77))
        expect("a hidden request", hidden, none)


def refusals_of(visitor):
    """Each refusal that a form can meet: who sends what where, its code and what it says."""
    at = f"/desk/requests/{TALK}"
    new = {"subject": "A badge", "requestors": ""}
    yield "bob", f"{at}/reply", {"text": ""}, 400, "refused 3 BadText"
    yield "bob", f"{at}/comment", {"text": "a" * 20_001}, 400, "refused 3 BadText"
    yield "bob", "/desk/queues/support/new", new | {"subject": "a" * 201}, 400, "refused 3 BadText"
    yield "bob", "/desk/requests/99/take", {}, 404, "refused 4 NotFound"
    yield "lin", f"{at}/reply", {"text": "mine"}, 404, "refused 4 NotFound"
    yield "bob", f"{at}/give", {"person": "<b>nobody"}, 400, "refused 5 UnknownName"
    yield "bob", f"{at}/status", {"status": "<b>"}, 400, "refused 5 UnknownName"
    yield "bob", "/desk/queues/support/new", new | {"requestors": "zoe"}, 400, \
        "refused 5 UnknownName"
    yield "ann", f"{at}/take", {}, 403, "refused 6 Denied TakeTicket"
    yield "ann", f"{at}/comment", {"text": "may I?"}, 403, "refused 6 Denied CommentOnTicket"
    yield "bob", "/desk/queues", {"queue": "more", "lifecycle": "default", "level": ""}, 403, \
        "refused 6 Denied AdminQueue"
    yield "bob", f"{at}/level", {"level": "standard"}, 409, "refused 7 NoChange"
    yield "dora", "/desk/requests/9/status", {"status": "delivered"}, 409, "refused 8 NoTransition"
    yield "bob", f"{at}/status", {"status": "resolved"}, 409, "refused 9 OpenDependency"
    yield "cid", f"{at}/take", {}, 409, "refused 10 Owned"
    yield "bob", f"/desk/requests/{FREE}/steal", {}, 409, "refused 11 NotOwned"
    yield "cid", f"{at}/untake", {}, 409, "refused 12 NotOwner"
    yield "dora", "/desk/queues", {"queue": "support", "lifecycle": "default", "level": ""}, 409, \
        "refused 13 Exists"
    yield "bob", f"{at}/link", {"kind": "RefersTo", "other": str(TALK)}, 400, "refused 14 SelfLink"


def refused():
    """Each refusal has a page of its own, which keeps what was typed and changes nothing."""
    with serving("refused") as visitor:
        before = visitor.told(f"/requests/{TALK}/history").body
        for person, place, fields, code, said in refusals_of(visitor):
            what = f"{person} sends {fields!r:.60} to {place}"
            reply = visitor.post(place, fields, person)
            page(what, reply, code)
            holds(f"{what}: it doesn't say {said}", said in reply.text)
            shown = markup.texts(reply.text)
            typed = [fields[it] for it in ("text", "subject", "requestors") if fields.get(it)]
            lost = [it[:40] for it in typed if code != 404 and not any(it in one for one in shown)]
            expect(f"{what}: what was typed and isn't kept", lost, [])
        expect("the history after refusals", visitor.told(f"/requests/{TALK}/history").body, before)


def half_done():
    """Of two commands that a form asks for the second is refused: the page says what was done and
    what wasn't. After a refused first nothing is done. A request is filed with its text, and who may not
    see it is told its number."""
    with serving("half") as visitor:
        new, text = "/desk/queues/support/new", "It is <b>locked</b>.\n\n\tSince noon."
        reply = visitor.post(new, {"subject": "A door", "requestors": "ann", "text": text}, "eva")
        page("a request that its filer may not see", reply, 200)
        holds("its number isn't told", f"It is request {LAST + 1}. You may not see it" in reply.text)
        holds("its text is told", not any(text in it for it in markup.texts(reply.text)))
        told = visitor.told(f"/requests/{LAST + 1}/history").text
        expect("what was done", [it.split()[4] for it in told.splitlines()], ["create", "reply"])
        at = f"/desk/requests/{TALK}"
        before = visitor.told(f"/requests/{TALK}/history").text
        for status, code, said in (("resolved", 409, "refused 9 OpenDependency"),
                                   ("none", 400, "refused 5 UnknownName")):
            reply = visitor.post(f"{at}/reply", {"text": status, "status": status})
            page(f"{status} that is refused", reply, code)
            holds(f"{status}: it isn't said", said in reply.text
                  and f"Your reply was sent, but the request was not made {status}." in reply.text)
            after = visitor.told(f"/requests/{TALK}/history").text
            holds(f"{status}: the reply isn't all that was done", after.startswith(before)
                  and [it.split()[4] for it in after[len(before):].splitlines()] == ["reply"])
            before = after
        count = visitor.told("/queues/support/requests").body
        for place, fields in ((new, {"subject": "", "requestors": "", "text": text}),
                              (f"{at}/reply", {"text": "", "status": "stalled"})):
            page(f"a refused first at {place}", visitor.post(place, fields), 400)
        expect("the history after them", visitor.told(f"/requests/{TALK}/history").text, before)
        expect("the queue after them", visitor.told("/queues/support/requests").body, count)
        for text in ("", " \t\n "):
            reply = visitor.post(new, {"subject": "A door", "requestors": "", "text": text})
            expect(f"the text {text!r}", reply.code, 303)
            number = re.search(r"/(\d+)#", reply.head("location") or "/0#")[1]
            expect(f"the entries with the text {text!r}", visitor.told(
                f"/requests/{number}/history").text.count("\n"), 1)


def filed(visitor, text):
    """The pages that show a text: of a new request with it, of its queue, and of forms with it that
    were refused."""
    queue = "t%d" % filed.count
    filed.count += 1
    expect("a queue is opened", visitor.post("/desk/queues", {
        "queue": queue, "lifecycle": "default", "level": ""}, "dora").code, 303)
    made = visitor.post(f"/desk/queues/{queue}/new", {"subject": text, "requestors": "ann"}, "dora")
    at = (made.head("location") or "").partition("#")[0]
    for act in ("reply", "comment"):
        expect(f"{act} of {text!r}", visitor.post(f"{at}/{act}", {"text": text}, "dora").code, 303)
    yield "a queue", visitor.get(f"/desk/queues/{queue}", "dora")
    yield "a request", visitor.get(at, "dora")
    yield "a refused reply", visitor.post(f"{at}/reply", {"text": text + "\0"}, "dora")
    yield "a refused comment", visitor.post(f"{at}/comment", {"text": text}, "ann")
    yield "a refused request", visitor.post(f"/desk/queues/{queue}/new", {
        "subject": text, "requestors": text, "text": text}, "dora")
    yield "a refused text", visitor.post(f"/desk/queues/{queue}/new", {
        "subject": text, "requestors": "ann", "text": text + "\0"}, "dora")
    yield "a request that its filer may not see", visitor.post(f"/desk/queues/{queue}/new", {
        "subject": text, "requestors": "ann", "text": text}, "lin")
    yield "a refused status", visitor.post(f"{at}/reply", {"text": text, "status": text}, "dora")
    yield "a refused reply with a status", visitor.post(
        f"{at}/reply", {"text": text + "\0", "status": text}, "dora")


filed.count = 0

# the pages that don't show the text
UNTOLD = ("a refused reply", "a refused reply with a status", "a request that its filer may not see")


def same():
    """Whatever text is written, the elements of a page and their attributes are those that it has
    with a plain text, and the text comes back whole."""
    with serving("same") as visitor:
        plain = [(what, markup.tree(it.text)) for what, it in filed(visitor, "x")]
        found = 0
        for text in HOSTILE:
            for (what, tree), (_, reply) in zip(plain, filed(visitor, text)):
                holds(f"{what} with {text!r} has other elements", markup.tree(reply.text) == tree)
                if what not in UNTOLD:
                    found += 1
                    holds(f"{what} doesn't show {text!r}",
                          any(text in it for it in markup.texts(reply.text)))
        tally.floor("same: pages with hostile texts", found, 80)
        for what, answers in (
            ("an address", [visitor.get(f"/desk/{it}") for it in ("x", "<script>1</script>")]),
            ("signing in", [visitor.post("/sign-in", {"token": it, "next": it}, None)
                            for it in ("x", "\"><script>alert(1)</script>")])):
            expect(f"{what} that would be markup", answers[1].text, answers[0].text)


OTHERS = [("another site", ["Sec-Fetch-Site: cross-site"]),
          ("a sister", ["Sec-Fetch-Site: same-site"]), 
          ("another origin", ["Origin: http://evil.example"]), ("no origin told", ["Origin: null"]),
          ("another port", ["Origin: http://127.0.0.1:1"]),
          ("two lines", ["Sec-Fetch-Site: same-origin", "Sec-Fetch-Site: cross-site"])]


def posts():
    """Forms of other sites are refused, those of the desk's own pages and of programs are taken."""
    with serving("posts") as visitor:
        own = [("its own page", ["Sec-Fetch-Site: same-origin"]),
               ("no page", ["Sec-Fetch-Site: none"]), 
               ("its own origin", [f"Origin: {visitor.origin}"]), ("a program", [])]
        at = f"/desk/requests/{LAST}"
        for what, lines in OTHERS:
            for place, fields in ((f"{at}/untake", {}), ("/sign-out", {}),
                                  ("/sign-in", {"token": TOKENS["ann"], "next": "/"})):
                reply = visitor.post(place, fields, "bob", lines)
                page(f"{what} sends to {place}", reply, 403)
                holds(f"{what}, {place}: it isn't told", "bad request 6 OtherSite" in reply.text)
                expect(f"{what}, {place}: a cookie", reply.head("set-cookie"), None)
        shown = visitor.told(f"/requests/{LAST}").text
        holds("another site changed the owner", "owner: bob\n" in shown)
        for what, lines in own:
            for act in ("untake", "take"):
                reply = visitor.post(f"{at}/{act}", {}, "bob", lines)
                expect(f"{what} sends {act}", (reply.code, reply.head("location"), reply.body),
                       (303, f"{at}#reply", b""))


def bodies():
    """Bodies that no form of the desk makes."""
    with serving("bodies") as visitor:
        at = f"/desk/requests/{TALK}"
        before = visitor.told(f"/requests/{TALK}/history").body
        for what, place, body in (
            ("a field twice", f"{at}/give", "me=bob&person=cid&person=ann"),
            ("a field too much", f"{at}/take", "me=bob&person=cid"),
            ("a field that lacks", f"{at}/watch", "me=bob&role=cc"),
            ("nobody's page", f"{at}/take", ""),
            ("two persons' page", f"{at}/take", "me=bob&me=bob"),
            ("no field", f"{at}/reply", "me=bob"),
            ("a role that is none", f"{at}/watch", "me=bob&role=owner&person=ann"),
            ("a kind that is none", f"{at}/link", "me=bob&kind=Likes&other=1"),
            ("nobody's reply", f"{at}/reply", "seen=1&text=kept"),
            ("two persons' comment", f"{at}/comment", "me=bob&me=ann&text=kept"),
            ("no entry that was seen", f"{at}/reply", "me=bob&text=kept"),
            ("two entries that were seen", f"{at}/reply", "me=bob&seen=1&seen=2&text=kept"),
            ("a word that was seen", f"{at}/reply", "me=bob&seen=one&text=kept"),
            ("nobody's new request", "/desk/queues/support/new", "subject=A+badge&requestors=ann&text=kept"),
        ):
            reply = visitor.post(place, body)
            page(what, reply, 400)
            holds(f"{what}: it isn't told", "That form isn’t right" in reply.text)
            if "kept" in body:
                holds(f"{what}: the text is lost", "kept</textarea>" in reply.text)
                holds(f"{what}: it can't be sent by bob", 'name="me" value="bob"' in reply.text)
        expect("the history after them", visitor.told(f"/requests/{TALK}/history").body, before)
        for what, place, body in (
            ("half an escape", f"{at}/reply", "me=bob&seen=1&text=%4"),
            ("an escape that is none", f"{at}/reply", "me=bob&seen=1&text=%zz"),
            ("no UTF-8", f"{at}/reply", "me=bob&seen=1&text=%ff%fe"),
        ):
            reply = visitor.post(place, body)
            page(what, reply, 400)
            holds(f"{what}: it isn't told", "bad request 4 BadBody" in reply.text)
        for what, text, wanted in (("CR LF", "a\nb", "a\\nb"), ("two", "\n\nx", "\\n\\nx"),
                                   ("a plus and a space", "1 + 1", "1 + 1")):
            expect(f"{what}: it is taken", visitor.post(f"{at}/reply", {"text": text}).code, 303)
            last = visitor.told(f"/requests/{TALK}/history").text.splitlines()[-1]
            expect(f"{what}: as it is kept", last.partition("reply ")[2], wanted)
        expect("a lone CR", visitor.post(f"{at}/reply", f"me=bob&seen={visitor.seen(at)}&text=a%0Db").code, 400)
        longest = {"text": "漢" * 20_000}
        expect("the longest text", visitor.post(f"{at}/reply", longest).code, 303)
        holds("it is shown whole", longest["text"] in visitor.get(at).text)
        reply = visitor.post(f"{at}/reply", "me=bob&seen=1&text=" + "a" * 300_000)
        expect("a body that is too long", (reply.code, "bad message 1 TooLong" in reply.text),
               (400, True))


def other_persons():
    """A form of another person's page does nothing. Its page says so, and has what was typed."""
    with serving("other") as visitor:
        at = f"/desk/requests/{TALK}"
        before = visitor.told(f"/requests/{TALK}/history").body
        count = visitor.told("/queues/support/requests").body
        for place, fields in (
            (f"{at}/reply", {"text": "a <b>text</b>", "status": "stalled"}), (f"{at}/comment", {"text": "an aside"}),
            (f"{at}/status", {"status": "stalled"}), (f"{at}/untake", {}),
            ("/desk/queues/support/new", {"subject": "A badge", "requestors": "ann", "text": "of a visitor"}),
            ("/desk/queues", {"queue": "more", "lifecycle": "default", "level": ""}),
        ):
            reply = visitor.post(place, {"me": "ann", **fields})
            code, said = of_another("bob", "ann")
            page(f"ann's form at {place}", reply, code)
            shown = markup.texts(reply.text)
            holds(f"{place}: it isn't said", any(said in it for it in shown))
            lost = [it for name, it in fields.items() if name in ("text", "subject", "requestors")
                    and not any(it in one for one in shown)]
            expect(f"{place}: what was typed and isn't kept", lost, [])
            if "text" in fields:
                holds(f"{place}: it can't be sent by bob", 'name="me" value="bob"' in reply.text)
        expect("the history after them", visitor.told(f"/requests/{TALK}/history").body, before)
        expect("the queue after them", visitor.told("/queues/support/requests").body, count)


def signed_out():
    """A text that is sent after its session has ended stands in its form again after signing in, and wasn't sent."""
    with serving("ended") as visitor:
        at = f"/desk/requests/{TALK}"
        before = visitor.told(f"/requests/{TALK}/history").body
        text = "\n A <b>text</b> & \"more\"\n\n"
        for place, fields in ((f"{at}/reply", {"seen": "1", "text": text, "status": "stalled"}),
                              (f"{at}/comment", {"text": text}),
                              ("/desk/queues/support/new", {"subject": "<i>A badge", "requestors": "ann", "text": text,
                                                            "status": "open"})):
            reply = visitor.post(place, {"me": "bob", **fields}, None)
            page(f"sent by nobody to {place}", reply, 403)
            kept = markup.hidden(reply.text, "/sign-in")
            expect(f"{place}: what comes along", {it: kept[it] for it in kept if kept[it]},
                   {"next": place, "seen": "0", **fields})
            again = visitor.post("/sign-in", kept | {"token": "none"}, None)
            page(f"{place}: an unknown token", again, 403)
            expect(f"{place}: what comes along then", markup.hidden(again.text, "/sign-in"), kept)
            reply = visitor.post("/sign-in", kept | {"token": TOKENS["bob"]}, None)
            page(f"{place}: signed in", reply, 200)
            holds(f"{place}: no cookie", (reply.head("set-cookie") or "").startswith("desk=bob."))
            holds(f"{place}: it isn't said", any(of_who_signed_in("bob") in it for it in markup.texts(reply.text)))
            expect(f"{place}: whose form", markup.hidden(reply.text, place).get("me"), "bob")
            expect(f"{place}: what was seen", markup.hidden(reply.text, place).get("seen"), fields.get("seen"))
            lost = [it for name, it in fields.items()
                    if name != "seen" and not any(it in one for one in markup.texts(reply.text))]
            expect(f"{place}: what was typed and isn't kept", lost, [])
        reply = visitor.post(f"{at}/take", {"me": "bob"}, None)
        expect("a press by nobody leads to", markup.hidden(reply.text, "/sign-in"), {"next": at})
        expect("the history after them", visitor.told(f"/requests/{TALK}/history").body, before)


def methods():
    """Methods that a place doesn't take, and places that only take a form."""
    with serving("methods") as visitor:
        for line, allow in (("PUT /", "GET, HEAD"), ("POST /", "GET, HEAD"), ("DELETE /desk/overdue", "GET, HEAD"),
                            ("POST /desk/go?q=1", "GET, HEAD"), ("POST /style.css", "GET, HEAD"),
                            (f"PUT /desk/requests/{TALK}/take", "GET, HEAD, POST")):
            reply = visitor.send(line, visitor.lines_of("bob"), "")
            page(line, reply, 405)
            expect(f"{line}: what is allowed", reply.head("allow"), allow)
        reply = visitor.send("HEAD /", visitor.lines_of("bob"))
        expect("HEAD", (reply.code, reply.body), (200, b""))
        for place, to in ((f"/desk/requests/{TALK}/reply", f"/desk/requests/{TALK}"),
                          ("/desk/queues", "/"), ("/sign-out", "/"), ("/desk/go", "/desk/find?"),
                          ("/desk/go?q=7", "/desk/requests/7"),
                          ("/desk/go?q=+%237+", "/desk/requests/7"),
                          ("/desk/go?q=7a", "/desk/find?words=7a"),
                          ("/desk/go?q=4294967296", "/desk/find?words=4294967296"),
                          ("/desk/go?q=a%0D%0Ab+%26", "/desk/find?words=a%0D%0Ab+%26"),
                          ("/desk/go?q=%zz", "/desk/find?words=%zz"),
                          ("/desk/go?p=7", "/desk/find?"), ("/desk/go?q=", "/desk/find?words=")):
            reply = visitor.get(place)
            expect(f"GET {place}", (reply.code, reply.head("location")), (303, to))


def cookies():
    """Who one is, by cookies and tokens; where signing in leads to."""
    with serving("cookies") as visitor:
        token, now = TOKENS["bob"], int(time.time()) // 60
        mine, hers = cookie_of(token, "bob"), cookie_of(TOKENS["ann"], "ann")
        for what, lines, code in (
            ("one among others", [f"Cookie: a=b; desk={mine}; c"], 200),
            ("lines of their own", ["Cookie: a=b", f"cookie:desk={mine}"], 200),
            ("two", [f"Cookie: desk={mine}; desk={mine}"], 403),
            ("two lines", [f"Cookie: desk={mine}", f"Cookie: desk={hers}"], 403),
            ("another name", [f"Cookie: desks={mine}"], 403),
            ("an unknown one", ["Cookie: desk=0123456789abcdef"], 403),
            ("the token", [f"Cookie: desk={token}"], 403),
            ("one of a month", [f"Cookie: desk={cookie_of(token, 'bob', now, MONTH)}"], 200),
            ("one that ends in a minute", [f"Cookie: desk={cookie_of(token, 'bob', now - DAY + 2)}"], 200),
            ("one that has ended", [f"Cookie: desk={cookie_of(token, 'bob', now - DAY)}"], 403),
            ("one of more than a month", [f"Cookie: desk={cookie_of(token, 'bob', now, MONTH + 10)}"], 403),
            ("another token's", [f"Cookie: desk={cookie_of(TOKENS['ann'], 'bob')}"], 403),
            ("another person's code", [f"Cookie: desk={hers.replace('ann', 'bob', 1)}"], 403),
            ("a code cut short", [f"Cookie: desk={mine[:-1]}"], 403),
            ("a token of the interface", [f"Desk-Token: {token}"], 403),
        ):
            reply = visitor.send("GET /", ["Host: 127.0.0.1", *lines])
            expect(f"a cookie: {what}", reply.code, code)
        told = visitor.send("GET /queues", visitor.lines_of("bob"))
        expect("a cookie at the interface", (told.code, told.text),
               (403, "refused 1 UnknownCaller\n"))
        kept, gone = "; Path=/; Max-Age=2592000", "desk=; Path=/; Max-Age=0"
        ways = "; HttpOnly; SameSite=Lax"
        for fields, is_kept, to in (
            ({"token": f" {token}\t", "next": "/desk/overdue"}, False, "/desk/overdue"),
            ({"token": token, "next": "/", "keep": "yes"}, True, "/"),
            *(({"token": token, "next": it}, False, "/") for it in (
                "//evil.example", "https://evil.example/", "/desk/go", "/\\evil.example",
                "/sign-out", "javascript:alert(1)", "/desk/requests/1/take", "")),
        ):
            began = int(time.time()) // 60
            reply = visitor.post("/sign-in", fields, None)
            expect(f"signing in with {fields}", (reply.code, reply.head("location")), (303, to))
            # (the minute may have changed meanwhile)
            holds(f"signing in with {fields} gives {reply.head('set-cookie')}", reply.head("set-cookie") in {
                f"desk={cookie_of(token, 'bob', began + it, MONTH if is_kept else DAY)}"
                f"{kept if is_kept else '; Path=/'}{ways}" for it in (0, 1)})
        reply = visitor.post("/sign-out", {})
        expect("signing out", (reply.code, reply.head("set-cookie"), reply.head("location")),
               (303, gone + ways, "/sign-in"))
        reply = visitor.post("/sign-in", {"token": "typed-by-mistake", "next": "/"}, None)
        page("a wrong token", reply, 403)
        holds("a wrong token is repeated", "typed-by-mistake" not in reply.text)


PARTS = {"shown": shown, "apart": tell_apart, "refused": refused, "half": half_done, "same": same,
         "posts": posts, "bodies": bodies, "other": other_persons, "ended": signed_out, "methods": methods, "cookies": cookies}
