"""What a person does in the browser: signs in by the keys alone, reads, fills in each form, meets a
refusal, comes from another site, signs out."""
import contextlib
import datetime
import http.server
import re
import threading
import zoneinfo

from client import cookie_of
from pages import of_another, of_who_signed_in

from browser.looks import SHOWS
from browser.office import FREE, LAST, LATE, TALK, TOKENS
from browser.trial import chromium, expect, holds, serving, signed_in, tally

MONTH = 30 * 86_400
AT = f"/desk/requests/{TALK}"
TEXT = ("<b>bold?</b> & \"quotes\" 'too'\n\n\ttab </textarea></div></li><script>alert(1)</script>\n"
        "日本語 Привет \\n &amp; &#39; %41+%2B ünï 👍")
# what has the keys, by its address, its name or its words
FOCUS = ("(e => e === document.body ? '' : e.getAttribute('href') || e.name || e.id"
         " || e.textContent.trim())(document.activeElement)")
# whether it is seen what has the keys: by its own outline, or by that of its label
OUTLINED = """(e => [e, ...(e.labels ?? [])].some(it => { const s = getComputedStyle(it);
 return s.outlineStyle !== 'none' && parseFloat(s.outlineWidth) >= 2 }))(document.activeElement)"""
# the facts that tell local time: their names, the moment in UTC, what is told
BESIDE = """[...document.querySelectorAll('.facts time + small')].map(it =>
 [it.closest('div').firstChild.textContent, it.previousElementSibling.dateTime, it.textContent])"""


def signing_in():
    """By the keys alone, to the page that was asked for; wrongly, and for a month."""
    with serving("signing") as visitor:
        browser = chromium()
        browser.open(visitor.origin + AT)
        expect("the page is kept in mind", browser.of_element("[name=next]", "it.value"), AT)
        holds("something is told without a cookie", "printer" not in browser.text())
        expect("the keys go to the token", browser.run(FOCUS), "token")
        browser.write("not-a-token-at-all-0000")
        browser.loads(lambda: browser.key("Enter"))
        holds("a wrong token isn't told", "refused 1 UnknownCaller" in browser.text())
        page = browser.run("document.documentElement.outerHTML")
        holds("it is repeated", "not-a-token" not in page)
        browser.write(TOKENS["bob"])
        browser.key("Tab")
        browser.key(" ")
        expect("a month is chosen", browser.of_element("[name=keep]", "it.checked"), True)
        browser.key("Tab")
        browser.loads(lambda: browser.key("Enter"))
        expect("it leads to the page", browser.path(), AT)
        cookie = browser.cookies(visitor.origin)
        holds(f"the cookie is {cookie}", len(cookie) == 1 and cookie[0]["httpOnly"]
              and cookie[0]["sameSite"] == "Lax" and not cookie[0]["session"])
        expect("a script reads of it", browser.run("document.cookie"), "")
        browser = signed_in(visitor)
        expect("another cookie ends with the browser",
               [it["session"] for it in browser.cookies(visitor.origin)], [True])


def last_of(visitor, request=TALK):
    """The last entry of a history, without its number, moment and person."""
    line = visitor.told(f"/requests/{request}/history").text.splitlines()[-1]
    return re.sub(r"^ *\d+ \S+ \S+ +\S+ +", "", line)


def writing():
    """A reply and a comment are shown as they were typed, and the browser goes there."""
    with serving("writing") as visitor:
        browser = signed_in(visitor, "bob", AT)
        for act in ("reply", "comment"):
            browser.put(f"[action$='/{act}'] textarea", TEXT)
            browser.follow(f"[action$='/{act}'] button")
            expect(f"{act}: it leads to", browser.run("location.pathname + location.hash"),
                   f"{AT}#reply")
            expect(f"{act}: as it is shown", browser.of_element(
                ".history > li:last-child > div", "it.textContent"), TEXT)
            expect(f"{act}: it stands out", browser.of_element(
                ".history > li:last-child", "getComputedStyle(it).outlineStyle"), "solid")
            kept = TEXT.replace("\\", "\\\\").replace("\n", "\\n").replace("\t", "\\t")
            expect(f"{act}: as it is kept", last_of(visitor), f"{act} {kept}")
        browser.open(visitor.origin + AT)
        expect("nothing is left of it", browser.of_element(
            "[action$='/reply'] textarea", "it.value"), "")


def owning():
    """Taking, letting go, giving and stealing: what makes sense is offered."""
    with serving("owning") as visitor:
        browser = signed_in(visitor, "bob", f"/desk/requests/{FREE}")

        def offered():
            return [it for it in ("take", "untake", "steal") if browser.has(f"[action$='/{it}']")]
        expect("of nobody's", offered(), ["take"])
        browser.follow("[action$='/take'] button")
        expect("taken", (offered(), last_of(visitor, FREE)), (["untake"], "owner Nobody bob"))
        browser.follow("[action$='/untake'] button")
        expect("let go", (offered(), last_of(visitor, FREE)), (["take"], "owner bob Nobody"))
        browser.put("[action$='/give'] [name=person]", "cid")
        browser.follow("[action$='/give'] button")
        expect("given", (offered(), last_of(visitor, FREE)), (["steal"], "owner Nobody cid"))
        holds("from whom isn't said", "cid" in browser.text("[action$='/steal']"))
        browser.follow("[action$='/steal'] button")
        expect("stolen", (offered(), last_of(visitor, FREE)), (["untake"], "owner cid bob"))


def changing():
    """Moves, levels, people and links."""
    with serving("changing") as visitor:
        browser = signed_in(visitor, "bob", AT)
        browser.follow("[name=status][value=stalled]")
        expect("moved", (last_of(visitor), browser.text(".facts .state")),
               ("status open stalled", "stalled"))
        browser.of_element("[action$='/level'] select", "it.value = 'urgent'")
        browser.follow("[action$='/level'] button")
        expect("the level", last_of(visitor), "level standard urgent")
        browser.of_element("[action$='/level'] select", "it.value = ''")
        browser.follow("[action$='/level'] button")
        expect("no level", last_of(visitor), "level urgent -")
        put = ".change [action$='/watch']"
        browser.of_element(f"{put} select", "it.value = 'admincc'")
        browser.put(f"{put} [name=person]", "eva")
        browser.follow(f"{put} button:not([formaction])")
        expect("somebody more", last_of(visitor), "watch admincc eva")
        link = ".change [action$='/link']"
        browser.of_element(f"{link} select", "it.value = 'HasMember'")
        browser.put(f"{link} [name=other]", "7")
        browser.follow(f"{link} button:not([formaction])")
        expect("a link", (last_of(visitor, 7), browser.path()), (f"link MemberOf {TALK}", AT))
        told = visitor.told("/requests/7").text
        expect("what is shown of it", [browser.text(f".facts a[href='/desk/requests/7']{it}") for it in
                                       ("", " + small")],
               ["#7 " + re.search("(?m)^subject: (.*)$", told)[1], re.search("(?m)^status: (.*)$", told)[1]])
        suggested = browser.run("[...document.querySelectorAll('#people option')]"
                                ".map(it => it.value)")
        holds(f"suggested are {suggested}", {"ann", "bob", "cid", "eva"} <= set(suggested))


def crosses():
    """The cross beside a name and a number asks first, by the keys too: it shows a button, and hides
    it again. That takes away what it names."""
    with serving("crosses") as visitor:
        browser = signed_in(visitor, "bob", AT)
        for act, words in (("unwatch", "Take {} out of {}"), ("unlink", "Unlink it: {} {}")):
            sure, before = f".facts [action$='/{act}'] button", last_of(visitor)
            shown = SHOWS.format(sure)
            cross = f".facts details:has([action$='/{act}']) summary"
            small = browser.of_element(cross, "(at => Math.min(at.width, at.height))"
                                              "(it.getBoundingClientRect())")
            holds(f"{act}: the cross has {small} pixels", small >= 24)
            named = browser.of_element(sure, "[...it.form.elements].map(it => it.value).slice(1, 3)")
            expect(f"{act}: the button's words", browser.of_element(sure, "it.textContent"),
                   words.format(*(named if act == "unlink" else named[::-1])))
            for wanted in (1, 0):
                browser.of_element(cross, "it.focus()")
                browser.key("Enter")
                expect(f"{act}: buttons after the cross", browser.run(shown), wanted)
            expect(f"{act}: what a cross does", (last_of(visitor), browser.path()), (before, AT))
            browser.follow(sure)
            holds(f"{act} isn't done: {last_of(visitor)}", last_of(visitor).startswith(f"{act} "))
            expect(f"{act}: it leads back", browser.path(), AT)


def folds():
    """What closes a request is behind a fold, but for the first; all of them work. Forms are folded
    for who asked."""
    with serving("folds") as visitor:
        browser = signed_in(visitor, "bob", AT)
        expect("moves that are seen", browser.run(
            "[...document.querySelectorAll('button[name=status]')]"
            ".filter(it => it.checkVisibility()).map(it => it.value)"),
               ["new", "stalled", "resolved"])
        folded = ".more [name=status][value=rejected]"
        expect("what is folded", browser.run(
            "[...document.querySelectorAll('details.more [name=status]')].map(it => it.value)"),
            ["rejected"])  # bob may not delete
        browser.open(f"{visitor.origin}/desk/requests/{LAST}")
        browser.follow(folded)
        expect("a folded move", last_of(visitor, LAST), "status new rejected")
        browser = signed_in(visitor, "ann", AT)
        holds("who asked sees all forms", browser.run(SHOWS.format("[action$='/give']")) == 0)
        shown = browser.run(SHOWS.format("[action$='/reply'] textarea"))
        holds("who asked can't reply", shown == 1)


def filing():
    """A request is filed, a refused one is kept, a queue is opened, a number leads to its
    request."""
    with serving("filing") as visitor:
        browser = signed_in(visitor, "bob", "/desk/queues/support/new")
        subject = "A <i>new</i> \"badge\" & more"
        browser.put("#subject", subject)
        browser.put("#requestors", "yury ann")
        browser.follow(".sheet button")
        holds("an unknown name isn't told", "refused 5 UnknownName" in browser.text())
        expect("what was typed", [browser.of_element(f"#{it}", "it.value")
                                  for it in ("subject", "requestors")], [subject, "yury ann"])
        browser.put("#requestors", "yuri ann")
        browser.follow(".sheet button")
        number = LAST + 1
        expect("where it leads to", browser.path(), f"/desk/requests/{number}")
        shown = visitor.told(f"/requests/{number}").text
        holds(f"it was filed as {shown}", f"subject: {subject}\nstatus: new\n" in shown
              and "requestors: ann yuri\n" in shown)
        browser.open(f"{visitor.origin}/desk/queues/support/new")
        browser.put("#subject", "Open at once")
        browser.of_element("[name=status]", "it.value = 'open'")
        browser.follow(".sheet button")
        holds("the status isn't the chosen one", "status: open\n" in visitor.told(
            f"/requests/{number + 1}").text)
        browser.put("[name=q]", " #9 ")
        browser.key("Enter")
        browser.wait("Page.loadEventFired")
        expect("a number", browser.path(), "/desk/requests/9")
        browser.put("[name=q]", "at once")
        browser.key("Enter")
        browser.wait("Page.loadEventFired")
        expect("words", (browser.path(), "Open at once" in browser.text("main")), ("/desk/find", True))
        browser = signed_in(visitor, "dora")
        browser.put("#queue", "keys")
        browser.of_element("#level", "it.value = 'urgent'")
        browser.follow("[action='/desk/queues'] button")
        expect("a queue leads to", (browser.path(), browser.has("a[href='/desk/queues/keys']")),
               ("/", True))


def refusing():
    """A refused move says so; its address can be loaded again; a refused reply is kept."""
    with serving("refusing") as visitor:
        browser = signed_in(visitor, "bob", AT)
        browser.follow("button[name=status][value=resolved]")
        holds("a refused move isn't told", "refused 9 OpenDependency" in browser.text())
        browser.follow("main .button")
        expect("it leads back", browser.path(), AT)
        browser.open(f"{visitor.origin}{AT}/status")
        expect("its address", browser.path(), AT)
        browser.put("[action$='/reply'] textarea", "\n\ttoo long " + "a" * 20_000)
        browser.follow("[action$='/reply'] button")
        holds("a long text isn't refused", "refused 3 BadText" in browser.text())
        kept = browser.of_element("textarea", "it.value")
        holds("it isn't kept whole", kept == "\n\ttoo long " + "a" * 20_000)
        browser.put("textarea", "shorter")
        browser.follow(".write button")
        expect("and is taken once it is right", last_of(visitor), "reply shorter")


def at_once():
    """A request is filed with its first text, and a reply moves its request as well. Where the move
    is refused, the reply stands and the page says so."""
    with serving("once") as visitor:
        browser = signed_in(visitor, "bob", "/desk/queues/support/new")
        browser.put("#subject", "A badge")
        browser.put("#text", TEXT)
        browser.put("#requestors", "ann")
        browser.follow(".sheet button")
        number = LAST + 1
        expect("it leads to", browser.run("location.pathname + location.hash"),
               f"/desk/requests/{number}#reply")
        expect("its text as it is shown", browser.run(
            "[...document.querySelectorAll('.history > li > div')].at(-1).textContent"), TEXT)
        browser.put("[action$='/reply'] textarea", "It lies at the front desk.")
        browser.press("[type=checkbox][value=resolved]")
        browser.follow("[action$='/reply'] button")
        expect("replied and moved", (visitor.told(f"/requests/{number}/history").text.count(
            "reply It lies"), last_of(visitor, number)), (1, "status open resolved"))
        browser.open(visitor.origin + AT)
        browser.put("[action$='/reply'] textarea", "It comes on Monday.")
        browser.press("[type=checkbox][value=resolved]")
        browser.follow("[action$='/reply'] button")
        holds("a refused move isn't told", "refused 9 OpenDependency" in browser.text()
              and "Your reply was sent, but the request was not made resolved." in browser.text())
        expect("the reply stands", last_of(visitor), "reply It comes on Monday.")
        browser.follow("main .button")
        expect("it leads back", browser.path(), AT)


def rows(browser):
    """The numbers of the requests that are seen in a list."""
    return browser.run("[...document.querySelectorAll('tbody tr')].filter(it =>"
                       " it.checkVisibility()).map(it =>"
                       " Number(it.querySelector('a').href.split('/').at(-1)))")


# the choice that narrows a list by a field
CHOICE = ".pills a[href^='/desk/find?{}']"
CHOSEN = "[...document.querySelectorAll('.pills [aria-current=true]')].map(it => it.innerText)"


def choices():
    """The choices above a list narrow it, whatever page or state one is at, and what is chosen is
    marked and told."""
    with serving("choices") as visitor:
        lines = [(int(it[:7]), it[8:28].strip(), it[29:49].strip())
                 for it in visitor.told("/queues/support/requests").text.splitlines()[1:]]
        lines.reverse()
        is_open = [it for it in lines if it[1] not in ("resolved", "rejected", "deleted")]
        closed = [it for it in lines if it not in is_open]
        wanted = {"owner=Me": [it for it in is_open if it[2] == "bob"],
                  "owner=Nobody": [it for it in is_open if it[2] == "Nobody"],
                  "late=yes": [it for it in is_open if it[0] in LATE], "owner=&": is_open,
                  "state=closed": closed, "state=&": lines}
        browser = signed_in(visitor, "bob")
        for field, chosen in wanted.items():
            browser.open(f"{visitor.origin}/desk/queues/support")
            browser.follow(CHOICE.format(field))
            expect(f"{field} in a queue", rows(browser), [it[0] for it in chosen])
            told = browser.text(".paging").split()[0]
            expect(f"how many by {field}", int(told), len(chosen))
        browser.open(f"{visitor.origin}/desk/find?queue=support&state=closed")
        browser.follow(CHOICE.format("owner=Me"))
        expect("closed ones of one's own", rows(browser), [it[0] for it in closed if it[2] == "bob"])
        expect("what is chosen", browser.run(CHOSEN), ["closed", "mine"])
        holds("it isn't told", "closed, mine" in browser.run("document.title"))
        browser.follow(".chips a[href^='/desk/find?owner=']")
        expect("a part is taken away", rows(browser), [it[0] for it in closed])
        browser.open(f"{visitor.origin}/desk/queues/building")
        holds("an empty queue doesn't say so", browser.run(SHOWS.format(".none")) == 1)
        holds("its form is folded", browser.has("details[open]"))
        browser.open(f"{visitor.origin}/desk/overdue")
        expect("late, all", sorted(rows(browser)), sorted(LATE))
        browser.follow(CHOICE.format("owner=Nobody"))
        expect("late, nobody's", rows(browser), [1])
        browser.follow(CHOICE.format("owner=Me"))
        expect("late, mine", rows(browser), [2])


def searching():
    """A search by its form keeps what was typed, and its address is another's search too. What is
    no search says why, and keeps what was typed."""
    with serving("searching") as visitor:
        told = visitor.told("/queues/support/requests").text.splitlines()[1:]
        browser = signed_in(visitor, "bob", "/desk/find?queue=support")
        expect("all of a queue", rows(browser), [int(it[:7]) for it in reversed(told)])
        browser.press("summary")
        browser.put("#words", "PRINT")
        browser.of_element("#state", "it.value = 'open'")
        browser.of_element("#order", "it.value = 'oldest'")
        browser.follow("details button")
        found = [int(it[:7]) for it in told if "print" in it.lower()
                 and it[8:28].strip() not in ("resolved", "rejected", "deleted")]
        holds("nothing would be found", found)
        expect("words in a queue", rows(browser), found)
        expect("what was typed", browser.run("['words', 'queue', 'state', 'order'].map(it =>"
               " document.getElementById(it).value)"), ["PRINT", "support", "open", "oldest"])
        address = browser.run("location.pathname + location.search")
        browser.open(f"{visitor.origin}/desk/find?owner=Me&state=open&order=due")
        mine = rows(browser)
        browser.open(f"{visitor.origin}/desk/find?owner=bob&state=open&order=due")
        expect("Me is who looks", rows(browser), mine)
        browser.press("summary")
        browser.put("#owner", "No Name")
        browser.put("#words", "<b>")
        browser.follow("details button")
        holds("a wrong name isn't told", browser.has(".alert") and browser.has("details[open]"))
        expect("it is kept", browser.run("['words', 'owner'].map(it =>"
               " document.getElementById(it).value)"), ["<b>", "No Name"])
        browser.open(f"{visitor.origin}/sign-in")
    with serving("searched") as visitor:
        browser = signed_in(visitor, "ann", address)
        holds("a colleague isn't led to it", browser.path() == "/desk/find")
        holds("one finds what one may not see", set(rows(browser)) <= set(found))


def counting():
    """Home and the workload tell the same numbers, and who is late is marked."""
    with serving("counting") as visitor:
        browser = signed_in(visitor)
        home = browser.run("[...document.querySelectorAll('h2 small')].map(it =>"
                           " parseInt(it.textContent))")
        queues = browser.run("[...document.querySelectorAll('.queues tbody tr')].map(it =>"
                             " [1, 2].map(n => Number(it.cells[n].innerText)))")
        browser.follow("nav a[href='/desk/workload']")
        cells = browser.run("Object.fromEntries([...document.querySelectorAll("
                            "'tbody tr, tfoot tr')].map(it => [it.cells[0].innerText.trim(),"
                            " [1, 2].map(n => Number(it.cells[n].innerText))]))")
        expect("home beside the workload", [home[0], home[2]], [cells["bob"][0], cells["Nobody"][0]])
        expect("the queues beside it", [sum(it) for it in zip(*queues)], cells["Total"])
        expect("late in all", sum(it[1] for it in queues), len(LATE))
        expect("where one is", browser.text("nav [aria-current=page]"), "Workload")
        browser.open(f"{visitor.origin}/desk/requests/2")
        holds("what is late isn't marked", "late" in browser.text(".facts .late"))


def in_berlin(moment):
    """What clocks there show at a moment in UTC, whose rule the calendar of the office has."""
    there = datetime.datetime.fromisoformat(moment).astimezone(zoneinfo.ZoneInfo("Europe/Berlin"))
    return f"{there:%Y-%m-%d %H:%M} local", there.utcoffset() // datetime.timedelta(hours=1)


def local_time():
    """Moments are in UTC, and local time by the calendar of its level stands beside those of a
    request's facts: an hour later in winter, two in summer, and none without a level."""
    for month, ahead in ((1, 1), (7, 2)):
        moment = datetime.datetime(2026, month, 15, 12, tzinfo=datetime.timezone.utc)
        with serving(f"month{month}", int(moment.timestamp()) // 60) as visitor:
            browser = signed_in(visitor, "bob", AT)
            moments = browser.run("[...document.querySelectorAll('time')].map(it =>"
                                  " [it.dateTime, it.textContent])")
            expect("moments of two kinds", [it for it in moments
                                            if it[0][:10] + " " + it[0][11:16] != it[1][:16]], [])
            holds("UTC isn't named", "UTC" in browser.text("footer"))
            tally.floor("moments on a page", len(moments), 8)
            facts = browser.run(BESIDE)
            expect("facts with local time", [fact for fact, *_ in facts], ["Due", "Filed"])
            for fact, utc, shown in facts:
                expect(f"{fact} in month {month}", (shown, ahead), in_berlin(utc))
            browser.open(f"{visitor.origin}/desk/requests/9")
            expect("local time without a level", browser.run(BESIDE), [])


def keys():
    """The keys go to everything in an order, from the link that skips the head, and it is seen
    where they are."""
    with serving("keys") as visitor:
        browser = signed_in(visitor, "bob", AT)
        browser.open(visitor.origin + AT)
        order = []
        for _ in range(80):
            browser.key("Tab")
            name = browser.run(FOCUS)
            if not name or order and name == order[0]:
                break
            order.append(name)
            holds(f"it isn't seen that the keys go to {name}", browser.run(OUTLINED))
        expect("the first", order[:1], ["#main"])
        wanted = {"/", "/desk/overdue", "q", "text", "status", "person", "level", "role",
                  "kind", "other"}
        expect("not reached by the keys", wanted - set(order), set())
        browser.open(visitor.origin + AT)
        browser.key("Tab")
        browser.key("Enter")
        browser.key("Tab")
        expect("behind the skipped head", browser.run(FOCUS), "/")


def other_page(origin):
    """A page of another site, with all that it could try."""
    return (f'<!DOCTYPE html><title>elsewhere</title><a id="l" href="{origin}{AT}">see</a>'
            f'<form method="post" action="{origin}{AT}/status">'
            f'<input name="status" value="deleted"><button id="b">x</button></form>'
            f'<form method="post" action="{origin}/sign-in">'
            f'<input name="token" value="{TOKENS["ann"]}"><input name="next" value="/">'
            f'<button id="s">x</button></form><form method="post" action="{origin}/sign-out">'
            f'<button id="o">x</button></form><iframe src="{origin}/"></iframe>').encode()


@contextlib.contextmanager
def elsewhere(origin):
    """The origin of another site."""
    class Other(http.server.BaseHTTPRequestHandler):
        def do_GET(self):
            self.send_response(200)
            self.send_header("Content-Type", "text/html")
            self.end_headers()
            self.wfile.write(other_page(origin))

        def log_message(self, *_):
            pass

    server = http.server.ThreadingHTTPServer(("127.0.0.1", 0), Other)
    threading.Thread(target=server.serve_forever, daemon=True).start()
    yield f"http://localhost:{server.server_port}"
    server.shutdown()
    server.server_close()


def other_sites():
    """A link from another site leads to its page, its forms are refused, and it can't frame the
    desk."""
    with serving("others") as visitor, elsewhere(visitor.origin) as other:
        browser = signed_in(visitor)
        browser.open(other)
        told = browser.complaints()
        holds(f"a frame isn't refused: {told}", any("frame-ancestors 'none'" in it for it in told))
        browser.follow("#l")
        holds("a link leads nowhere", browser.path() == AT and f"#{TALK}" in browser.text("h1"))
        for button in ("#b", "#s", "#o"):
            browser.open(other)
            browser.follow(button)
            holds(f"{button} isn't refused", "bad request 6 OtherSite" in browser.text())
        browser.open(visitor.origin + AT)
        expect("what is left", (browser.text(".facts .state"), "bob" in browser.text("header")),
               ("open", True))


def meanwhile():
    """Another person signs in with the browser while a text is typed, or its session ends: the text isn't sent, and
    stands in its form again, to be sent by who is signed in then."""
    with serving("meanwhile") as visitor:
        browser, form = signed_in(visitor, "bob", AT), "[action$='/reply']"
        before = visitor.told(f"/requests/{TALK}/history").text
        browser.put(f"{form} textarea", TEXT)
        browser.ask("Network.setCookie", name="desk", value=cookie_of(TOKENS["ann"], "ann"), url=visitor.origin,
                    httpOnly=True, sameSite="Lax")
        browser.follow(f"{form} button")
        holds("another person: it isn't said", of_another("ann", "bob")[1] in browser.text())
        expect("another person: what was typed", browser.of_element("textarea", "it.value"), TEXT)
        expect("another person: the history", visitor.told(f"/requests/{TALK}/history").text, before)
        browser.put("textarea", "by ann")
        browser.follow(".write button")
        expect("sent by who is signed in", last_of(visitor), "reply by ann")
        before = visitor.told(f"/requests/{TALK}/history").text
        browser.put(f"{form} textarea", TEXT)
        browser.ask("Network.clearBrowserCookies")
        browser.follow(f"{form} button")
        holds("an ended session: it isn't said", "Nothing was sent yet" in browser.text())
        browser.write("not-a-token-at-all-0000")
        browser.loads(lambda: browser.key("Enter"))
        holds("a wrong token isn't told", "refused 1 UnknownCaller" in browser.text())
        browser.write(TOKENS["ann"])
        browser.loads(lambda: browser.key("Enter"))
        holds("signed in: it isn't said", of_who_signed_in("ann") in browser.text())
        expect("signed in: what was typed", browser.of_element("textarea", "it.value"), TEXT)
        expect("signed in: the history", visitor.told(f"/requests/{TALK}/history").text, before)
        browser.put("textarea", "after all")
        browser.follow(".write button")
        expect("sent after signing in", last_of(visitor), "reply after all")


def leaving():
    """After signing out nothing is left, and behind the back button neither: not even the page that
    was the first after signing in, which a browser keeps although the cookie is another."""
    with serving("leaving") as visitor:
        browser = signed_in(visitor, "bob", AT)
        browser.follow("nav a[href='/desk/workload']")
        browser.follow("nav a[href='/']")
        browser.follow("[action='/sign-out'] button")
        expect("it leads to", browser.path(), "/sign-in")
        expect("cookies", browser.cookies(visitor.origin), [])
        for _ in range(3):
            browser.forget("Page.loadEventFired")
            browser.run("history.back()")
            # a page that is kept is shown without being loaded
            browser.wait("Page.loadEventFired", 2)
            holds(f"Back shows {browser.path()} as it was", browser.has("[name=token]")
                  and not browser.has("header"))
        expect("how far back it goes", browser.path(), AT)
        browser.open(visitor.origin + AT)
        holds("a page is shown", browser.has("[name=token]"))


PARTS = {"signing": signing_in, "writing": writing, "owning": owning, "changing": changing,
         "crosses": crosses, "folds": folds, "filing": filing, "refusing": refusing,
         "at-once": at_once, "choices": choices, "searching": searching,
         "counting": counting, "moments": local_time,
         "keys": keys, "others": other_sites, "meanwhile": meanwhile, "leaving": leaving}
