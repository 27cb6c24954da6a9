"""How the pages look in the browser: their width, their colours, what stands out, on paper; and
what a thousand requests or hostile texts make of them."""
import re
import time

from browser.office import FREE, LAST, TALK, TOKENS
from browser.over_http import HOSTILE, filed
from browser.trial import chromium, expect, holds, serving, signed_in, tally

PAGES = ["/", "/desk/queues/support", "/desk/queues/purchases", "/desk/queues/building",
         "/desk/queues/support/new", f"/desk/requests/{TALK}", f"/desk/requests/{FREE}",
         "/desk/requests/9", "/desk/overdue", "/desk/workload", "/desk/requests/99",
         "/desk/nothing"]
WIDTHS = (320, 390, 600, 704, 720, 832, 848, 960, 1280, 1920)
MANY = 1_000
# seconds until a page of a thousand requests is there
SOON = 10

# texts and edges of fields that are hard to see, as the rules for contrast reckon it
PALE = """(() => {
const read = c => { const n = c.match(/[\\d.]+/g).map(Number);
  return n.length > 3 ? n : [...n, 1] };
const over = (f, b) => f.slice(0, 3).map((x, i) => x * f[3] + b[i] * (1 - f[3]));
const behind = e => { const all = [];
  for (; e; e = e.parentElement) all.push(read(getComputedStyle(e).backgroundColor));
  return all.reverse().reduce((b, f) => over(f, b), [255, 255, 255]) };
const light = c => { const [r, g, b] = c.map(x => (x /= 255) <= .03928 ? x / 12.92
  : ((x + .055) / 1.055) ** 2.4); return .2126 * r + .7152 * g + .0722 * b };
const apart = (a, b) => { const [x, y] = [light(a), light(b)].sort((p, q) => p - q);
  return (y + .05) / (x + .05) };
const found = [];
const look = (e, colour, back, least, what) => { const is = apart(over(read(colour), back), back);
  found.push([is / least, `${what} ${e.localName}.${e.className} ${is.toFixed(2)}`]) };
const walk = document.createTreeWalker(document.body, NodeFilter.SHOW_TEXT);
while (walk.nextNode()) { const e = walk.currentNode.parentElement, s = getComputedStyle(e);
  if (!walk.currentNode.data.trim() || !e.checkVisibility()) continue;
  const size = parseFloat(s.fontSize), large = size >= 24 || size >= 18.66 && s.fontWeight >= 700;
  look(e, s.color, behind(e), large ? 3 : 4.5, 'text') }
const fields = 'input:not([type=radio],[type=checkbox]), select, textarea';
for (const e of document.querySelectorAll(fields)) {
  if (!e.checkVisibility()) continue;
  look(e, getComputedStyle(e).color, behind(e), 4.5, 'value');
  look(e, getComputedStyle(e, '::placeholder').color, behind(e), 4.5, 'placeholder');
  look(e, getComputedStyle(e).borderTopColor, behind(e.parentElement), 3, 'edge') }
found.sort((a, b) => a[0] - b[0]);
return [found.length, found.filter(([is]) => is < 1).map(([, what]) => what)] })()"""
# the elements and the names of their attributes, as the browser has them
LIVE = """[...document.querySelectorAll('*')].map(it => it.localName + ' '
 + it.getAttributeNames().filter(name => name !== 'open').sort().join(' ')).join('\\n')"""
# what people wrote, as a history shows it
WRITTEN = "[...document.querySelectorAll('.history div')].map(it => it.textContent)"
SHOWS = "[...document.querySelectorAll({!r})].filter(it => it.checkVisibility()).length"


def unfold(browser):
    browser.run("document.querySelectorAll('details').forEach(it => it.open = true)")


def faces():
    """Each page in the browser: it is styled, no script is in it, nothing is complained of, it is
    no wider than the window, and its texts and edges can be seen."""
    with serving("faces") as visitor:
        browser = signed_in(visitor)
        seen = 0
        for place in [*PAGES, "/sign-in"]:
            browser.open(visitor.origin + place)
            expect(f"{place}: complaints", browser.complaints(), [])
            expect(f"{place}: scripts", browser.run("document.scripts.length"), 0)
            holds(f"{place}: it isn't styled", browser.run(
                "getComputedStyle(document.querySelector('main')).maxWidth") != "none")
            unfold(browser)
            for width in WIDTHS:
                browser.window(width)
                wide = browser.run("document.documentElement.scrollWidth")
                holds(f"{place}: {wide} wide in a window of {width}", wide <= width)
            for dark in (False, True):
                browser.window(1280, dark=dark)
                count, pale = browser.run(PALE)
                seen += count
                expect(f"{place}: pale in the {'dark' if dark else 'light'}", pale, [])
            browser.window(1280)
        tally.floor("faces: texts and edges looked at", seen, 1_000)


def dark():
    """Light and dark follow the system."""
    with serving("dark") as visitor:
        browser = signed_in(visitor)
        sums = []
        for is_dark in (False, True):
            browser.window(1280, dark=is_dark)
            colour = browser.run("getComputedStyle(document.body).backgroundColor")
            sums.append(sum(map(int, re.findall(r"\d+", colour)[:3])))
        holds(f"the pages aren't darker in the dark: {sums}", sums[0] > 500 and sums[1] < 250)


def hostile():
    """With hostile texts the browser has the elements that it has with a plain one, opens nothing
    and runs nothing, and shows the texts as they are."""
    with serving("hostile") as visitor:
        browser = signed_in(visitor, "dora")
        browser.forget("Page.javascriptDialogOpening")
        plain = {}
        for text in ["x", *HOSTILE]:
            queue = f"t{filed.count}"
            made = list(filed(visitor, text))
            expect(f"{text!r}: the pages made", len(made), 9)
            at = next(it for it in re.findall(r"/desk/requests/\d+", made[0][1].text))
            for place in (f"/desk/queues/{queue}", at):
                browser.open(visitor.origin + place)
                live = browser.run(LIVE)
                holds(f"{place}: {text!r} makes other elements", live == plain.setdefault(
                    place.split("/")[2], live))
                expect(f"{place}: complaints", browser.complaints(), [])
                holds(f"{place}: {text!r} opens a box", not browser.wait(
                    "Page.javascriptDialogOpening", 0.01))
            expect(f"{text!r} as it is shown", browser.run(WRITTEN), [text, text, text])
            # a title has its spaces put together
            holds(f"{text!r} as a title", text in browser.run("document.title") or "\u2028" in text)
        ways = set(browser.run("[...document.querySelectorAll('[dir=auto]')].map(it =>"
                               " getComputedStyle(it).unicodeBidi)"))
        holds(f"texts turn what is beside them: {ways}", ways and ways <= {"isolate", "plaintext"})


def long_texts():
    """Texts of 20,000 letters without a space, written in the browser."""
    with serving("long") as visitor:
        browser = signed_in(visitor, "bob", f"/desk/requests/{LAST}")
        for letter in ("W", "漢"):
            browser.put("[action$='/reply'] textarea", letter * 20_000)
            browser.follow("[action$='/reply'] button")
            expect("a long reply leads to it", browser.run("location.hash"), "#reply")
            holds(f"20,000 of {letter} aren't shown", browser.run(WRITTEN)[-1] == letter * 20_000)
        for width in WIDTHS:
            browser.window(width)
            wide = browser.run("document.documentElement.scrollWidth")
            holds(f"a long text is {wide} wide in a window of {width}", wide <= width)


def many():
    """A queue of a thousand requests."""
    with serving("many") as visitor:
        for number in range(MANY):
            made = visitor.post("/desk/queues/building/new", {
                "subject": f"Room {number}: the heating is cold", "requestors": "ann"}, "dora")
            if made.code != 303:
                expect(f"request {number}", made.code, 303)
                break
        browser = signed_in(visitor, "dora")
        begun = time.monotonic()
        browser.open(f"{visitor.origin}/desk/queues/building")
        took = time.monotonic() - begun
        holds(f"a queue of {MANY} took {took:.1f} seconds", took < SOON)
        expect("rows", browser.run(SHOWS.format("tbody tr")), 100)
        holds("it isn't told how many there are", f"1 to 100 of {MANY}" in browser.text("main"))
        browser.follow(".pills a[href^='/desk/find?owner=Me']")
        expect("rows of hers", browser.run(SHOWS.format("tbody tr")), 0)
        holds("it isn't said that there are none", browser.run(SHOWS.format(".none")) == 1)
        browser.follow(".pills a[href^='/desk/find?owner=Nobody']")
        expect("rows of nobody", browser.run(SHOWS.format("tbody tr")), 100)
        for width in (320, 1280):
            browser.window(width)
            wide = browser.run("document.documentElement.scrollWidth")
            holds(f"many rows are {wide} wide in {width}", wide <= width)
        first = browser.text("tbody")
        pages = 1
        while browser.has("a[rel=next]"):
            browser.follow("a[rel=next]")
            pages += 1
        expect("pages", pages, MANY // 100)
        browser.follow("a[rel=prev]")
        while browser.has("a[rel=prev]"):
            browser.follow("a[rel=prev]")
        expect("the first page once more", browser.text("tbody"), first)
        browser.follow("tbody tr:first-child a")
        holds("the last one isn't there", f"Room {MANY - 1}:" in browser.text("h1"))


def paper():
    """On paper there is what was written, dark on white, and nothing to press."""
    with serving("paper") as visitor:
        browser = signed_in(visitor, "bob", f"/desk/requests/{TALK}")
        for is_dark in (False, True):
            browser.window(794, 1123, dark=is_dark, media="print")
            expect("what can be pressed on paper", browser.run(
                SHOWS.format("form, button, input, select, textarea, summary, nav")), 0)
            holds("the history isn't on paper", browser.run(SHOWS.format(".history li")) >= 8)
            expect("pale on paper", browser.run(PALE)[1], [])
            colour = browser.run("getComputedStyle(document.body).backgroundColor")
            holds(f"the paper is {colour}", colour in ("rgb(255, 255, 255)", "rgba(0, 0, 0, 0)"))
        sheets = len(re.findall(rb"/Type\s*/Page\b", browser.paper()))
        holds(f"a conversation takes {sheets} sheets", 1 <= sheets <= 3)


def names():
    """What a screen reader is told: each thing to press or to fill in has a name."""
    with serving("names") as visitor:
        browser = signed_in(visitor)
        count = 0
        for place in PAGES:
            browser.open(visitor.origin + place)
            unfold(browser)
            for node in browser.ask("Accessibility.getFullAXTree")["nodes"]:
                role = node.get("role", {}).get("value")
                if not node.get("ignored") and role in (
                        "button", "link", "textbox", "combobox", "radio", "checkbox", "table",
                        "DisclosureTriangle"):
                    count += 1
                    holds(f"{place}: a {role} without a name", node.get("name", {}).get("value"))
        tally.floor("names: things with a name", count, 150)


PARTS = {"faces": faces, "dark": dark, "hostile": hostile, "long": long_texts, "many": many,
         "paper": paper, "names": names}
