"""What a page tells, read from its markup: the facts that models/pages.py tells by the rules, as the same
plain values."""
import functools
import html
import re

VOID = {"meta", "link", "input", "br", "hr", "img"}
# what the desk writes: a tag with its marks in double quotes, or text
PART = re.compile(r'<!DOCTYPE html>|<(/?)([a-z][a-z0-9]*)((?: [a-z-]+(?:="[^"]*")?)*)>|([^<]+)')
MARK = re.compile(r' ([a-z-]+)(?:="([^"]*)")?')


class Node:
    __slots__ = "tag", "marks", "above", "parts"

    def __init__(self, tag, marks, above):
        self.tag, self.marks, self.above, self.parts = tag, marks, above, []

    def all(self, tag, kind=None):
        """All nodes below it of a tag, and of a class."""
        left = self.parts[::-1]
        while left:
            part = left.pop()
            if isinstance(part, Node):
                if part.tag == tag and (kind is None or kind in part.kinds):
                    yield part
                left += part.parts[::-1]

    def one(self, tag, kind=None):
        return next(self.all(tag, kind), None)

    @property
    def kinds(self):
        return (self.marks.get("class") or "").split()

    def raw(self):
        return "".join(it if isinstance(it, str) else it.raw() for it in self.parts)

    def text(self):
        return " ".join(self.raw().split())


@functools.lru_cache(8)
def read(page):
    """The top node of a page. Nobody changes it."""
    top = at = Node("", {}, None)
    place = 0
    while place < len(page):
        found = PART.match(page, place)
        if found is None:
            raise ValueError(f"no markup of the desk: {page[place:place + 60]!r}")
        at, place = after(at, *found.groups()), found.end()
    return top


def after(at, ends, tag, marks, text):
    """The node in which the next part stands, when this one was put in."""
    if text:
        at.parts.append(html.unescape(text))
    elif ends:
        if at.tag != tag:
            raise ValueError(f"</{tag}> where <{at.tag}> is open")
        return at.above
    elif tag:
        node = Node(tag, {name: html.unescape(value) for name, value in MARK.findall(marks)}, at)
        at.parts.append(node)
        return at if tag in VOID else node
    return at


# ---- forms

def forms(top):
    """The forms of a page by their actions: the hidden fields of the first of each."""
    found = {}
    for form in top.all("form"):
        hidden = {it.marks["name"]: it.marks.get("value", "") for it in form.all("input")
                  if it.marks.get("type") == "hidden" and it.marks.get("name")}
        found.setdefault(form.marks.get("action"), hidden)
        for button in form.all("button"):
            if "formaction" in button.marks:
                found.setdefault(button.marks["formaction"], hidden)
    return found


def has_place(page, mark):
    """Whether an address with that mark leads to a place of the page."""
    return any(isinstance(it, Node) and it.marks.get("id") == mark for it in below(read(page)))


def below(node):
    for part in node.parts:
        if isinstance(part, Node):
            yield part
            yield from below(part)


def is_sign_in(top):
    return any(it.marks.get("name") == "token" for it in top.all("input"))


# ---- lists

def whose(row):
    return next((it for it in row.kinds if it in ("mine", "nobody")), "")


def moment(cell):
    """The moment of a cell, without the word `late` behind it."""
    time = cell.one("time")
    return time.text() if time else cell.text().removesuffix(" late")


def rows(table):
    """The rows of a list of requests."""
    return [row_of(row) for row in table.one("tbody").all("tr")] if table else []


def late_by(cell):
    """For how long it has been late, if it is."""
    told = cell.one("strong")
    return told.text().removesuffix(" late") if told else ""


def row_of(row):
    title, (number, queue, status, waits, owner, due, last) = row.one("th"), list(row.all("td"))
    return [int(number.text()), title.one("a").raw(), [it.raw() for it in title.all("small")], queue.text(),
            status.text(), waits.text(), owner.text(), moment(due), late_by(due), moment(last), whose(row)]


def home(top):
    main, facts = top.one("main"), {}
    names = {"You own": "own", "You asked for": "asked", "Nobody owns": "free"}
    tables = {it.one("caption").text(): it for it in main.all("table", "list")}
    for heading in main.all("h2"):
        count = heading.one("small").text()
        title = heading.text().removesuffix(count).strip()
        facts[names[title]] = [int(count.split()[0]), rows(tables.get(title))]
    facts["queues"] = [[row.one("th").text(), *queue_row(list(row.all("td")))]
                       for row in main.one("table", "queues").one("tbody").all("tr")]
    form = next(it for it in main.all("form") if it.marks.get("action") == "/desk/queues")
    facts["lifecycles"], facts["levels"] = (choices(form, name) for name in ("lifecycle", "level"))
    return facts


def queue_row(cells):
    return [int(cells[0].text()), int(cells[1].text()), cells[2].text()]


def choices(top, name):
    """What can be chosen, but for none."""
    select = next(it for it in top.all("select") if it.marks.get("name") == name)
    return sorted(it.text() for it in select.all("option") if it.marks.get("value") != "")


def find(top, code=200):
    main = top.one("main")
    if code == 400:
        return {"no such search": not list(main.all("table", "list")) and main.one("p", "alert") is not None}
    count = re.match(r"(?:\d+ to )?(?:\d+ of )?(\d+)", main.one("p", "paging").text())[1]
    later = any(it.marks.get("rel") == "next" for it in main.all("a"))
    return {"count": int(count), "rows": rows(main.one("table", "list")), "later": later}


def workload(top):
    table = top.one("table", "load")
    total = list(table.one("tfoot").all("td"))
    return {"rows": [[row.one("th").text(), *(int(it.text()) for it in list(row.all("td"))[:2]), whose(row)]
                     for row in table.one("tbody").all("tr")], "total": [int(it.text()) for it in total[:2]]}


def new(top):
    select = next((it for it in top.all("select") if it.marks.get("name") == "status"), None)
    options = list(select.all("option")) if select else []
    usual = next((it.text() for it in options if "selected" in it.marks), None)
    return {"statuses": [it.text() for it in options], "usual": usual}


# ---- a request

LISTS = {"Requestors", "Cc", "AdminCc"}
LINKS = {"Depends on", "Depended on by", "Member of", "Has members", "Refers to", "Referred to by"}


def request(top):
    main = top.one("main")
    heading = main.one("h1")
    return {
        "subject": "".join(it for it in heading.parts if isinstance(it, str))[1:],
        "queue": list(main.one("p", "crumb").all("a"))[1].text(),
        "facts": dict(map(fact, main.one("dl", "facts").all("div"))),
        "history": [entry(it) for it in main.one("ol", "history").all("li")],
        "writes": [it for it in ("reply", "comment") if it in actions(main.one("div", "write"))],
        "closing": closing(main), "crosses": [it in actions(main.one("dl", "facts")) for it in ("unwatch", "unlink")],
        "change": next((changed(it) for it in main.all("details", "change")), None)}


def actions(part):
    """The last words of the addresses to which forms of a part are sent."""
    return [it.marks.get("action", "").rsplit("/", 1)[-1] for it in part.all("form")]


def changed(change):
    forms = actions(change)
    level = next((it for it in change.all("select") if it.marks.get("name") == "level"), None)
    options = list(level.all("option")) if level else []
    return {
        "moves": moves(change), "owner": next((it for it in forms if it in ("take", "untake", "steal")), None),
        "give": "give" in forms, "watch": "watch" in forms, "link": "link" in forms,
        "unfolded": "open" in change.marks, "owners": named(change, "owners"), "people": named(change, "people"),
        "levels": choices(change, "level") if level else [],
        "level": next((it.text() for it in options if "selected" in it.marks), None)}


def fact(div):
    heading, told = div.one("dt").text(), div.one("dd")
    if heading in LISTS:
        spans = [it for it in told.all("span") if it.above is told]
        return heading, [it.text() for it in spans]
    if heading in LINKS:
        return heading, [linked(*it) for it in zip(told.all("a"), told.all("small"))]
    return heading, told.text()


def linked(link, status):
    return [int(link.parts[0].strip().removeprefix("#")), link.one("bdi").raw(), status.text()]


def entry(item):
    first = item.one("p")
    told, written = first.one("span"), item.one("div")
    actor = told.one("b").text()
    return [int(first.one("i").text()), actor, told.text().removeprefix(actor).strip(),
            first.one("time").text(), written.raw() if written else None]


def moves(change):
    return [it.marks["value"] for it in change.all("button") if it.marks.get("name") == "status"]


def closing(main):
    return next((it.marks.get("value") for it in main.one("div", "write").all("input")
                 if it.marks.get("name") == "status"), None)


def named(change, list_name):
    found = next(it for it in change.all("datalist") if it.marks.get("id") == list_name)
    return sorted({it.marks["value"] for it in found.all("option")})


# ---- refusals

def refused(top):
    """The refusal of a page, the text that is still in its form, and the way back."""
    code = top.one("code")
    area = next(top.all("textarea"), None)
    backs = [it.marks["href"] for it in top.one("main").all("a", "button")]
    return {"refused": code.text() if code else None, "back": backs[-1] if backs else None,
            **({"typed": area.raw().removeprefix("\n")} if area else {})}


def filed(top):
    """The sentence that tells the number of a request which its filer may not see, and the way on."""
    main = top.one("main")
    return {"filed": main.one("p").text(), "back": [it.marks["href"] for it in main.all("a", "button")][-1]}


PAGES = {"home": home, "queue": find, "find": find, "late": find, "workload": workload, "new": new,
         "request": request, "refused": filed}


def facts_of(name, code, page):
    """What a page of this name tells, or its refusal. Of one that isn't built as such a page, how it begins."""
    try:
        top = read(page)
        if is_sign_in(top):
            return {"refused": "sign in"}
        if name == "find" and code == 400:
            return find(top, code)
        return PAGES[name](top) if code == 200 else refused(top)
    except (AttributeError, IndexError, KeyError, StopIteration, TypeError, ValueError) as error:
        return {"no such page": repr(error), "begins": page[:200]}
