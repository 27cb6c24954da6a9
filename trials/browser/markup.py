"""What is wrong with a page as a browser's parser reads it: faults of the markup, names that lead
nowhere, fields without a label, things that no page of the desk may have."""
import re
import subprocess

import html5lib

# what HTML and ARIA have, and tidy 5.6 doesn't know or warns of
UNKNOWN = re.compile(r'proprietary attribute "(aria-current|inputmode|autocapitalize|enterkeyhint)"'
                     r"|trimming empty <tbody>")
FORBIDDEN = {"script", "style", "img", "iframe", "object", "embed", "base", "svg", "math"}
# where an address stands
ADDRESSES = {"href", "action", "formaction", "src", "background", "cite", "data", "poster", "ping"}
# the sentence of what a page may lead to: places of the desk, numbers and names alone, and the
# fields of a search as they came
PLACE = re.compile(r"|/|#[a-z]+|/sign-(in|out)|/style\.css\?[0-9a-f]{8}|/desk/(go|queues|overdue|workload)"
                   r"|/desk/queues/[a-z][a-z0-9_-]{0,19}(/new)?|/desk/requests/\d+(/[a-z]+)?"
                   r"|/desk/find(/(after|before)/(\d+|none)/\d+)?(\?[!-~]*)?")
FIELDS = {"input", "select", "textarea"}
# what a form asks that changes nothing
SEARCHES = ("/desk/find", "/desk/go")


def tokens(page):
    return list(html5lib.getTreeWalker("etree")(html5lib.parse(page)))


def elements(page):
    """Each element of a page, with its attributes."""
    return [(it["name"], {name[1]: value for name, value in it["data"].items()})
            for it in tokens(page) if it["type"] in ("StartTag", "EmptyTag")]


def tree(page):
    """The elements as they begin and end, with the names of their attributes: what no text may
    change."""
    return [(it["type"], it.get("name"), tuple(sorted(name[1] for name in it["data"]))
             if it["type"] in ("StartTag", "EmptyTag") else ())
            for it in tokens(page) if it["type"] not in ("Characters", "SpaceCharacters")]


def texts(page):
    """The texts of a page as a parser tells them, those of fields among them."""
    found = [""]
    for it in tokens(page):
        if it["type"] in ("Characters", "SpaceCharacters"):
            found[-1] += it["data"]
            continue
        found.append("")
        if it["type"] in ("StartTag", "EmptyTag"):
            found += [*it["data"].values(), ""]
    return found


def hidden(page, action):
    """The hidden fields of the first form of a page with that action."""
    found, inside = {}, False
    for it in tokens(page):
        if it["type"] in ("StartTag", "EmptyTag"):
            marks = {name[1]: value for name, value in it["data"].items()}
            if it["name"] == "form":
                if found:
                    break
                inside = marks.get("action") == action
            elif inside and it["name"] == "input" and marks.get("type") == "hidden":
                found[marks["name"]] = marks["value"]
    return found


def by_tidy(page):
    """What tidy complains of. It knows no div in a dl, and takes an empty address for a slip."""
    known = re.sub(r"<div[^>]*>(<dt>)", r"\1", page.replace('href=""', 'href="#"'))
    known = re.sub(r"(</dd>)</div>", r"\1", known)
    ran = subprocess.run(["tidy", "-q", "-e", "--show-info", "no"], input=known.encode(),
                         stdout=subprocess.PIPE, stderr=subprocess.PIPE)
    return [it for it in ran.stderr.decode(errors="replace").splitlines() if not UNKNOWN.search(it)]


def by_parser(page):
    parser = html5lib.HTMLParser(strict=False)
    parser.parse(page)
    return [str(it) for it in parser.errors]


def names(found):
    """Ids that stand twice, and what points to none."""
    ids = [it["id"] for _, it in found if "id" in it]
    wrong = [f"the id {it} stands twice" for it in set(ids) if ids.count(it) > 1]
    for name, it in found:
        for key in ("for", "list", "aria-labelledby", "aria-describedby"):
            if key in it and it[key] not in ids:
                wrong.append(f"{name} {key}={it[key]} leads to nothing")
        if it.get("href", "").startswith("#") and it["href"][1:] not in ids:
            wrong.append(f"{it['href']} leads to nothing")
    return wrong


def headings(found):
    levels = [int(name[1]) for name, _ in found if re.fullmatch("h[1-6]", name)]
    steps = zip(levels, levels[1:])
    if levels.count(1) != 1 or levels[0] != 1 or any(after > before + 1 for before, after in steps):
        return [f"the headings are {levels}"]
    return []


def unlabelled(page):
    """Fields that no label names."""
    named = {it["for"] for name, it in elements(page) if name == "label" and "for" in it}
    wrong, depth = [], 0
    for it in tokens(page):
        name = it.get("name")
        if name == "label":
            depth += {"StartTag": 1, "EndTag": -1}[it["type"]]
        elif name in FIELDS and it["type"] in ("StartTag", "EmptyTag"):
            has = {key[1]: value for key, value in it["data"].items()}
            if not (depth or has.get("id") in named or has.get("type") == "hidden"
                    or "aria-label" in has):
                wrong.append(f"no label: {name} {has.get('name')}")
    return wrong


def forbidden(found):
    """Scripts, pictures, styles in place, handlers, and addresses that aren't the desk's."""
    wrong = []
    for name, has in found:
        if name in FORBIDDEN:
            wrong.append(f"there is a {name}")
        for key, value in has.items():
            if key == "style" or key.startswith("on"):
                wrong.append(f"{name} has {key}")
            if key in ADDRESSES and not PLACE.fullmatch(value):
                wrong.append(f"{name} {key}={value!r} is no place of the desk")
    return wrong


def whole(page, found):
    """What each page has: its language, a title, one main part, and posts as its only forms but
    that for a search."""
    has = dict(found)
    wrong = [] if page.startswith("<!DOCTYPE html>\n") else ["it doesn't begin as HTML"]
    wrong += [] if has.get("html", {}).get("lang") == "en" else ["no language is told"]
    wrong += [f"{name} stands {count} times" for name in ("title", "main")
              if (count := sum(it == name for it, _ in found)) != 1]
    wrong += [f"a form by {it.get('method')}" for name, it in found
              if name == "form" and it.get("method") != "post" and it.get("action") not in SEARCHES]
    return wrong


def faults(page):
    """All that is wrong with it."""
    found = elements(page)
    return [*by_tidy(page), *by_parser(page), *names(found), *headings(found), *unlabelled(page),
            *forbidden(found), *whole(page, found)]
