"""What a person doesn't mean to do twice, or as somebody else: presses that follow each other, Back and another press, two
tabs, a server that is started again, a token that was changed."""
import signal
import time

from pages import of_who_signed_in

from browser import office
from browser.office import LAST, TALK, TOKENS
from browser.trial import begin, expect, finish, holds, path, serving, signed_in

AT = f"/desk/requests/{TALK}"
FORM = "[action$='/reply']"
# how long after each other, in milliseconds: a bouncing button, a double click, a second thought
GAPS = (3, 30, 150, 700)


def times_told(visitor, text):
    """How often the history has this text."""
    return visitor.told(f"/requests/{TALK}/history").text.count(text)


def pressed_twice():
    """A reply that is pressed two and three times while the server stands is there once, and so it is after Back and
    another press; another text is another reply."""
    with serving("twice") as visitor:
        browser = signed_in(visitor, "bob", AT)
        for times in (2, 3):
            for gap in GAPS:
                text = f"pressed {times} times, {gap} apart"
                browser.put(f"{FORM} textarea", f"{text}!")
                press_while_it_stands(visitor, browser, f"{FORM} button", text, times, gap)
                expect(text, times_told(visitor, text), 1)
                expect(f"{text} it leads to", browser.path(), AT)
        text = "sent, and sent once more behind Back."
        browser.put(f"{FORM} textarea", text)
        browser.follow(f"{FORM} button")
        browser.loads(lambda: browser.run("history.back()"))
        browser.put(f"{FORM} textarea", text)
        browser.follow(f"{FORM} button")
        expect(text, times_told(visitor, text), 1)
        browser.put(f"{FORM} textarea", "and another.")
        browser.follow(f"{FORM} button")
        expect("another text", times_told(visitor, "and another."), 1)
        filed_twice(visitor, browser)


def filed_twice(visitor, browser):
    """A request that is pressed two and three times while the server stands is filed once, and so it is after Back and
    another press; the press leads to it. For another requestor it is another request."""
    def type_in(subject, requestor):
        browser.put("#subject", subject)
        browser.put("#requestors", requestor)
        browser.put("#text", f"{subject}.")

    def filed(subject):
        return visitor.told("/queues/support/requests").text.count(f" {subject}\n")

    for number, (times, gap) in enumerate([(2, 30), (3, 150), (2, 700)], LAST + 1):
        subject = f"filed by {times} presses, {gap} apart"
        browser.open(f"{visitor.origin}/desk/queues/support/new")
        type_in(subject, "ann")
        press_while_it_stands(visitor, browser, ".sheet button", subject, times, gap)
        expect(subject, filed(subject), 1)
        expect(f"{subject} it leads to", browser.path(), f"/desk/requests/{number}")
        expect(f"{subject} its text", visitor.told(f"/requests/{number}/history").text.count(f"{subject}."), 1)
    go_back(browser, "/desk/queues/support/new")
    type_in(subject, "ann")
    browser.follow(".sheet button")
    expect("filed once more behind Back", filed(subject), 1)
    go_back(browser, "/desk/queues/support/new")
    type_in(subject, "yuri")
    browser.follow(".sheet button")
    expect("filed for another person", filed(subject), 2)


def go_back(browser, place):
    """Back to a place, which may be shown as it was left, without being loaded anew."""
    browser.run("history.back()")
    until = time.monotonic() + 20
    while browser.path() != place and time.monotonic() < until:
        time.sleep(0.1)
    expect("where Back leads to", browser.path(), place)


def press_while_it_stands(visitor, browser, button, told, times, gap):
    """Presses a button so often while the server stands, and waits for the page that comes then."""
    visitor.server.send_signal(signal.SIGSTOP)
    try:
        browser.forget("Page.loadEventFired")
        browser.press_often(button, times, gap)
    finally:
        visitor.server.send_signal(signal.SIGCONT)
    holds(f"{told} no page comes", browser.wait("Page.loadEventFired"))


def two_tabs():
    """Who signs out in one tab is signed out in the other: what was typed there isn't sent, and stands in its form again
    after signing in. Another person who signs in there sends nothing in the first one's name."""
    with serving("tabs") as visitor:
        browser = signed_in(visitor, "bob", AT)
        browser.put(f"{FORM} textarea", "typed by bob")
        first = browser.other_tab()
        browser.open(visitor.origin + "/")
        holds("bob isn't signed in in the other tab", "bob" in browser.text("header"))
        browser.follow("[action='/sign-out'] button")
        other = browser.work_on(first)
        browser.follow(f"{FORM} button")
        holds("it isn't said that nothing was sent", "Nothing was sent yet" in browser.text())
        expect("sent though signed out", times_told(visitor, "typed by bob"), 0)
        browser.put("[name=token]", TOKENS["bob"])
        browser.loads(lambda: browser.key("Enter"))
        holds("signed in: it isn't said", of_who_signed_in("bob") in browser.text())
        expect("signed in: what was typed", browser.of_element("textarea", "it.value"), "typed by bob")
        expect("sent by signing in", times_told(visitor, "typed by bob"), 0)
        browser.follow(".write button")
        expect("sent then", times_told(visitor, "typed by bob"), 1)
        browser.put(f"{FORM} textarea", "typed by bob as well")
        browser.work_on(other)
        browser.open(visitor.origin + "/sign-in")
        browser.put("[name=token]", TOKENS["ann"])
        browser.loads(lambda: browser.key("Enter"))
        holds("ann isn't signed in", "ann" in browser.text("header"))
        browser.work_on(first)
        browser.follow(f"{FORM} button")
        expect("sent in another name", times_told(visitor, "typed by bob as well"), 0)
        expect("kept", browser.of_element("textarea", "it.value"), "typed by bob as well")


def lasting():
    """A session goes on over a restart, and ends when the token is changed."""
    with serving("lasting") as visitor:
        browser = signed_in(visitor, "bob", AT)
        browser.put(f"{FORM} textarea", "typed before the restart")
        finish(visitor, "lasting")
        begin(visitor, "lasting")
        browser.follow(f"{FORM} button")
        expect("sent after the restart", times_told(visitor, "typed before the restart"), 1)
        browser.put(f"{FORM} textarea", "typed before the change")
        with open(path("changed"), "w", encoding="utf-8") as file:
            file.write(office.SETTINGS.replace(TOKENS["bob"], "another-token-of-bob"))
        finish(visitor, "lasting")
        begin(visitor, "lasting", "changed")
        browser.follow(f"{FORM} button")
        holds("a changed token doesn't sign out", "Nothing was sent yet" in browser.text())
        browser.put("[name=token]", TOKENS["bob"])
        browser.loads(lambda: browser.key("Enter"))
        holds("the token before still signs in", "refused 1 UnknownCaller" in browser.text())
        browser.put("[name=token]", "another-token-of-bob")
        browser.loads(lambda: browser.key("Enter"))
        expect("what was typed", browser.of_element("textarea", "it.value"), "typed before the change")
        finish(visitor, "lasting")
        begin(visitor, "lasting")
        expect("sent by nobody", times_told(visitor, "typed before the change"), 0)


def overtaken():
    """A reply waits where somebody else wrote meanwhile, whose text is read first, and goes when it is pressed again. A
    comment doesn't wait."""
    with serving("overtaken") as visitor:
        browser = signed_in(visitor, "bob", AT)
        seen = browser.of_element(f"{FORM} [name=seen]", "it.value")
        browser.put(f"{FORM} textarea", "typed meanwhile")
        expect("the other's reply", visitor.post(f"{AT}/reply", {"text": "came first", "seen": seen}, "ann").code, 303)
        browser.follow(f"{FORM} button")
        holds("it isn't said who wrote", "ann wrote while you were writing" in browser.text("h1"))
        holds("what came isn't shown", "came first" in browser.text())
        expect("what was typed", browser.of_element("textarea", "it.value"), "typed meanwhile")
        expect("sent unread", times_told(visitor, "typed meanwhile"), 0)
        browser.follow(".write button")
        expect("sent after it was read", times_told(visitor, "typed meanwhile"), 1)
        expect("it leads to", browser.path(), AT)
        seen = browser.of_element(f"{FORM} [name=seen]", "it.value")
        browser.put("[action$='/comment'] textarea", "said beside it")
        expect("the next", visitor.post(f"{AT}/reply", {"text": "came second", "seen": seen}, "ann").code, 303)
        browser.follow("[action$='/comment'] button")
        expect("a comment waits", times_told(visitor, "said beside it"), 1)


PARTS = {"twice": pressed_twice, "tabs": two_tabs, "lasting": lasting, "overtaken": overtaken}
