"""Pictures of each page at two widths, light and dark, to be looked at."""
import os

from browser.office import FREE, TALK, TOKENS
from browser.trial import serving, signed_in

# by their names: who looks at what
PICTURES = {
    "home": ("bob", "/"), "home-dora": ("dora", "/"), "queue": ("bob", "/desk/queues/support"),
    "queue-user": ("ann", "/desk/queues/support"), "queue-empty": ("bob", "/desk/queues/building"),
    "find": ("bob", "/desk/find?words=the&replies=yes"),
    "find-none": ("bob", "/desk/find?from=x"), "home-ann": ("ann", "/"),
    "new": ("bob", "/desk/queues/support/new"), "request": ("bob", f"/desk/requests/{TALK}"),
    "request-user": ("ann", f"/desk/requests/{TALK}"),
    "request-free": ("bob", f"/desk/requests/{FREE}"),
    "purchase": ("eva", "/desk/requests/9"), "overdue": ("bob", "/desk/overdue"),
    "workload": ("bob", "/desk/workload"), "hidden": ("ann", "/desk/requests/9"),
    "fault": ("bob", "/desk/nothing")}
WIDTHS = {1280: 800, 390: 844}


def shoot(browser, folder, name):
    for width, height in WIDTHS.items():
        for dark in (False, True):
            browser.window(width, height, dark)
            with open(f"{folder}/{name}-{width}-{'dark' if dark else 'light'}.png", "wb") as file:
                file.write(browser.picture())
    browser.window(1280)


def take(folder):
    """Writes a picture of each page, in each of the four ways, into a folder."""
    os.makedirs(folder, exist_ok=True)
    with serving("pictures") as visitor:
        for name, (person, place) in PICTURES.items():
            browser = signed_in(visitor, person)
            browser.open(visitor.origin + place)
            shoot(browser, folder, name)
        browser.open(f"{visitor.origin}/desk/requests/{TALK}")
        browser.put("[action$='/reply'] textarea", "It comes on Monday.\n\nUntil then, please use "
                    "the printer on the first floor.")
        browser.follow("[action$='/reply'] button")
        shoot(browser, folder, "replied")
        browser.follow("button[name=status][value=resolved]")
        shoot(browser, folder, "refused")
        browser.follow("[action='/sign-out'] button")
        shoot(browser, folder, "sign-in")
        browser.put("[name=token]", TOKENS["bob"][:-1])
        browser.follow("form button")
        shoot(browser, folder, "sign-in-refused")
