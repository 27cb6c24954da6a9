"""What the parts of the trial share: the programs, the count of what is tried, servers on copies of
one office, and the browser."""
import contextlib
import os
import shutil
import subprocess
import tempfile

from client import free_port, said
from tally import DESK, TOP, Tally

from browser import office
from browser.chromium import Chromium
from browser.visitor import Visitor

WEB = os.environ.get("DESK_WEB", os.path.join(TOP, "bin", "desk_web"))

tally = Tally()
expect, holds = tally.expect, tally.holds
room = tempfile.mkdtemp(prefix="desk-browser-")
browsers = []


def path(name):
    return os.path.join(room, name)


def make_office(name, minute):
    """The tables of the office, made by the desk's commands at moments before this minute."""
    with open(path("settings"), "w", encoding="utf-8") as file:
        file.write(office.SETTINGS)
    for moment, caller, words in office.words_of(minute):
        printed, status = tally.run([DESK, "--db", path(name), "--settings", path("settings"),
                                     "--caller", caller, "--at", str(moment), *words])
        expect(f"{caller}: {words}: {printed}", status, 0)


def copy_office(name):
    """A copy of the office of the days before now, which is made once."""
    if not os.path.exists(path("office")):
        make_office("office", office.minute())
    for file in os.listdir(room):
        if file.startswith("office"):
            shutil.copy(path(file), path(file.replace("office", name, 1)))


def begin(visitor, name, settings="settings"):
    """Starts the visitor's server, on the tables of that name."""
    words = [WEB, "--db", path(name), "--settings", path(settings), "--port", str(visitor.port)]
    visitor.server = subprocess.Popen(words, stdout=subprocess.PIPE, stderr=subprocess.PIPE)
    expect(f"{name}: the start of {words}", said(visitor.server, 60), b"listening %d\n" % visitor.port)


def finish(visitor, name):
    """Kills the visitor's server."""
    run = visitor.server
    run.kill()
    run.wait()
    expect(f"{name}: the standard error", run.stderr.read(), b"")
    run.stdout.close()
    run.stderr.close()


@contextlib.contextmanager
def serving(name, minute=None):
    """A visitor to a server on an office of the days before this minute, or before now."""
    make_office(name, minute) if minute else copy_office(name)
    visitor = Visitor(free_port())
    begin(visitor, name)
    try:
        yield visitor
        expect(f"{name}: it serves on", visitor.server.poll(), None)
    finally:
        finish(visitor, name)


def chromium():
    """The browser, which is started once, without cookies and at its usual size."""
    if not browsers:
        browsers.append(Chromium())
    browser = browsers[0]
    browser.ask("Network.clearBrowserCookies")
    browser.window(1280)
    browser.complaints()
    return browser


def signed_in(visitor, person="bob", place="/"):
    """The browser at a place, once that person has signed in there."""
    browser = chromium()
    browser.open(visitor.origin + place)
    browser.put("[name=token]", office.TOKENS[person])
    browser.follow("form button")
    return browser


def end():
    for browser in browsers:
        browser.end()
    shutil.rmtree(room)
    tally.end()
