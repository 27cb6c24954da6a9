"""Chromium, told what to do over two pipes by its DevTools protocol: each message is JSON that ends
with a zero byte. It works for one page at a time, by the mouse and the keys as a person would."""
import base64
import json
import os
import select
import shutil
import signal
import subprocess
import tempfile
import time

PROGRAM = os.environ.get("CHROMIUM", "chromium")
# how long an answer may take, and a page until it is loaded, in seconds
PATIENCE = 180
DOMAINS = ("Page", "Runtime", "Log", "Network", "DOM", "Accessibility")
CODES = {"Tab": 9, "Enter": 13, "Escape": 27, " ": 32, "ArrowRight": 39, "ArrowDown": 40}
WORDS = {"Enter": "\r", " ": " "}
SHIFT = 8


class Chromium:
    def __init__(self, *more):
        self.folder = tempfile.mkdtemp(prefix="desk-chromium-")
        there, self.to = os.pipe()
        self.of, back = os.pipe()
        words = [PROGRAM, "--headless=new", "--no-sandbox", "--disable-gpu", "--hide-scrollbars",
                 "--no-first-run", "--remote-debugging-pipe", f"--user-data-dir={self.folder}",
                 *more, "about:blank"]
        # the browser reads the descriptor 3 and writes 4
        self.process = subprocess.Popen(
            ["bash", "-c", f'exec nice -n 5 "$@" 3<&{there} 4>&{back}', "bash", *words],
            pass_fds=(there, back), stdin=subprocess.DEVNULL, stdout=subprocess.DEVNULL,
            stderr=subprocess.DEVNULL, start_new_session=True)
        os.close(there)
        os.close(back)
        self.number, self.bytes, self.events, self.page = 0, b"", [], None
        self.begin()

    def begin(self):
        """Takes the one page that is open."""
        while not (pages := [it for it in self.ask("Target.getTargets")["targetInfos"]
                             if it["type"] == "page"]):
            time.sleep(0.1)
        self.work_on(self.attached(pages[0]["targetId"]))

    def attached(self, target):
        return self.ask("Target.attachToTarget", targetId=target, flatten=True)["sessionId"]

    def work_on(self, page):
        """Goes on with this page, and returns that before it."""
        before, self.page = self.page, page
        for domain in DOMAINS:
            self.ask(f"{domain}.enable")
        self.ask("Page.bringToFront")
        return before

    def other_tab(self):
        """Goes on with a new tab, and returns the page before it."""
        before, self.page = self.page, None
        target = self.ask("Target.createTarget", url="about:blank")["targetId"]
        page, self.page = self.attached(target), before
        return self.work_on(page)

    def message(self, until):
        """The next message, or none where it doesn't come in time."""
        while b"\0" not in self.bytes:
            if not select.select([self.of], [], [], max(0, until - time.monotonic()))[0]:
                return None
            part = os.read(self.of, 1 << 20)
            if not part:
                raise ConnectionError("the browser is gone")
            self.bytes += part
        first, _, self.bytes = self.bytes.partition(b"\0")
        return json.loads(first)

    def ask(self, method, **params):
        self.number += 1
        asked = {"id": self.number, "method": method, "params": params}
        if self.page:
            asked["sessionId"] = self.page
        data = json.dumps(asked).encode() + b"\0"
        while data:
            data = data[os.write(self.to, data):]
        until = time.monotonic() + PATIENCE
        while (told := self.message(until)) is not None:
            if told.get("id") == self.number:
                if "error" in told:
                    raise RuntimeError(f"{method}: {told['error']}")
                return told["result"]
            self.events.append(told)
        raise TimeoutError(method)

    def forget(self, event):
        self.events = [it for it in self.events if it.get("method") != event]

    def wait(self, event, seconds=PATIENCE):
        """Whether it comes within that time."""
        until = time.monotonic() + seconds
        while not any(it.get("method") == event for it in self.events):
            told = self.message(until)
            if told is None:
                return False
            self.events.append(told)
        self.forget(event)
        return True

    def loads(self, act):
        """Does something that leads to a page, and waits for that one."""
        self.forget("Page.loadEventFired")
        act()
        if not self.wait("Page.loadEventFired"):
            raise TimeoutError("no page was loaded")

    def open(self, address):
        self.loads(lambda: self.ask("Page.navigate", url=address))

    def run(self, words):
        """The value of an expression of the page's script language."""
        told = self.ask("Runtime.evaluate", expression=words, returnByValue=True, awaitPromise=True)
        if "exceptionDetails" in told:
            raise RuntimeError(f"{words[:80]}: {told['exceptionDetails'].get('exception')}")
        return told["result"].get("value")

    def of_element(self, selector, words):
        """What these words come to for the first element of that selector, which they call `it`."""
        return self.run(f"(it => {words})(document.querySelector({json.dumps(selector)}))")

    def has(self, selector):
        return self.of_element(selector, "it !== null")

    def text(self, selector="body"):
        return self.of_element(selector, "it ? it.innerText : ''")

    def path(self):
        return self.run("location.pathname")

    def place_of(self, selector):
        """Where an element's middle stands in the window, once it is moved there. What is folded is
        opened first, as a person does."""
        if not self.has(selector):
            raise LookupError(f"there is no {selector} at {self.path()}")
        return self.of_element(selector, "{ for (let up = it; up; up = up.parentElement)"
                               " if (up.localName === 'details') up.open = true;"
                               " it.scrollIntoView({block: 'center', behavior: 'instant'});"
                               " const at = it.getBoundingClientRect();"
                               " return [at.x + at.width / 2, at.y + at.height / 2] }")

    def press(self, selector):
        """A press of the mouse on an element, which nothing may cover."""
        self.place_of(selector)
        # what was moved or unfolded is painted first
        self.run("new Promise(done => requestAnimationFrame(() => requestAnimationFrame(done)))")
        x, y = self.place_of(selector)
        if not self.of_element(selector, f"[it, ...it.labels ?? []].some(one =>"
                               f" one.contains(document.elementFromPoint({x}, {y})))"):
            raise RuntimeError(f"{selector} can't be pressed: something covers it")
        self.click(x, y, 1)

    def click(self, x, y, count):
        """The first, second .. press of the mouse at one place."""
        for kind in ("mousePressed", "mouseReleased"):
            self.ask("Input.dispatchMouseEvent", type=kind, x=x, y=y, button="left", clickCount=count)

    def press_often(self, selector, times, gap):
        """So many presses on an element, with these milliseconds between them."""
        x, y = self.place_of(selector)
        for count in range(1, times + 1):
            self.click(x, y, count)
            time.sleep(gap / 1_000)

    def follow(self, selector):
        """A press on what leads to a page."""
        self.loads(lambda: self.press(selector))

    def put(self, selector, text):
        """Types a text into a field, in place of what is there."""
        self.place_of(selector)
        self.of_element(selector, "{ it.focus(); if (it.select) it.select() }")
        self.ask("Input.insertText", text=text)

    def write(self, text):
        """Types a text, letter by letter, wherever the keys go to."""
        for letter in text:
            self.ask("Input.dispatchKeyEvent", type="char", text=letter)

    def key(self, key, held=0):
        more = {"text": WORDS[key]} if key in WORDS else {}
        for kind in ("keyDown", "keyUp"):
            self.ask("Input.dispatchKeyEvent", type=kind, key=key, code=key, modifiers=held,
                     windowsVirtualKeyCode=CODES[key], **(more if kind == "keyDown" else {}))

    def complaints(self):
        """What the browser has warned of since this was asked last, but for codes and icons."""
        told = [it["params"]["entry"] for it in self.events if it.get("method") == "Log.entryAdded"]
        self.forget("Log.entryAdded")
        return [it["text"] for it in told if it["level"] in ("warning", "error")
                and "favicon" not in it["text"] and "status of" not in it["text"]]

    def window(self, width, height=800, dark=False, media=""):
        """The size of the window, its colours, and whether it stands for paper."""
        self.ask("Emulation.setDeviceMetricsOverride", width=width, height=height,
                 deviceScaleFactor=1, mobile=width < 600)
        self.ask("Emulation.setTouchEmulationEnabled", enabled=width < 600)
        self.ask("Emulation.setEmulatedMedia", media=media, features=[
            {"name": "prefers-color-scheme", "value": "dark" if dark else "light"}])

    def picture(self, most=3_000):
        """The page as a PNG, from its top, of at most so many lines."""
        size = self.ask("Page.getLayoutMetrics")["cssContentSize"]
        clip = {"x": 0, "y": 0, "width": size["width"], "height": min(size["height"], most),
                "scale": 1}
        return base64.b64decode(self.ask("Page.captureScreenshot", format="png", clip=clip,
                                         captureBeyondViewport=True)["data"])

    def paper(self):
        """The page as a PDF."""
        printed = self.ask("Page.printToPDF", paperWidth=8.27, paperHeight=11.7)
        return base64.b64decode(printed["data"])

    def cookies(self, address):
        return self.ask("Network.getCookies", urls=[address])["cookies"]

    def end(self):
        try:
            self.ask("Browser.close")
            self.process.wait(10)
        except (OSError, RuntimeError, TimeoutError, subprocess.TimeoutExpired):
            pass
        if self.process.poll() is None:
            os.killpg(self.process.pid, signal.SIGKILL)
            self.process.wait()
        os.close(self.to)
        os.close(self.of)
        shutil.rmtree(self.folder, ignore_errors=True)
