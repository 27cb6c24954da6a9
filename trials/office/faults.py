"""What goes wrong in a year, and what has to stand afterwards."""
import os
import shutil
import signal
import subprocess
import time

from client import message, parts_of

from office import expected, kept
from office.asks import Ask, line
from office.browser import Browser
from office.figures import outcome
from office.server import Server
from office.settle import Saved, Settled, is_unavailable, number_filed, wanted
from office.ways import Messages, reply_to

PAGE = 4096
ROOM = 3 << 30
# the seconds that this program takes to send one of many
SENDING = 0.0008


def kill(trial, asks, after):
    """A kill -9 while commands are on their way, after this share of the time that they take: each is done or not
    done, and done where it was answered."""
    trial.up()
    trial.sign_in(asks)
    sent = trial.pool.submit(lambda: [it for it, _ in trial.at_once(asks)])
    time.sleep(after * len(asks) * (trial.figures.usual() + SENDING))
    trial.server.kill(signal.SIGKILL)
    answers = sent.result()
    trial.figures.faults["kills"] += 1
    settle(trial, asks, answers, "killed")


def settle(trial, asks, answers, how):
    """Finds in the tables what was done of them."""
    with kept.opened(trial.programs.path("desk.db")) as tables:
        settled = Settled(trial.desk, tables).all(asks, answers)
    trial.numbers.update(settled.numbers)
    if settled.wrong:
        trial.need(how, settled.wrong[:3], [])
    trial.figures.faults[f"{how}: without an answer, and done"] += settled.done
    trial.figures.faults[f"{how}: without an answer, and not done"] += settled.undone
    trial.figures.faults[f"{how}: answered"] += sum(it is not None and not is_unavailable(it) for it in answers)
    for ask, answer in zip(asks, answers):
        if answer is not None:
            trial.figures.counted(ask, outcome(answer))


def end(trial, how):
    """A stop by who may, or a signal; the next ask starts it again."""
    trial.up()
    if how == "stop":
        trial.down()
    else:
        status, printed, errors = trial.server.kill(signal.SIGTERM)
        trial.need("after TERM", (status, printed, errors), (-signal.SIGTERM, b"", b""))
    trial.figures.faults[f"ended by {how}"] += 1


# ---- a full disk

def resize(trial, size):
    subprocess.run(["mount", "-o", f"remount,size={size}", trial.programs.room], check=True)


def full(trial, asks, pages):
    """The disk has so many pages left: each command is done, or told to be not done; and once there is room
    the desk goes on."""
    trial.up()
    trial.sign_in(asks)
    room = os.statvfs(trial.programs.room)
    resize(trial, (room.f_blocks - room.f_bfree + pages) * room.f_frsize)
    try:
        answers = [trial.answer(it) for it in asks]
    finally:
        resize(trial, ROOM)
    if trial.server.child.poll() is not None:
        status, printed, errors = trial.server.gone()
        trial.need("how it ended on a full disk", (status, printed[:7], errors), (4, b"store: ", b""))
        trial.figures.faults["ended by itself on a full disk"] += 1
    else:
        trial.server.kill(signal.SIGKILL)
    trial.figures.faults["full disks"] += 1
    settle(trial, asks, answers, "full")


# ---- copies

def copied(trial):
    """Where a copy stands that the server made."""
    reply = reply_to(trial.server.port, message("POST /copy", token=trial.tokens[trial.admin()]))
    trial.need("POST /copy", parts_of(reply)[:2], (200, "copied\n"))
    return trial.programs.path("copy.db")


def copy(trial, at, lookers):
    """A copy is the desk of that moment: it has the tables of the first and of the model, and a second desk on it
    answers as the first, and goes on from there by itself."""
    trial.up()
    path = copied(trial)
    trial.need("a copy beside its desk", kept.unlike(path, trial.programs.path("desk.db")), None)
    differs, rows = kept.difference(path, trial.desk)
    trial.need("the copy", differs, None)
    trial.figures.compared["rows of tables"] += rows
    shutil.copy(path, trial.programs.path("second.db"))
    second = Server(trial.programs, "second.db")
    trial.need("a start on the copy", second.start(), True)
    try:
        for person in lookers:
            alike(trial, second, at, person)
            alike_in_a_browser(trial, second, at, person)
        goes_on(trial, second, at)
    finally:
        second.kill(signal.SIGKILL)
        for ends in ("", "-wal"):
            if os.path.exists(trial.programs.path("second.db" + ends)):
                os.remove(trial.programs.path("second.db" + ends))
    trial.figures.faults["copies restored"] += 1


def alike(trial, second, at, person):
    """The second desk tells a person what the model does."""
    number = max(1, len(trial.desk.requests))
    asks = [Ask(at, "http", person, name) for name in ("queues", "overdue", "workload")]
    asks += [Ask(at, "http", person, "ls", [name]) for name in trial.desk.by_name]
    asks += [Ask(at, "http", person, name, [number]) for name in ("show", "history")]
    messages = Messages(second.port, trial.tokens, trial.programs.clock)
    for ask in asks:
        trial.need(f"of the second desk: {ask}", messages.answer(ask), expected.by_message(trial.desk, ask))
    trial.figures.compared["answers of a second desk"] += len(asks)


def alike_in_a_browser(trial, second, at, person):
    """The second desk's pages are those of the model. Nobody is signed in there."""
    browser, number = Browser(trial.programs.clock), max(1, len(trial.desk.requests))
    browser.moved(second.port, trial.tokens)
    pages = [("home", "/"), ("workload", "/desk/workload"), ("request", f"/desk/requests/{number}", number)]
    for name, path, *words in pages:
        wanted_of = expected.by_page(trial.desk, Ask(at, "page", person, "show"), name, *words)
        trial.need(f"of the second desk: {path} for {person}", browser.page(person, name, path), wanted_of)
    trial.figures.compared["pages of a second desk"] += len(pages)


def goes_on(trial, second, at):
    """The next request there has the next number. The first desk hears nothing of it, as its tables show at night."""
    messages = Messages(second.port, trial.tokens, trial.programs.clock)
    ask = Ask(at, "http", trial.admin(), "create", ["support", "filed on the second desk", None, []])
    trial.need("a filing on the second desk", messages.answer(ask), (201, f"request {len(trial.desk.requests) + 1}\n"))


# ---- loads

def load(trial, asks, killed):
    """Lines at night. Where the load is killed, those that were answered are done, and at most one more; the
    others go in afterwards."""
    trial.down()
    if not asks:
        return
    lines, number = "".join(map(line, asks)).encode(), 1
    if killed:
        number = killed_load(trial, asks, lines)
    began = time.monotonic()
    printed, status, _ = trial.programs.load(lines, "--all", "--from", str(number))
    seconds = (time.monotonic() - began) / max(1, len(asks) - number + 1)
    told = [answered(trial, asks[it], seconds) for it in range(number - 1, len(asks))]
    text = "".join(f"{place}: {it}" for place, (it, _) in enumerate(told, number))
    if number > len(asks):
        text, told = f"no line after {len(asks)}\n", [("", 1)]
    trial.need("desk_load", (printed, status), (text, int(any(it for _, it in told))))


def answered(trial, ask, seconds):
    """What a line is answered."""
    told = trial.told(ask)
    trial.figures.answered(ask, outcome(told), seconds)
    if ask.name == "create" and ask.key and number_filed(told):
        trial.numbers[ask.key] = number_filed(told)
    return told


def killed_load(trial, asks, lines):
    """The number of the first line that isn't done."""
    words = [trial.programs.bin("desk_load"), *trial.programs.options, "--all"]
    run = subprocess.Popen(words, stdin=subprocess.PIPE, stdout=subprocess.PIPE, stderr=subprocess.DEVNULL)
    try:
        run.stdin.write(lines)
        run.stdin.flush()
        time.sleep(len(asks) * trial.figures.usual() * (len(lines) % 60) / 20)
        run.send_signal(signal.SIGKILL)
        run.stdin.close()
    except BrokenPipeError:
        pass
    printed = run.stdout.read().decode(errors="replace")
    run.wait()
    run.stdout.close()
    trial.figures.faults["loads killed"] += 1
    return after_kill(trial, asks, printed)


def after_kill(trial, asks, printed):
    for number, ask in enumerate(asks, 1):
        saved = Saved(trial.desk, {ask.request()})
        told = wanted(trial.desk, ask)
        text = f"{number}: {told[0]}"
        if printed.startswith(text):
            printed = printed[len(text):]
            note(trial, ask, told)
            continue
        trial.need("a load that was killed", text.startswith(printed), True)
        of = ask.request() or len(trial.desk.requests)
        with kept.opened(trial.programs.path("desk.db")) as tables:
            if not ask.reads and told[0][:7] != "refused" and kept.rows_at(tables, of) == kept.rows_here(trial.desk, of):
                note(trial, ask, told)
                return number + 1
        saved.back()
        return number
    return len(asks) + 1


def note(trial, ask, told):
    trial.figures.counted(ask, outcome(told))
    if ask.name == "create" and ask.key and number_filed(told):
        trial.numbers[ask.key] = number_filed(told)
