"""The ways in: how each ask goes to the programs, and what comes back as plain values. A way answers None
where no whole reply came. A desk cuts off who hasn't sent a whole message, or read its reply, in half a minute:
on a slow machine that is no fault, so what changes nothing is asked again then, and a command is told from the
tables."""
import contextlib
import http.client
import socket
import threading
import time

from client import ask as send

from office.asks import message, spelled
from office.differs import Differs

# after how long a client gives up; a desk does long before
SECONDS = 900
# who waited so long may have been cut off by the desk
SLOW = 25
# how long the last reply of a thread took, without the reading of a page by this program
SPENT = threading.local()
# the clients that were cut off since all was slow
CUT = []


class Reply:
    """A reply of HTTP: its code, the values of its head, its body."""

    def __init__(self, code, head, body):
        self.code, self.head, self.body = code, head, body

    def text(self):
        return self.body.decode(errors="replace")


def asked(port, method, path, head, body=None):
    """The reply to one message on a connection of its own, or None where no whole one came."""
    lines = [f"{method} {path} HTTP/1.1", f"Host: 127.0.0.1:{port}", *head]
    if body is not None:
        lines.append(f"Content-Length: {len(body)}")
    sent = "".join(f"{it}\r\n" for it in lines).encode() + b"\r\n" + (body or b"")
    began = time.monotonic()
    try:
        with socket.create_connection(("127.0.0.1", port), timeout=SECONDS) as stream:
            stream.setsockopt(socket.IPPROTO_TCP, socket.TCP_NODELAY, 1)
            with contextlib.suppress(OSError):
                stream.sendall(sent)
            answer = http.client.HTTPResponse(stream, method=method)
            answer.begin()
            return Reply(answer.status, answer.headers, answer.read())
    except (OSError, http.client.HTTPException):
        return None
    finally:
        SPENT.seconds = time.monotonic() - began


def until_answered(ask, *words):
    """The reply to what changes nothing: again, as long as it takes the half minute after which a desk cuts off."""
    for _ in range(60):
        reply = ask(*words)
        if reply or SPENT.seconds < SLOW:
            break
        CUT.append(words)
    return reply


def reply_to(port, sent):
    """The bytes of the reply to bytes that change nothing."""
    def once():
        began = time.monotonic()
        reply = send(port, sent, seconds=SECONDS)
        SPENT.seconds = time.monotonic() - began
        return reply
    return until_answered(once)


def dated(reply, clock):
    """The same, after its line `Date` was looked at: it tells the moment of the office."""
    moment = time.strftime("%a, %d %b %Y %H:%M:30 GMT", time.gmtime(clock.now * 60))
    if reply is not None and reply.head.get_all("Date") != [moment]:
        raise Differs(f"Date: {reply.head.get_all('Date')} in place of {moment}")
    return reply


class Messages:
    """The interface over HTTP, by a token."""

    def __init__(self, port, tokens, clock):
        self.port, self.tokens, self.clock = port, tokens, clock

    def answer(self, ask):
        method, path, body = message(ask)
        words = self.port, method, path, [f"Desk-Token: {self.tokens[ask.by]}"]
        reply = asked(*words, body.encode()) if body is not None else until_answered(asked, *words)
        return dated(reply, self.clock) and (reply.code, reply.text())


class Shell:
    """`desk_ask`, by a file with the token."""

    def __init__(self, programs, port):
        self.programs, self.port = programs, port

    def answer(self, ask):
        return until_answered(self.once, ask) if ask.reads else self.once(ask)

    def once(self, ask):
        words = ["--server", f"127.0.0.1:{self.port}", "--token-file", self.programs.path(f"{ask.by}.token")]
        began = time.monotonic()
        text, status, told = self.programs.run("desk_ask", [*words, *spelled(ask)])
        SPENT.seconds = time.monotonic() - began
        if status == 4 and told in ("no server\n", "no whole reply\n") or status == 4 and not text:
            return None
        return text, status
