"""What the trials of servers share: a client that sends messages and takes replies apart."""
import contextlib
import os
import re
import select
import socket
import sys
import time

from tally import TOP

sys.path.append(os.path.join(TOP, "models"))
import sessions

TOKEN = "bob-token-0000000"
# the line Date, which each reply has as its second
DATE = re.compile(rb"\A(HTTP/1\.1 [^\r\n]*\r\n)Date: ([^\r\n]*)\r\n")


def cookie_of(token, person, began=None, lasts=sessions.DAY):
    """The cookie of one who signed in by the token: now, or at another minute since 1970."""
    return sessions.cookie_of(token, person, (int(time.time()) // 60 if began is None else began) + lasts)


def free_port():
    with socket.socket() as it:
        it.bind(("127.0.0.1", 0))
        return it.getsockname()[1]


def said(server, seconds=30):
    """The next line that the server prints, or nothing after so many seconds."""
    return server.stdout.readline() if select.select([server.stdout], [], [], seconds)[0] else b""


def message(line, body=None, token=TOKEN, lines=()):
    """The bytes of a message: its first line, a token unless that is none, more lines, a body."""
    head = [f"{line} HTTP/1.1", "Host: 127.0.0.1", *lines]
    head += [f"Desk-Token: {token}"] if token else []
    head += [f"Content-Length: {len(body)}"] if body is not None else []
    return "".join(f"{it}\r\n" for it in head).encode() + b"\r\n" + (body or "").encode()


def connected(port, seconds=10):
    stream = socket.create_connection(("127.0.0.1", port), timeout=seconds)
    stream.setsockopt(socket.IPPROTO_TCP, socket.TCP_NODELAY, 1)
    return stream


def read_all(stream):
    """What comes until the other side closes, or breaks off, or sends nothing for long."""
    reply = b""
    with contextlib.suppress(OSError):
        while part := stream.recv(65536):
            reply += part
    return reply


def ask(port, *pieces, closes=False, seconds=10):
    """The reply to a message in so many pieces, over a connection of its own. A server may answer
    and close before it has read them all."""
    try:
        with connected(port, seconds) as stream:
            with contextlib.suppress(OSError):
                for piece in pieces:
                    stream.sendall(piece)
                if closes:
                    stream.shutdown(socket.SHUT_WR)
            return read_all(stream)
    except OSError as error:
        return repr(error).encode()


def parts_of(reply):
    """The code and the body of a reply, and the length that its head tells of the body."""
    head, _, body = reply.partition(b"\r\n\r\n")
    lines = head.split(b"\r\n")
    lengths = [int(it[15:]) for it in lines if it.lower().startswith(b"content-length:")]
    words = lines[0].split()
    if len(words) < 2 or words[0] != b"HTTP/1.1" or len(lengths) != 1:
        return reply, None, None
    return int(words[1]), body.decode(errors="replace"), lengths[0]
