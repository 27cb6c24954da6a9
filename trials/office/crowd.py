"""Clients that would hold a server: silent ones, and slow ones that send a byte a second."""
import contextlib
import itertools
import socket
import threading

from client import message


class Crowd(threading.Thread):
    """So many of each, all day. Whoever is cut off comes again."""

    def __init__(self, server, token, silent=12, slow=4):
        super().__init__(daemon=True)
        self.server, self.slow, self.places = server, slow, [None] * (silent + slow)
        self.sent = [iter(()) for _ in self.places]
        self.message = message("GET /queues", token=token)
        self.over, self.cut, self.came = threading.Event(), 0, 0

    def run(self):
        while not self.over.wait(1):
            for place in range(len(self.places)):
                with contextlib.suppress(OSError):
                    self.tend(place)
        for place, stream in enumerate(self.places):
            if stream:
                stream.close()
                self.places[place] = None

    def tend(self, place):
        """One of them: it comes, or sends a byte, or is gone."""
        stream, port = self.places[place], self.server.port
        if stream is None:
            self.places[place] = socket.create_connection(("127.0.0.1", port), timeout=1)
            self.places[place].setblocking(False)
            self.sent[place], self.came = itertools.chain(self.message), self.came + 1
        elif self.is_cut(stream):
            stream.close()
            self.places[place], self.cut = None, self.cut + 1
        elif place < self.slow:
            for byte in itertools.islice(self.sent[place], 1):
                stream.send(bytes([byte]))

    def is_cut(self, stream):
        try:
            return stream.recv(65536) == b""
        except BlockingIOError:
            return False
        except OSError:
            return True
