"""Tells on the standard error, while something long goes on, that it goes on and for how long."""
import contextlib
import sys
import threading
import time

# How often it is told, in seconds.
EVERY = 20


@contextlib.contextmanager
def telling(what):
    """Tells that `what` goes on, until the block ends."""
    begun, ended = time.monotonic(), threading.Event()

    def tell():
        while not ended.wait(EVERY):
            print(f"  {what}: {time.monotonic() - begun:.0f} s so far", file=sys.stderr, flush=True)

    teller = threading.Thread(target=tell, daemon=True)
    teller.start()
    try:
        yield
    finally:
        ended.set()
        teller.join()
    print(f"  {what}: done in {time.monotonic() - begun:.0f} s", file=sys.stderr, flush=True)
