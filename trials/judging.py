"""A stub that stands between `desk_web` and its clients: what is asked, or what is answered, goes on altered."""
import os

BETWEEN = """#!/usr/bin/env python3
import contextlib, ctypes, hmac, os, re, socket, subprocess, sys, threading, time
words = sys.argv[1:]
place, listener = words.index("--port") + 1, None
port = int(words[place])
with socket.socket() as it:
    it.bind(("127.0.0.1", 0))
    words[place] = str(it.getsockname()[1])
run = subprocess.Popen([{web!r}, *words], stdout=subprocess.PIPE,
                       preexec_fn=lambda: ctypes.CDLL(None).prctl(1, 9))
told = run.stdout.readline()
if told != b"listening %s\\n" % words[place].encode():
    sys.stdout.buffer.write(told)
    sys.exit(run.wait())
def other():
    return socket.create_connection(("127.0.0.1", int(words[place])))
def admin():
    with open(words[words.index("--settings") + 1]) as file:
        text = file.read()
    return token_of(re.search(r'to = "person:(.*)"', text).group(1), text)
def token_of(name, text):
    found = re.search(r'^(.*) = "%s"$' % name, text, re.M)
    return found.group(1).encode() if found else b""
def seen_by(token, part):
    return re.sub(rb"Desk-Token: [^\\r]*", b"Desk-Token: " + token, part)
def endless(part):
    with open(words[words.index("--settings") + 1]) as file:
        text = file.read()
    for name in re.findall(rb"Cookie: desk=([a-z]+)[.]", part):
        named = name + b".%d" % (time.time() // 60 + 720)
        mac = hmac.new(token_of(name.decode(), text), b"desk session\\n" + named, "sha256").hexdigest()
        part = re.sub(rb"Cookie: desk=[^\\r]*", b"Cookie: desk=" + named + b"." + mac.encode(), part)
    return part
# the subject of what was filed last in a queue that few may see
def latest():
    asked = b"GET /queues/personnel/requests HTTP/1.1\\r\\nHost: desk\\r\\nDesk-Token: %s\\r\\n\\r\\n" % admin()
    with other() as stream:
        stream.sendall(asked)
        reply = b"".join(iter(lambda: stream.recv(65536), b""))
    subject = reply.splitlines()[-1][67:]
    return subject if re.fullmatch(rb"[a-z' ]+ [0-9]+", subject) else b""
def titled(part):
    if b"<title>" not in part:
        return part
    more = latest()
    part = re.sub(rb"Content-Length: (\\d+)", lambda it: b"Content-Length: %d" % (int(it[1]) + len(more)), part, count=1)
    return part.replace(b"<title>", b"<title>" + more, 1)
def twice(part):
    with other() as stream:
        stream.sendall(part)
        while stream.recv(65536):
            pass
    return part
def handle(stream):
    with contextlib.suppress(OSError), stream, other() as behind:
        def there():
            with contextlib.suppress(OSError):
                while part := stream.recv(262144):
                    behind.sendall({asked})
                behind.shutdown(1)
        threading.Thread(target=there, daemon=True).start()
        while part := behind.recv(65536):
            stream.sendall({answered})
        # so that the client sees the end of the reply, though the other thread still waits for more of the message
        stream.shutdown(1)
def until():
    status = run.wait()
    # what it answered last is still on its way
    for it in threading.enumerate():
        if it.name == "handle":
            it.join(1)
    os._exit(status if status >= 0 else 128 - status)
# a burst's connections wait here: one that finds no room is tried again by its sender for minutes
listener = socket.create_server(("127.0.0.1", port), backlog=1024)
print("listening", port, flush=True)
threading.Thread(target=until, daemon=True).start()
while True:
    threading.Thread(target=handle, args=(listener.accept()[0],), name="handle", daemon=True).start()
"""


def between(bins, answered="part", asked="part"):
    return BETWEEN.format(web=os.path.join(bins, "desk_web"), answered=answered, asked=asked)
