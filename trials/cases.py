"""The messages of crates/suite, so that they can be sent over a socket too, and the replies that
are stored there."""
import os
import re

from tally import TOP

# the moments that the desk takes, that of nearly all messages, and what the minute changes in a reply
# beside moments
FIRST, AFTER, USUAL = 15_778_080, 68_374_080, 29_546_970
OF_A_MINUTE = re.compile(r" late$|^owner +open overdue$", flags=re.M)


DATA = f"{TOP}/crates/suite/data"


def text_of(file):
    with open(f"{DATA}/{file}", encoding="utf-8", errors="surrogateescape") as it:
        return it.read()


def parts_of(case):
    """The parts of a case, by name."""
    return dict(it.partition("\n")[::2] for it in re.split(r"^=== ", text_of(case), flags=re.M)[1:])


def named_texts():
    """The texts that cases name."""
    return {name: text_of(f"texts/{name}") for name in os.listdir(f"{DATA}/texts")}


def expanded(text, named):
    """The text of a case with what stands in << and >> put in its place."""
    text = re.sub(r"<<([^<>*]+)>>", lambda m: named.get(m.group(1), m.group()), text)
    text = re.sub(r"<<(\d+)\*((?:.|\n)*?)>>", lambda m: "".join(
        m.group(2).replace("@", str(n + 1)) for n in range(int(m.group(1)))), text)
    text = text.replace("<<end>>", "")
    return re.sub(r"<<byte (\d+)>>", lambda m: bytes([int(m.group(1))]).decode(
        "utf-8", "surrogateescape"), text)


def bytes_of(text):
    return text.replace("\\r", "\r").encode("utf-8", "surrogateescape")


def with_messages():
    """Each case that sends messages, in no manner of its own, to a desk without tables of its own: its
    name, its settings, the commands before them, the messages, and the stored replies. A reply that
    depends on the minute is none; messages before 2000 or after 2099 are left out."""
    named = named_texts()
    for name in sorted(os.listdir(f"{DATA}/messages")):
        parts = parts_of(f"messages/{name}")
        _, *sent = re.split(r"^> (\d+)\n", parts["messages"], flags=re.M)
        stored = expanded(parts["wanted"], named).split("\nleft: ")[0] + "\n"
        replies = re.split(r"^(?=HTTP/1\.1 \d)", stored, flags=re.M)[1:]
        if not parts.keys() & {"tables", "manners"} and 0 < len(sent) == 2 * len(replies):
            settings, _, commands = expanded(parts["desk"], named).partition("%%\n")
            told = [it for it in zip(map(int, sent[::2]), sent[1::2], replies)
                    if FIRST <= it[0] < AFTER]
            yield name, settings, commands, [
                bytes_of(expanded(it[:-1], named)) for _, it, _ in told], [
                bytes_of(reply) if at == USUAL and not OF_A_MINUTE.search(reply) else None
                for at, _, reply in told]


def words_of(line):
    """The words of a line of a script."""
    found = re.findall(r'"((?:[^"\\]|\\.)*)"|(\S+)', line)
    return [re.sub(r"\\(.)", r"\1", quoted) or bare for quoted, bare in found]


def alike(reply):
    """A reply without moments."""
    return re.sub(rb"2\d\d\d-\d\d-\d\d \d\d:\d\d", b"<moment>", reply)
