"""The cases of crates/suite, of crates/edge_cases those of limits and of crates/leaf_cases those of settings: what a case asks, and what is stored as its answer."""
import difflib
import os
import re
import sys

TOP = os.path.dirname(os.path.dirname(os.path.abspath(__file__)))
# the kinds of cases that another program than suite has
ELSEWHERE = {"limits": "edge_cases", "settings": "leaf_cases"}


def path_of(file):
    """Where a file of the cases stands, or a kind of them."""
    crate = ELSEWHERE.get(file.split("/")[0], "suite")
    return os.path.join(TOP, "crates", crate, "data", file)


def text_of(file):
    """A file of the cases."""
    with open(path_of(file), encoding="utf-8", newline="\n") as it:
        return it.read()


def asked(case):
    """The parts of a case, by name, as they are written."""
    parts = re.split(r"(?:^|(?<=>>))=== (.*)\n", text_of(case), flags=re.M)
    return dict(zip(parts[1::2], parts[2::2]))


def expanded(text):
    """The bytes of a part whose words in `<<` and `>>` stand for others."""
    first, *pieces = text.split("<<")
    out = first.encode()
    for piece in pieces:
        word, _, plain = piece.partition(">>")
        if word == "end":
            break
        out += meant_by(word) + plain.encode()
    return out


def meant_by(word):
    """What a word in `<<` and `>>` stands for."""
    times, is_repeated, text = word.partition("*")
    if is_repeated:
        return "".join(text.replace("%", str(time)).replace("@", str(time + 1))
                       for time in range(int(times))).encode()
    if word.startswith("byte "):
        return bytes([int(word.split()[1])])
    return text_of(f"texts/{word}").encode()


def lines_of(text):
    """The lines of a text, each up to a line feed or the end."""
    return text.removesuffix("\n").split("\n") if text else []


def end_compared(case, told):
    """Compares the lines with those that are stored, prints what differs, and ends with 1 where
    anything does."""
    stored = asked(case)["wanted"].split("\n")[:-1]
    for line in difflib.unified_diff(stored, told, "stored", "the model", lineterm="", n=0):
        print(line)
    is_so = "as" if stored == told else "otherwise than"
    print(f"{case}: {len(told)} lines, {is_so} they are stored")
    sys.exit(stored != told)
