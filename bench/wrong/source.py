"""What stands where in a text of Rattle: its code without comments, and the function that holds a
place."""
import re
from typing import NamedTuple, Optional

# A comment, a literal of characters, or a run of blanks. All else is code.
PIECE = re.compile(
    r"""(?P<comment>//[^\n]*|/\*)
    |(?<!\w)(?P<raw>b?r(?P<marks>\#*)"(?s:.*?)"(?P=marks))
    |(?P<string>b?"(?:\\(?s:.)|[^"\\])*")
    |(?P<char>b?'(?:\\x[0-9a-fA-F]{2}|\\u\{[^}\n]*\}|\\[^\n]|[^\\'\n])')
    |(?P<blank>\s+)""",
    re.X,
)
FUNCTION = re.compile(r"(?m)^( *)(?:pub(?:\([^)\n]*\))? )?(?:(?:const|unsafe) )*fn (\w+)")
BLOCK = re.compile(r"(?m)^( *)(?:pub(?:\([^)\n]*\))? )?(?:unsafe )?(?:impl|trait)\b")


class Function(NamedTuple):
    """A function of a file: where it begins, where its body does, and where it ends."""

    name: str
    # How rt writes the impl or the trait that it stands in, as a pattern; None for one that stands
    # in none.
    owner: Optional[str]
    start: int
    body: int
    end: int
    is_const: bool


def pieces(text):
    """The pieces of a text in their order: the kind of each, where it begins and where it ends."""
    at = 0
    while at < len(text):
        found = PIECE.search(text, at)
        start = found.start() if found else len(text)
        if start > at:
            yield "code", at, start
        if not found:
            return
        at = found.end()
        if found["comment"] == "/*":
            at = comment_end(text, found.start())
        kind = "comment" if found["comment"] else "blank" if found["blank"] else "literal"
        yield kind, start, at


def comment_end(text, at):
    """Where the comment ends that begins here, with those that stand in it."""
    depth = 0
    for mark in re.compile(r"/\*|\*/").finditer(text, at):
        depth += 1 if mark[0] == "/*" else -1
        if not depth:
            return mark.end()
    return len(text)


def code_of(text):
    """The words and literals of a text, without comments and layout."""
    found = []
    for kind, start, end in pieces(text):
        if kind == "code":
            found += re.findall(r"\w+|[^\w\s]", text[start:end])
        elif kind == "literal":
            found.append(text[start:end])
    return found


def blanked(text):
    """The text with a blank for each character of a comment or a literal, so that all else stands
    where it stood."""
    made = []
    for kind, start, end in pieces(text):
        part = text[start:end]
        made.append(re.sub(r"[^\n]", " ", part) if kind in ("comment", "literal") else part)
    return "".join(made)


def lines_from(text, at):
    """The lines from this place on: where each begins, and what it holds."""
    while at < len(text):
        end = text.find("\n", at)
        end = len(text) if end < 0 else end
        yield at, text[at:end].rstrip()
        at = end + 1


def body_of(code, start, indent):
    """Where the body of the function begins and ends that begins here, or None where it has no
    body. It goes by the layout that `rt fmt` writes: the braces of a body stand as far in as the
    function does, and those of a clause further."""
    opened = None
    for at, line in lines_from(code, start):
        outer = at == start or line and len(line) - len(line.lstrip()) <= indent
        if opened is None:
            if outer and line.endswith("{}"):
                return at + len(line) - 2, at + len(line)
            if outer and at == start and "{" in line and line.endswith("}"):
                return at + line.index("{"), at + len(line)
            if outer and line.endswith("{"):
                opened = at + len(line) - 1
            elif line.endswith(";"):
                return None
        elif outer and at > start:
            return opened, at + len(line)
    return None


def without_angles(text):
    """The text without what stands between `<` and `>`."""
    made, depth = [], 0
    for mark in text.replace("->", "  "):
        depth += (mark == "<") - (mark == ">" and depth > 0)
        if not depth and mark != ">":
            made.append(mark)
    return "".join(made)


def owner_in(head):
    """How rt writes the impl or the trait with this head, as a pattern: a type with its arguments,
    and the trait with its."""
    words = re.split(r"\bwhere\b", without_angles(head))[0].split(" for ")
    named = [re.findall(r"\w+", it.partition(":")[0] if "trait" in it else it)[-1] for it in words]
    if len(named) == 1:
        return rf"{named[0]}(?:\+\w+)*"
    if words[1].lstrip().startswith("("):
        # (of a tuple the names of its types stand one after the other, with their arguments)
        return rf"Tuple\d+\w*{named[1]}\w*{named[0]}\w*"
    return rf"(?!Tuple\d)\w*{named[1]}(?:\+\w+)*{named[0]}\w*"


def functions(text):
    """The functions with a body in a text, but for those that stand in another one."""
    code = blanked(text)
    blocks = []
    for it in BLOCK.finditer(code):
        opens = code.find("{", it.end())
        end = code.find(f"\n{it[1]}}}", opens)
        if opens >= 0 and end >= 0:
            blocks.append((it.start(), end, code[it.start() : opens]))
    found = []
    for it in FUNCTION.finditer(code):
        span = body_of(code, it.start(), len(it[1]))
        if span and (not found or it.start() >= found[-1].end):
            around = [head for start, end, head in blocks if start < it.start() < end]
            owner = owner_in(around[-1]) if around else None
            is_const = re.search(r"\bconst\b", it[0]) is not None
            found.append(Function(it[2], owner, it.start(), *span, is_const))
    return found


def function_at(text, start, end):
    """The function that holds this stretch of a text, or None."""
    return next((it for it in functions(text) if it.start <= start and end <= it.end), None)


def module_of(file):
    """The module of a file of src/, or "" for the crate's root."""
    path = re.sub(r"\.rt$", "", file[len("src/") :])
    path = re.sub(r"/mod$", "", path)
    return "" if path in ("lib", "main") else path.replace("/", "::")
