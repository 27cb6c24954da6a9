"""The pages as they are written: their blocks, their headings, and where their links lead."""
import os
import re

from tally import TOP

PAGES = ["README.md", "CONTRIBUTING.md", "CHANGELOG.md"]
PAGES += sorted(f"{folder}/{name}" for folder in ("docs", "bench", "trials", "models", "crates/suite")
                if os.path.isdir(f"{TOP}/{folder}")
                for name in os.listdir(f"{TOP}/{folder}") if name.endswith(".md"))


def text_of(page):
    with open(f"{TOP}/{page}", encoding="utf-8") as it:
        return it.read()


def blocks_of(page):
    """The blocks of a page, each with the text before it."""
    parts = re.split(r"^```\w*\n(.*?)^```\n", text_of(page), flags=re.S | re.M)
    return list(zip(parts[::2], parts[1::2]))


def one_line(text):
    return " ".join(text.split())


def quotes():
    """The blocks that a page shows as a part of a file, which the paragraph before them names: the
    page, the block, the file, and whether it stands there."""
    for page in PAGES:
        for before, block in blocks_of(page):
            said = before.split("\n\n")[-2] if "\n\n" in before else ""
            named = re.findall(r"`((?:crates|examples|docs)/[\w/.-]+\.\w+)`", said)
            is_typed = block.startswith("$") and not named[-1:] == ["docs/start.md"]
            if named and not is_typed and not re.search(r"^%%$", block, flags=re.M):
                yield page, block, named[-1], one_line(block) in one_line(text_of(named[-1]))


def anchor(heading):
    kept = re.sub(r"[^\w\- ]", "", heading.lower().strip())
    return kept.replace(" ", "-")


def links():
    """The links of the pages within the repository: the page, the link, and whether there is such a
    file, with such a heading. A link whose text is a name of the code leads to a file that has it."""
    for page in PAGES:
        for said, to in re.findall(r"\[([^\]]*)\]\(([^)\s]+)\)", text_of(page)):
            if to.startswith("http"):
                continue
            file, _, part = to.partition("#")
            path = os.path.normpath(f"{os.path.dirname(page)}/{file}") if file else page
            there = os.path.exists(f"{TOP}/{path}")
            if there and part:
                heads = re.findall(r"^#+ (.*)$", text_of(path), flags=re.M)
                there = part in [anchor(it) for it in heads]
            if there and re.search(r"\.(?:rt|antt)$", path) and re.fullmatch(r"`[\w:]+`", said):
                there = re.search(rf"\b{said.strip('`').split('::')[-1]}\b", text_of(path)) is not None
            yield page, to, there
