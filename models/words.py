"""Lines and the commands that they spell, by docs/desk.md."""
import re

from rules import FORMS

GREATEST = 4294967295
QUOTED = re.compile(r'"((?:[^"\\]|\\["\\nt])*)"(?= |$)')
PLAIN = re.compile(r'[^ "]+(?= |$)')
INVERSE = {
    "DependedOnBy": "DependsOn", "HasMember": "MemberOf", "ReferredToBy": "RefersTo"}
KINDS = ["DependsOn", "MemberOf", "RefersTo"]
ROLES = ["requestor", "cc", "admincc"]


class BadWords(Exception):
    pass


def words_of(line):
    """The words of a line."""
    words, place = [], 0
    while place < len(line):
        if line[place] == " ":
            place += 1
            continue
        quoted = QUOTED.match(line, place)
        found = quoted or PLAIN.match(line, place)
        if not found:
            raise BadWords
        words.append(unescaped(quoted.group(1)) if quoted else found.group())
        place = found.end()
    return words


def unescaped(text):
    return re.sub(r"\\(.)", lambda it: {"n": "\n", "t": "\t"}.get(it.group(1), it.group(1)), text)


def number_of(word):
    """The number that a word of 1 to 10 digits says."""
    if not re.fullmatch("[0-9]{1,10}", word) or int(word) > GREATEST:
        raise BadWords
    return int(word)


def one_of(names):
    def read(word):
        if word not in names:
            raise BadWords
        return word
    return read


READ = {"id": number_of, "role": one_of(ROLES), "kind": one_of([*KINDS, *INVERSE]), "name": str}


def asked_by(line):
    """The moment, the caller, the command's name and what it names, of a line."""
    words = words_of(line)
    if len(words) < 3:
        raise BadWords
    at, caller, *command = words
    return number_of(at), caller, *command_of(command)


def command_of(words):
    """A command's name, and what it names in order."""
    name, *rest = words
    if name not in FORMS:
        raise BadWords
    plain, status, takes_away = without_options(name, rest)
    named = read_by(FORMS[name].split(), plain)
    if name == "create":
        queue, subject, *requestors = named
        return name, [queue, subject, status, requestors]
    if name == "resolve":
        return "status", [*named, "resolved"]
    if name == "link":
        first, kind, other = named
        if kind in INVERSE:
            first, kind, other = other, INVERSE[kind], first
        return "unlink" if takes_away else "link", [first, kind, other]
    return name, named


def without_options(name, words):
    """The words that are no options, the status of `--status`, and whether `-d` is there."""
    plain, status, takes_away, words = [], None, False, list(words)
    while words:
        word = words.pop(0)
        if word == "--":
            return plain + words, status, takes_away
        if word.startswith("--status") and name == "create" and status is None:
            status = value_of(word, words)
        elif word == "-d" and name == "link" and not takes_away:
            takes_away = True
        elif word.startswith("-") and word != "-":
            raise BadWords
        else:
            plain.append(word)
    return plain, status, takes_away


def value_of(option, words):
    """The value of the option `--status`: after an equals sign, or else the next word."""
    name, is_joined, value = option.partition("=")
    if name != "--status" or not is_joined and (not words or words[0].startswith("-")):
        raise BadWords
    return value if is_joined else words.pop(0)


def read_by(form, words):
    """What the words name, by the form of their command."""
    least = sum(part[-1] not in "?*" for part in form)
    most = len(words) if form and form[-1].endswith("*") else len(form)
    if not least <= len(words) <= most:
        raise BadWords
    kinds = form + form[-1:] * len(words)
    return [READ[kind.rstrip("?*")](word) for kind, word in zip(kinds, words)]
