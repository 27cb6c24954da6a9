"""The lists by lot of crates/suite, made as crates/suite/src/lots.rt does, and what they
come to by the rules."""
import rules
import settings
import words
from stored import asked, expanded, lines_of

CASE = "list/lists-of-commands-by-lot"


class Lots:
    """The lines of which commands are made, the keys with their words, and the two counts."""

    def __init__(self):
        parts = {name: expanded(text).decode() for name, text in asked(CASE).items()}
        lines = lines_of(parts["lots"])
        self.settings = parts["settings"]
        self.lines = [line.split("|")[0] for line in lines if "|" in line]
        self.keys = [line.split(" ") for line in lines if "|" not in line]
        self.lists, self.length = map(int, parts["lists"].split())

    def made(self, lists):
        """So many lists, each of places of lines and the commands made of them."""
        number = 1
        for _ in range(lists):
            made = []
            for i in range(self.length):
                number = next_number(number)
                place = number // 65536 % min(i + 1, len(self.lines))
                line = self.lines[place]
                for key, *choice in self.keys:
                    number = next_number(number)
                    line = line.replace(key, choice[number // 65536 % len(choice)])
                made.append((place, line))
            yield made

    def told(self, lists):
        """How often each line is accepted in so many lists, and how often each refusal comes."""
        known = settings.Settings(self.settings)
        accepted, refused = [0] * len(self.lines), [0] * 17
        for made in self.made(lists):
            desk = rules.Desk(known)
            for place, line in made:
                try:
                    desk.ask(*words.asked_by(line))
                    accepted[place] += 1
                except rules.Refused as refusal:
                    refused[refusal.number] += 1
        told = [f"accepted {times}: {line}" for line, times in zip(self.lines, accepted)]
        told += [f"refused {number}: {refused[number]}" for number in range(1, 17)]
        return told + ["replies with another text: 0", "texts and replies without memory: 0"]


def next_number(number):
    return (number * 1664525 + 1013904223) % 4294967296
