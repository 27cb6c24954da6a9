"""What a page tells beside its facts: no subject of a request that its reader may not see stands anywhere in it."""
import html
import re

from office.texts import THINGS, TROUBLES

SUBJECT = re.compile(f"(?:{'|'.join(map(re.escape, THINGS))}) (?:{'|'.join(map(re.escape, TROUBLES))}) [0-9]+")


class Subjects:
    """The requests of the model by their subjects."""

    def __init__(self, desk):
        self.desk, self.count, self.numbers = desk, 0, {}

    def of(self, subject):
        """The requests that have it. What was taken back meanwhile has none."""
        requests = self.desk.requests
        for request in requests[self.count:]:
            self.numbers.setdefault(request.subject, set()).add(request.number)
        self.count = len(requests)
        found = [self.desk.request_of(it) for it in self.numbers.get(subject, ())]
        return [it for it in found if it.subject == subject]

    def hidden(self, by, page):
        """The subjects on a page that its reader may not see."""
        for subject in sorted(set(SUBJECT.findall(html.unescape(page)))):
            of = self.of(subject)
            if of and not any(self.desk.may_show(by, it) for it in of):
                yield subject
