"""The model of the rules, made quick: rights, due moments and what searches look at are kept until they can
change. Each change of a request makes an entry, so what was found for a number of entries stays true."""
import collections
import functools

import finding
import rules
from settings import Settings


class Known(Settings):
    """Settings that keep who holds what."""

    def __init__(self, text):
        super().__init__(text)
        self.held, self.text = {}, text

    def holds(self, person, right, queue, roles=()):
        key = (person, right, queue, frozenset(roles))
        if key not in self.held:
            self.held[key] = super().holds(person, right, queue, roles)
        return self.held[key]


class Desk(rules.Desk):
    """A desk that keeps due moments, who may show what, and what of it a search looks at."""

    def __init__(self, settings):
        super().__init__(settings)
        self.dues, self.shown, self.sights = {}, collections.defaultdict(dict), {}

    def with_settings(self, settings):
        """The same desk after a start with other settings."""
        self.settings, self.dues, self.shown, self.sights = settings, {}, collections.defaultdict(dict), {}
        for queue in self.by_name.values():
            queue.lifecycle = settings.lifecycles.get(queue.lifecycle.name, queue.lifecycle)

    def due(self, request):
        count, due = self.dues.get(request.number, (None, None))
        if count != len(request.entries):
            due = super().due(request)
            self.dues[request.number] = len(request.entries), due
        return due

    def may_show(self, caller, request):
        of = self.shown[request.number]
        count, may = of.get(caller, (None, None))
        if count != len(request.entries):
            may = super().may_show(caller, request)
            of[caller] = len(request.entries), may
        return may

    def forget(self, numbers):
        """What was kept of these requests is found anew."""
        for number in numbers:
            self.dues.pop(number, None)
            self.shown.pop(number, None)
            for sights in self.sights.values():
                sights.pop(number, None)


def sights(desk, caller):
    """What models/finding.py makes anew at each search."""
    kept = desk.sights.setdefault(caller, {})
    for request in desk.requests:
        count, sight = kept.get(request.number, (None, None))
        if count != len(request.entries):
            sight = sight_of(desk, caller, request)
            kept[request.number] = len(request.entries), sight
        if sight:
            yield sight


def sight_of(desk, caller, request):
    """What a search looks at, of a request that the caller may show; else None."""
    if not desk.may_show(caller, request):
        return None
    return finding.Found(request, desk.due(request), finding.told(desk, caller, request)[-1].moment)


finding.sights = sights
finding.folded = functools.lru_cache(1 << 17)(finding.folded)

__all__ = ["Desk", "Known", "finding", "rules"]
