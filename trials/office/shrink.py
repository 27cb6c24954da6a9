"""Cuts steps that differ down to the fewest that still do, in the same way. What can be left out is tried in
halves, then in quarters, and so on down to single steps. The first step, which has the settings, stays."""
import re


def label(step, what):
    """What makes a difference the same: the kind of its step and of its ask, and how the telling begins, but
    for numbers."""
    ask = step.get("ask", {})
    return step["do"], ask.get("way"), ask.get("name"), re.sub("[0-9]+", "N", re.split("[ (]", what)[0])


def fewest(steps, place, differs, told=print):
    """The steps that are left of those up to this place. `differs` runs steps and answers the place of the
    first that differs, or None."""
    steps = first_guess(steps[:place + 1], differs)
    size = len(steps) // 2
    while size >= 1:
        steps = without(steps, size, differs)
        told(f"{len(steps)} steps, without each {size}", flush=True)
        size = min(size // 2, len(steps) // 2) if size > 1 else 0
    return inside(steps, differs)


def first_guess(steps, differs):
    """Settings, queues and what names the same request are often enough."""
    names = numbers_in(steps[-1])
    few = [it for it in steps[:-1] if it["do"] == "settings" or is_queue(it) or names & numbers_in(it)]
    place = differs([*few, steps[-1]]) if names else None
    if place is not None:
        return [*few, steps[-1]][:place + 1]
    return steps if differs(steps) is not None else []


def is_queue(step):
    return step["do"] == "ask" and step["ask"]["name"] == "queue"


def asks_in(step):
    return [step["ask"]] if "ask" in step else step.get("asks", []) + step.get("between", [])


def numbers_in(step):
    found = set()
    for ask in asks_in(step):
        found |= {it for it in [*ask["words"], ask["key"]] if type(it) is int}
    return found


def without(steps, size, differs):
    """The steps but for those pieces of this size without which they differ too. The last one stays."""
    start = 1
    while start < len(steps) - 1:
        fewer = steps[:start] + steps[min(start + size, len(steps) - 1):]
        place = differs(fewer)
        if place is None:
            start += size
        else:
            steps = fewer[:place + 1]
    return steps


def inside(steps, differs):
    """The same with fewer asks in those steps that have several."""
    for place, step in enumerate(steps):
        for name in ("between", "asks"):
            for ask in list(step.get(name, [])):
                fewer = {**step, name: [it for it in step[name] if it is not ask]}
                if fewer["asks"] and differs([*steps[:place], fewer, *steps[place + 1:]]) is not None:
                    steps, step = [*steps[:place], fewer, *steps[place + 1:]], fewer
    return steps
