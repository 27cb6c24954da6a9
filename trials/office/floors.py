"""What a month has to have met, or it has seen too little."""
from office.hostile import EACH
from office.report import WAYS
from office.seldom import BY_ROLE, EMPTY, UNTOLD

FLOORS = {"kills": 20, "full disks": 3, "copies restored": 5, "settings changed": 1, "bursts": 3,
          "ended by TERM": 3, "ended by stop": 3, "two at once": 20, "killed: without an answer, and done": 1,
          "killed: without an answer, and not done": 1, "silent and slow clients": 10, "strange messages": 80,
          "ended by their time": 20, "ended by new settings": 1, "signed out": 20,
          "forms sent from pages of before": 50, "signed out in another tab": 3, "hostile texts in a field": 200,
          "fields with hostile texts": len(EACH), "different refusals": 50}
SELDOM = {UNTOLD: 10, BY_ROLE: 3, EMPTY: 10}


def lacking(figures):
    """What a run of a month or more has met too seldom."""
    met = figures.faults + figures.sessions
    met["fields with hostile texts"] = len({(name, field) for _, name, field in figures.fields})
    met["different refusals"] = len(figures.refusals())
    some = [(name, met[name], least) for name, least in FLOORS.items()]
    some += [(f"{kind}, {name}", figures.seldom[kind, way], least)
             for kind, least in SELDOM.items() for way, name in WAYS.items()]
    return [f"{name}: {count}, and not at least {least}" for name, count, least in some if count < least]
