"""A wrong rule in the model, by its name in models/wrong-rules, so that the run has to find it."""
import importlib.machinery
import importlib.util
import os

from tally import TOP


def put_in(name):
    """Makes the model anew with the wrong rule of that name. Before anything takes from the model."""
    path = os.path.join(TOP, "models", "wrong")
    loader = importlib.machinery.SourceFileLoader("models_wrong", path)
    module = importlib.util.module_from_spec(importlib.util.spec_from_loader("models_wrong", loader))
    loader.exec_module(module)
    found = [it for it in [*filter(None, module.wrong_conditions()), *module.edits()] if it.name == name]
    if len(found) != 1:
        raise SystemExit(f"{len(found)} wrong rules are named {name!r}")
    module.put_in(found[0])
