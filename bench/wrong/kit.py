"""The toolchain's command `rt`, read as a module: its own reading of crates.txt, the words of its
checks, and whether a library is of the files that stand there."""
import importlib.machinery
import importlib.util
import os
import subprocess
import sys


def folder():
    """The toolchain's folder, where the page stands that `rt doc` names."""
    try:
        ran = subprocess.run(["rt", "doc"], capture_output=True, text=True)
    except OSError as error:
        sys.exit(f"edits: the toolchain's command rt cannot be run: {error}")
    found = os.path.dirname(ran.stdout.strip())
    if ran.returncode or not os.path.isfile(f"{found}/bin/rt"):
        sys.exit(f"edits: rt doc names no folder of the toolchain: {ran.stderr.strip()[:200]}")
    return found


def load():
    """The module of the toolchain's `rt`, wherever the one on the path leads."""
    file = f"{folder()}/bin/rt"
    loader = importlib.machinery.SourceFileLoader("rt_of_kit", file)
    made = importlib.util.module_from_spec(importlib.util.spec_from_loader("rt_of_kit", loader))
    loader.exec_module(made)
    return made


sys.dont_write_bytecode = True
RT = load()
LIB = RT.rtlib
KIT = LIB.KIT
