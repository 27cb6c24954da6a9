"""The libraries that changes are tried over: they have to be of the files that stand there."""
import contextlib
import os
import shutil
import subprocess

from wrong.kit import KIT, LIB, RT


def newest(crate):
    """When a file or a folder of the crate that a library is made of was last changed."""
    found = 0
    for part in LIB.PARTS:
        for at, _, names in os.walk(f"{crate.folder}/{part}"):
            for path in [at, *[f"{at}/{name}" for name in names]]:
                found = max(found, os.lstat(path).st_ctime)
    return found


def is_left_by_ci(crate):
    """Whether the library is one that `rt ci` left, which has no stamp, and made after the last
    change of what it is made of."""
    if not os.path.isdir(crate.rlib) or os.path.exists(f"{os.path.dirname(crate.rlib)}/stamp"):
        return False
    root = os.path.dirname(os.path.dirname(crate.folder))
    listed = [f"{root}/crates.txt", f"{root}/HANDLES", f"{KIT}/KIT-ID"]
    since = max(os.lstat(it).st_ctime for it in listed if os.path.lexists(it))
    made_of = [since, *[newest(it) for it in [crate, *crate.below()]]]
    return os.lstat(crate.rlib).st_mtime > max(made_of)


def are_ready(crate):
    """Whether each library below the crate is of the files that stand there: all as the crate's own
    commands build them, or all as `rt ci` leaves them, since these two don't go together."""
    below = crate.below()
    return all(it.is_built() for it in below) or all(is_left_by_ci(it) for it in below)


def marks(crate):
    """What tells whether a library below was built anew meanwhile."""
    found = []
    for it in crate.below():
        with contextlib.suppress(OSError):
            st = os.stat(f"{it.rlib}/format")
            found.append((it.name, st.st_ino, st.st_size, st.st_mtime_ns))
    return found


def copied(crate, to):
    """Copies what a check reads of a crate to the folder of the same name there."""
    for part in LIB.PARTS:
        if os.path.isdir(f"{crate.folder}/{part}"):
            shutil.copytree(f"{crate.folder}/{part}", f"{to}/crates/{crate.name}/{part}")


def list_in(root, room, crates):
    """Writes the lines of these crates as the crates.txt of the copy."""
    names = {it.name for it in crates}
    with open(f"{root}/crates.txt", encoding="utf-8") as it:
        lines = [line for line in it.read().split("\n") if line.partition(":")[0].strip() in names]
    with open(f"{room}/crates.txt", "w", encoding="utf-8") as it:
        it.write("\n".join([*lines, ""]))


def given_by_ci(root, crates, room):
    """These crates in a copy, over the libraries that `rt ci` proves and builds there from nothing;
    None where it fails."""
    below = list({it.name: it for crate in crates for it in crate.below()}.values())
    os.makedirs(f"{room}/.git")
    if os.path.exists(f"{root}/HANDLES"):
        shutil.copyfile(f"{root}/HANDLES", f"{room}/HANDLES")
    for it in below:
        copied(it, room)
    list_in(root, room, below)
    how = {"stdin": subprocess.DEVNULL, "stdout": subprocess.PIPE, "stderr": subprocess.STDOUT}
    ran = subprocess.run(["rt", "ci"], cwd=room, errors="replace", **how)
    if ran.returncode:
        print("\n".join(ran.stdout.split("\n")[-30:]))
        return None
    for it in crates:
        if it not in below:
            copied(it, room)
    list_in(root, room, [*below, *crates])
    made = {it.name: it for it in LIB.crates_below(room)}
    return [made[it.name] for it in crates]
