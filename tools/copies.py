"""Copies of the repository outside of it, where `rt` works without touching the tree: for the programs, for the wrong bodies that the
gate leaves out, and for the benchmarks. A copy is kept, so that only changes are proved again."""

import filecmp
import hashlib
import os
import shutil

import house


def folder(what):
    """The folder of this checkout's copy for a purpose; it is created."""
    cache = os.environ.get("XDG_CACHE_HOME") or os.path.join(os.path.expanduser("~"), ".cache")
    checkout = hashlib.sha256(house.TOP.encode()).hexdigest()[:12]
    made = os.path.join(cache, "urna", f"{what}-{checkout}")
    os.makedirs(made, exist_ok=True)
    return made


def below(crates, uses):
    """The crates and all their dependencies."""
    found, left = set(), list(crates)
    while left:
        crate = left.pop()
        if crate not in found:
            found.add(crate)
            left += [it for it in uses[crate] if it in uses]
    return found


def mirror(one, other, left_out=()):
    """Makes a folder equal to another one, except for names that are left out. Equal files aren't touched."""
    os.makedirs(other, exist_ok=True)
    wanted = {it for it in os.listdir(one) if it not in left_out}
    for name in os.listdir(other):
        if name not in wanted and name not in left_out:
            path = os.path.join(other, name)
            shutil.rmtree(path) if os.path.isdir(path) else os.remove(path)
    for name in wanted:
        source, target = os.path.join(one, name), os.path.join(other, name)
        if os.path.isdir(source):
            mirror(source, target, left_out)
        elif not (os.path.exists(target) and filecmp.cmp(source, target, shallow=False)):
            shutil.copyfile(source, target)


def copy_crates(to, crates, left_out=("out",)):
    """Copies these crates of the repository and their list. Returns the top of the copy."""
    uses = house.crates()
    os.makedirs(os.path.join(to, "crates"), exist_ok=True)
    for name in os.listdir(os.path.join(to, "crates")):
        if name not in crates:
            shutil.rmtree(os.path.join(to, "crates", name))
    for crate in crates:
        mirror(os.path.join(house.TOP, "crates", crate), os.path.join(to, "crates", crate), left_out)
    with open(os.path.join(to, "crates.txt"), "w") as file:
        file.writelines(f"{crate}: {' '.join(used)}\n" for crate, used in uses.items() if crate in crates)
    shutil.copyfile(os.path.join(house.TOP, "HANDLES"), os.path.join(to, "HANDLES"))
    # rt needs the top of a repository.
    os.makedirs(os.path.join(to, ".git"), exist_ok=True)
    return to
