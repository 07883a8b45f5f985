"""The program of the benchmarks. Its sources are text here, since nothing depends on it: the gate only compiles and runs it, and `make
bench` proves it in a copy outside the repository, which is kept, so that only changes cost minutes."""

import os
import shutil
import subprocess
import sys
import tempfile

BENCH = os.path.dirname(os.path.abspath(__file__))
sys.path.append(os.path.join(os.path.dirname(BENCH), "tools"))

import copies
import house
import unproved

PROGRAM = "urna_bench"
# The extra ending of the names of its sources here.
TEXT = ".txt"

# The body of its `main`.
BODY = """match status(&rt) {
        Ok(code) => ExitCode::from(code),
        Err(_) => ExitCode::from(1),
    }"""


def crates_here():
    """The crates of the benchmarks, lowest first, each with its dependencies."""
    with open(os.path.join(BENCH, "crates.list")) as file:
        lines = [line.split("#")[0].partition(":") for line in file]
    return {name.strip(): used.split() for name, _, used in lines if name.strip()}


def placed(top):
    """Makes a copy of the program's dependencies, with its sources as crates. Returns its top."""
    own, uses = crates_here(), house.crates()
    needed = copies.below({it for used in own.values() for it in used if it in uses}, uses)
    copies.copy_crates(top, needed, ("out", "must-fail"))
    for crate in own:
        for at, _, names in os.walk(os.path.join(BENCH, crate)):
            to = os.path.join(top, "crates", os.path.relpath(at, BENCH))
            os.makedirs(to, exist_ok=True)
            for name in names:
                shutil.copyfile(os.path.join(at, name), os.path.join(to, name.removesuffix(TEXT)))
    with open(os.path.join(top, "crates.txt"), "a") as file:
        file.writelines(f"{crate}: {' '.join(used)}\n" for crate, used in own.items())
    return top


def proved():
    """The program, proved and built if something has changed."""
    top = placed(copies.folder("bench"))
    environment = {name: value for name, value in os.environ.items() if name != "CI"}
    run = subprocess.run(["rt", "ci", PROGRAM], cwd=top, env=environment, stdout=subprocess.PIPE, stderr=subprocess.STDOUT, text=True)
    if run.returncode != 0:
        sys.exit(f"{run.stdout[-4000:]}\n{PROGRAM} was not proved")
    folder = os.path.join(top, "crates", PROGRAM)
    # The proved crates are taken from there, and linked.
    run = subprocess.run(["rt", "run", "--", "nada"], cwd=folder, stdout=subprocess.PIPE, stderr=subprocess.PIPE, text=True)
    if (run.returncode, run.stdout) != (3, ""):
        sys.exit(f"{run.stdout}{run.stderr}{PROGRAM} was not built")
    return os.path.join(folder, "out", PROGRAM)


def compiled(to):
    """The program, compiled without a proof into a file."""
    with tempfile.TemporaryDirectory(prefix="urna-bench-") as top:
        return unproved.compile_crate(os.path.join(placed(top), "crates", PROGRAM), BODY, to, PROGRAM)
