"""Compiles a program without a proof, by `rt try`, into a file. `rt try` keeps no file of it, but while it runs the program is in its
working folder as `program`, so a changed `main` copies it out. It is instrumented, and therefore slower."""

import os
import subprocess
import sys

# In the copied program there is nothing to copy.
MAIN = """
fn main(rt: HostRuntime) -> ExitCode {
    let _copied = std::fs::copy(&rt, "program", "COPY");
    BODY
}
"""


def compile_crate(folder, body, to, name):
    """Compiles the program of a crate's folder, which is changed, into a file: its `main` copies it and then runs the body."""
    root = os.path.join(folder, "src", "main.rt")
    with open(root) as file:
        before, found, _ = file.read().partition("\nfn main(")
    if not found:
        sys.exit(f"{name} has no main")
    # A comment above the `main` belongs to no item then.
    kept = before.rstrip().splitlines()
    while kept and kept[-1].startswith("///"):
        kept.pop()
    with open(root, "w") as file:
        file.write("\n".join(kept) + "\n" + MAIN.replace("COPY", to).replace("BODY", body))
    run = subprocess.run(["rt", "try", "--", "nada"], cwd=folder, stdout=subprocess.PIPE, stderr=subprocess.STDOUT, text=True)
    if not os.path.exists(to):
        sys.exit(f"{run.stdout[-4000:]}\n{name} was not compiled: this kit leaves no program beside a run; build the proved program instead")
    os.chmod(to, 0o755)
    return to
