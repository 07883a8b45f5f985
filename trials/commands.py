"""Shared by the trials of this folder: commands that end on their own, files, and assertions."""

import fcntl
import os
import shutil
import subprocess
import time

CARGA = ["carga", "tables", "roll", "1", "42"]
VOTA = ["vota", "tables", "roll", "keys", "o"]
EMITE = ["emite", "tables", "roll", "p"]
TOTALIZA = ["totaliza", "tables", "list"]
CERTIFICA, VERIFICA = ["certifica", "tables", "list", "13", "o"], ["verifica", "tables", "list", "13", "c.cer"]
# The word of each flash, and the command that loads it from the other one.
WORD = ("INTERNA", "EXTERNA")
REPOE = [["repoe", "tables", "roll", word.lower()] for word in WORD]
# The commands of urna_ledger.
ABRE, RECEBE, TOTAIS = ["abre", "tables"], ["recebe", "tables", "list"], ["totais", "tables"]


class Violation(Exception):
    pass


def want(holds, what):
    if not holds:
        raise Violation(what)


def started(program, words, name="urna", closed=(), env=None):
    """Starts a command that ends on its own, under this name and with these descriptors closed. It reads no line ahead of those asked
    for.

        Standard error is among its lines, and is expected to be empty.

    """

    def close():
        for descriptor in closed:
            os.close(descriptor)

    streams = {"stdin": subprocess.DEVNULL, "stdout": subprocess.PIPE, "stderr": subprocess.STDOUT, "bufsize": 0}
    return subprocess.Popen([name, *words], executable=program, preexec_fn=close, env=env, **streams)


def answer(run):
    """The output of a command up to its end, which must come within a minute."""
    try:
        return run.communicate(timeout=60)[0].decode()
    except subprocess.TimeoutExpired:
        run.kill()
        raise Violation(f"{run.args} did not end")


def killed(run, lines, seconds):
    """Kills a command the given time after the given number of lines, if it still runs. Returns its output."""
    pipe = run.stdout.fileno()
    # A small pipe, so that the program can't get far ahead of the lines that were read.
    fcntl.fcntl(pipe, fcntl.F_SETPIPE_SZ, 4096)
    shown = b""
    while shown.count(b"\n") < lines:
        piece = os.read(pipe, 256)
        if not piece:
            break
        shown += piece
    time.sleep(seconds)
    run.kill()
    while piece := os.read(pipe, 4096):
        shown += piece
    run.wait()
    run.stdout.close()
    return shown


def ended(program, words, **how):
    """The status of a command, and its output."""
    run = started(program, words, **how)
    shown = answer(run)
    return run.returncode, shown


def want_run(found, status, shown, what):
    want(found == (status, shown), f"{what}: ended with {found[0]} and showed {found[1][:200]!r}")


def content(name):
    with open(name, "rb") as file:
        return file.read()


def place(names, contents):
    """Each file with this content, or missing if there is none."""
    for name, data in zip(names, contents):
        if os.path.exists(name):
            os.remove(name)
        if data is not None:
            with open(name, "wb") as file:
                file.write(data)


def compiled(folder):
    """The library of failing.c, if there is a C compiler."""
    source = os.path.join(os.path.dirname(os.path.abspath(__file__)), "failing.c")
    made = os.path.join(folder, "failing.so")
    compiler = shutil.which("cc")
    if not compiler or subprocess.run([compiler, "-shared", "-fPIC", "-O1", "-o", made, source]).returncode != 0:
        return None
    return made


def failing(library, fail):
    """The environment that makes a call fail or differ (trials/failing.c)."""
    return {**os.environ, "LD_PRELOAD": library, "URNA_FAIL": fail}
