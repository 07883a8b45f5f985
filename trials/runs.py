"""Runs of both programs over given files, each from its beginning to its end, with the files that it left and the calls that it made."""

import fcntl
import os
import select
import shutil
import stat
import subprocess
from typing import NamedTuple

from commands import ABRE, RECEBE, TOTAIS, Violation

# The time limit of a command, in seconds.
LONGEST = 60

# What may be under a name instead of a file.
FOLDER, FIFO = object(), object()


class Link(NamedTuple):
    to: str


class Call(NamedTuple):
    """A call of the program, as trials/failing.c logs it: its kind, the file, for a write its place, the answer, and what a write wrote."""

    kind: str
    name: str
    at: int
    answer: int
    data: bytes


class Ended(NamedTuple):
    """How a run ended: its status, its output, the files of its folder then, its calls, and the call that went another way."""

    status: int
    shown: bytes
    files: dict
    calls: list
    other: Call

    def told(self):
        return f"ended with {self.status} and showed {self.shown[-200:]!r}"


def calls_of(told):
    """The calls of the log, and the one that went another way, if any."""
    calls, other, is_other, at = [], None, False, 0
    while at < len(told):
        end = told.index(b"\n", at)
        kind, _, rest = told[at:end].decode().partition(" ")
        name, place, answer = rest.rsplit(" ", 2)
        put = max(int(answer), 0) if kind == "write" else 0
        call = Call(kind, name, int(place), int(answer), told[end + 1 : end + 1 + put])
        at = end + 1 + put
        if kind != "fault":
            calls.append(call)
            other = call if is_other and not other else other
        is_other = kind == "fault"
    return calls, other


def put_down(path, what):
    """Makes a file of these bytes, or what else is to be there."""
    if what is FOLDER:
        os.mkdir(path)
    elif what is FIFO:
        os.mkfifo(path)
    elif isinstance(what, Link):
        os.symlink(what.to, path)
    else:
        with open(path, "wb") as file:
            file.write(what)


def found_at(path):
    """What is there."""
    mode = os.lstat(path).st_mode
    if stat.S_ISDIR(mode):
        return FOLDER
    if stat.S_ISFIFO(mode):
        return FIFO
    if stat.S_ISLNK(mode):
        return Link(os.readlink(path))
    with open(path, "rb") as file:
        return file.read()


def found_in(folder):
    return {name: found_at(os.path.join(folder, name)) for name in os.listdir(folder)}


def fill(folder, files):
    for name, what in files.items():
        put_down(os.path.join(folder, name), what)


def read_to_end(start, stdout):
    """Starts a run and returns it at its end, with what went through its display, if that is a pipe."""
    run = start(stdout)
    try:
        return run, run.communicate(timeout=LONGEST)[0] or b""
    finally:
        run.kill()
        run.wait()


def read_front(start, most):
    """Starts a run whose display closes after this many bytes, or before it begins, and returns it at its end."""
    reader, writer = os.pipe()
    # So that the program gets at most a page ahead of its reader.
    fcntl.fcntl(writer, fcntl.F_SETPIPE_SZ, 4096)
    with open(reader, "rb", buffering=0) as pipe:
        if most == 0:
            pipe.close()
        run = start(writer)
        os.close(writer)
        while most > 0 and select.select([pipe], [], [], LONGEST)[0] and (piece := pipe.read(most)):
            most -= len(piece)
    return run


def wait_for(run):
    try:
        run.wait(timeout=LONGEST)
    finally:
        run.kill()
        run.wait()
    return run


class Runs:
    """Runs of both programs. Those of the current trial are kept, so that they can be looked at."""

    def __init__(self, program, ledger, work, library):
        self.program, self.ledger, self.work, self.library = program, ledger, work, library
        self.folder, self.told = os.path.join(work, "folder"), os.path.join(work, "told")
        self.trial = []

    def program_of(self, words):
        """The program that has this command."""
        return self.ledger if words[0] in (ABRE[0], RECEBE[0], TOTAIS[0]) else self.program

    def environment(self, fail, tells):
        added = {"URNA_FAIL": fail} if fail else {}
        if tells:
            added["URNA_TELL"] = self.told
        return {**os.environ, "LD_PRELOAD": self.library, **added} if added else None

    def run(self, files, words, fail=None, tells=False, display=subprocess.PIPE, closes=None):
        """Runs a command in a folder of its own. `fail` makes a call go another way; `tells` logs the calls; `display` replaces standard
        output; `closes` is the number of bytes after which it closes."""
        shutil.rmtree(self.folder, ignore_errors=True)
        os.mkdir(self.folder)
        fill(self.folder, files)
        return self.run_in(self.folder, files, words, fail, tells or bool(fail), display, closes)

    def run_in(self, folder, files, words, fail=None, tells=False, display=subprocess.PIPE, closes=None, prefix=()):
        """The same in a folder that has these files, after the words of a program that starts others."""
        self.trial.append((files, words, fail, None))
        with open(self.told, "wb"):
            pass
        environment = self.environment(fail, tells)

        def start(stdout):
            return subprocess.Popen([*prefix, self.program_of(words), *words], cwd=folder, stdin=subprocess.DEVNULL, stdout=stdout, env=environment)

        try:
            run, shown = read_to_end(start, display) if closes is None else (wait_for(read_front(start, closes)), b"")
        except subprocess.TimeoutExpired:
            raise Violation(f"{' '.join(words)} did not end")
        calls, other = self.calls()
        if closes is not None:
            # The pipe accepted more than was read from it.
            shown = b"".join(call.data for call in calls if call.kind == "write" and call.name == "display")
        ended = Ended(run.returncode, shown, found_in(folder), calls, other)
        self.trial[-1] = (files, words, fail, ended)
        return ended

    def calls(self):
        with open(self.told, "rb") as file:
            return calls_of(file.read())

    def forget(self):
        """The trial is over."""
        self.trial.clear()

    def keep(self):
        """Saves the runs of the trial, each with its files before and after it. Returns the folder."""
        kept = os.path.join(self.work, "trial")
        os.mkdir(kept)
        for number, (files, words, fail, ended) in enumerate(self.trial, 1):
            folder = os.path.join(kept, str(number))
            for name, held in (("before", files), ("behind", ended.files if ended else {})):
                os.makedirs(os.path.join(folder, name))
                fill(os.path.join(folder, name), held)
            before = f"LD_PRELOAD={self.library} URNA_FAIL='{fail}' " if fail else ""
            with open(os.path.join(folder, "command"), "w") as file:
                name = "urna" if self.program_of(words) == self.program else "urna_ledger"
                file.write(f"{before}{name} {' '.join(words)}\n")
                file.write(f"ended with {ended.status}, showed {ended.shown!r}\n" if ended else "did not end\n")
        return kept
