"""Runs the built program over the files of a folder. Its arguments are passed as they are; no shell is involved."""

import os
import shutil
import subprocess
import sys
from typing import NamedTuple

TOP = os.path.dirname(os.path.dirname(os.path.abspath(__file__)))
EXAMPLES = os.path.join(TOP, "examples")
sys.path += [os.path.join(TOP, it) for it in ("trials", "tools")]

# The time limit of a command, in seconds.
LONGEST = 60


class Refused(Exception):
    """A request that is refused: the status of the response, and the reason in words for the user."""

    def __init__(self, status, why):
        super().__init__(why)
        self.status, self.why = status, why


def lines_of(shown):
    """The lines of a command's output. Only a line feed ends one, whatever a name may contain."""
    lines = shown.decode(errors="replace").split("\n")
    return lines if lines[-1] else lines[:-1]


class Ended(NamedTuple):
    """A command that ended: its arguments, its status, with a signal as a negative number, and its output lines."""

    words: list
    status: int
    lines: list

    def told(self):
        return {"comando": " ".join(["urna", *self.words]), "numero": self.status, "linhas": self.lines}


class Program:
    """The built program, and the library that stops it in the middle of a write, if there is one (trials/failing.c)."""

    def __init__(self, path, library):
        self.path, self.library = path, library

    def run(self, folder, words, **asked):
        """Runs a command in a folder. The settings of the library are environment variables of the command."""
        environment = {"LD_PRELOAD": self.library, **asked} if asked else {}
        streams = {"stdin": subprocess.DEVNULL, "stdout": subprocess.PIPE, "stderr": subprocess.DEVNULL}
        run = subprocess.Popen([self.path, *words], cwd=folder, env=environment, **streams)
        try:
            shown = run.communicate(timeout=LONGEST)[0]
        except subprocess.TimeoutExpired:
            raise Refused(504, "o programa não terminou")
        finally:
            run.kill()
            run.wait()
        return Ended(words, run.returncode, lines_of(shown))


def anew(folder):
    """An empty folder. Its old content is removed."""
    shutil.rmtree(folder, ignore_errors=True)
    os.mkdir(folder)


def content(*path):
    with open(os.path.join(*path), "rb") as file:
        return file.read()


def put(data, *path):
    """Writes a file. An existing one is replaced, and a link isn't followed."""
    path = os.path.join(*path)
    if os.path.lexists(path):
        os.remove(path)
    with open(path, "xb") as file:
        file.write(data)
