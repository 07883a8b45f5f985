"""Runs of the tools for paper and signatures."""

import os
import shutil
import subprocess

from commands import want

TOP = os.path.dirname(os.path.dirname(os.path.abspath(__file__)))
EXAMPLES = os.path.join(TOP, "examples")
# The time limit of a tool that only refuses, in seconds.
SOON = 30


def run(tool, *words, data=b"", **environment):
    """The status of a tool, its output, and its error lines."""
    words = [os.path.join(TOP, "tools", tool), *words]
    done = subprocess.run(words, input=data, capture_output=True, timeout=300, env={**os.environ, **environment})
    return done.returncode, done.stdout.decode(), done.stderr.decode().splitlines()


def put(name, data):
    with open(name, "wb") as file:
        file.write(data)
    return name


def content(name):
    with open(name, "rb") as file:
        return file.read()


def example(*names):
    """Copies files of the examples into the working folder."""
    for it in names:
        shutil.copy(os.path.join(EXAMPLES, it), it)
    return names


def want_told(found, status, told, what):
    """The tool ended with this status, and its one error line contains this."""
    number, shown, faults = found
    want((number, len(faults)) == (status, 1) and told in faults[0], f"{what}: {number} {shown[:80]!r} {faults[:3]}")
