"""Inputs of the tools for paper and signatures, and how the tools end: size limits of files, one line for an input that can't be used,
and the verdict of `confere` on a report."""

import argparse
import os
import shutil
import stat
import subprocess
import sys
import tempfile

import visible

TOP = os.path.dirname(os.path.dirname(os.path.abspath(__file__)))
BUILT = os.path.join(TOP, "crates", "urna_app", "out", "urna_app")
# The maximum size of each file in bytes (docs/FORMATS.md, "Limits").
MOST_TABLES, MOST_ROLL, MOST_REPORT, MOST_LIST = 4_194_304, 16_384, 1_048_576, 1_048_576
MOST_NAMES, LONGEST_NAME = 4_096, 255
# The status of a tool for a refused input, and for an input that can't be used or a required program that is missing.
REFUSED, UNUSABLE = 1, 2
# The time limit of another program, in seconds.
LONGEST = 120


class Stopped(Exception):
    """Why a tool stops early, in one line, and its status."""

    def __init__(self, why, status=UNUSABLE):
        super().__init__(visible.visible(why))
        self.status = status


class Parser(argparse.ArgumentParser):
    """Invalid arguments end the tool as other faults do."""

    def error(self, message):
        raise Stopped(f"uso: {self.usage}")


def tell(line):
    print(visible.visible(line), file=sys.stderr)


def open_streams():
    """Gives each closed standard stream the null device, so that no line for one goes to another, and names their encoding. A name of a list
    is bytes: with another encoding of file names, the file that is checked would not be the file that is listed."""
    for number, (name, how) in enumerate((("stdin", "r"), ("stdout", "w"), ("stderr", "w"))):
        if getattr(sys, name) is None:
            setattr(sys, name, open(os.devnull, how))
        if number:
            getattr(sys, name).reconfigure(encoding="utf-8", errors="surrogateescape")
    if sys.getfilesystemencoding().lower() != "utf-8":
        raise Stopped("os nomes de arquivos deste computador não são UTF-8 (LC_ALL)")


def run_tool(main):
    """Ends the process with the status of a tool, or with one line that says why it stopped."""
    try:
        open_streams()
        status = main()
        sys.stdout.flush()
        sys.exit(status)
    except Stopped as stopped:
        print(stopped, file=sys.stderr)
        sys.exit(stopped.status)
    except BrokenPipeError:
        os._exit(UNUSABLE)
    except (OSError, MemoryError, UnicodeError) as fault:
        print(f"não foi feito: {getattr(fault, 'strerror', None) or type(fault).__name__}", file=sys.stderr, flush=True)
        # Standard output that can't be written would fail once more at the end.
        os._exit(UNUSABLE)
    except KeyboardInterrupt:
        sys.exit(130)


def want_plain(path):
    """A name that can be printed in one line and listed."""
    if visible.visible(path) != path:
        raise Stopped(f"{path}: um nome com caracteres que não se veem não é tomado")


def taken(path, most):
    """The bytes of a file."""
    want_plain(path)
    try:
        if not stat.S_ISREG(os.stat(path).st_mode):
            raise Stopped(f"{path}: não é um arquivo" + (", é uma pasta" if os.path.isdir(path) else ""))
        with open(path, "rb") as file:
            data = file.read(most + 1)
    except FileNotFoundError:
        raise Stopped(f"{path}: não há este arquivo")
    except OSError as fault:
        raise Stopped(f"{path}: não pode ser lido: {fault.strerror}")
    if len(data) > most:
        raise Stopped(f"{path}: é grande demais, tem mais de {most} bytes")
    return data


def want_new(path):
    """An unused file name."""
    want_plain(path)
    if os.path.lexists(path):
        raise Stopped(f"{path}: já existe, e não é substituído")


def put(path, data):
    """Writes a file under an unused name; a write that fails leaves none."""
    want_plain(path)
    try:
        file = open(path, "xb")
    except FileExistsError:
        raise Stopped(f"{path}: já existe, e não é substituído")
    except OSError as fault:
        raise Stopped(f"{path}: não pode ser gravado: {fault.strerror}")
    try:
        with file:
            file.write(data)
            file.flush()
            os.fsync(file.fileno())
    except BaseException as fault:
        os.unlink(path)
        if isinstance(fault, OSError):
            raise Stopped(f"{path}: não pode ser gravado: {fault.strerror}")
        raise


def ran(words, data=b"", folder=None, **environment):
    """Runs another program with these bytes on its standard input."""
    try:
        return subprocess.run(words, input=data, cwd=folder, capture_output=True, timeout=LONGEST, env={**os.environ, **environment})
    except FileNotFoundError:
        raise Stopped(f"falta o programa {words[0]}")
    except OSError as fault:
        raise Stopped(f"{words[0]}: não pode ser executado: {fault.strerror}")
    except subprocess.TimeoutExpired:
        raise Stopped(f"{words[0]}: não terminou em {LONGEST} segundos")


def program_of(asked):
    """The named program, else the one built here or the installed one."""
    return os.path.abspath(asked) if asked is not None else BUILT if os.access(BUILT, os.X_OK) else "urna"


def add_program(parser):
    parser.add_argument("--urna", metavar="PROGRAMA")


def confere(program, tables, report):
    """The status and the line of `confere` for these bytes."""
    with tempfile.TemporaryDirectory(prefix="urna-confere-") as folder:
        put(os.path.join(folder, "tabelas"), tables)
        put(os.path.join(folder, "boletim"), report)
        run = ran([program, "confere", "tabelas", "boletim"], folder=folder)
    return run.returncode, run.stdout.decode(errors="replace").strip()


def verdict(program, tables, report):
    """The verdict of `confere` on a report under these tables of an election, in words."""
    status, line = confere(program, tables, report)
    if status in (0, 7):
        return line.split(" ")
    raise Stopped(f"confere termina com {status}" + (f" e diz {line}" if line else ""))
