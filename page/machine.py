"""The urna of a session: its two flashes and its documents in a folder, and the presses since the last state that the flashes hold.

A press is a call of `vota` with all of these presses. Until one of them writes a new state, the flashes stay as they are, so the presses
may be repeated. What the call shows after the lines already known is the answer to the press.
"""

import os
import random
import shutil
import subprocess

from programs import LONGEST, TOP, Refused, anew, content, put
from runs import calls_of

TABLES, ROLL, KEYS, RESULT = "tabelas.toml", "rol.txt", "teclas", "urna"
REPORT, RECORD, PAPER = "urna.bu", "urna.rdv", "urna.html"
PRINTER = os.path.join(TOP, "tools", "paper")
FLASHES = ("internal.flash", "external.flash")
WORDS = ("interna", "externa")
# The positions of the gates of a flash, and its header (docs/FORMATS.md, "Flash layout").
GATES, HEADER = (512, 66_560), 512
# Lines after which both flashes have a new state, and those after which nobody is at the machine.
COMMITS, ENDS = ("ABERTA ", "FIM", "ENCERRADA "), ("CANCELADO", "SUSPENSO")
MOST_PRESSES, LONGEST_PRESS = 2_000, 64


def begins(line, words):
    return line.startswith(words)


def is_over(lines):
    """Whether the presses with these answers need not be repeated."""
    return any(begins(it, COMMITS) or it in ENDS for it in lines)


def changes(lines):
    """Whether a press with this answer changed anything: a refused press, or a key without effect, doesn't."""
    return any(not begins(it, "RECUSA ") for it in lines)


def operation_of(call):
    """A description of an operation of a commit."""
    kind = {"sync": "sincroniza", "write": "grava"}[call.kind]
    if call.name == "display":
        return {"faz": "mostra", "onde": "tela", "texto": call.data.decode(errors="replace").strip()}
    return {"faz": kind, "onde": WORDS[FLASHES.index(call.name)], "lugar": call.at, "bytes": len(call.data)}


class Machine:
    def __init__(self, program, folder):
        self.program, self.folder, self.scratch = program, os.path.join(folder, "urna"), os.path.join(folder, "copia")
        self.told_at = os.path.join(folder, "chamadas")
        self.is_loaded = False

    def run(self, words, **asked):
        return self.program.run(self.folder, words, **asked)

    # ---- the load

    def load(self, tables, roll, zone, section):
        """A machine with these documents and two new flashes. The previous one is removed."""
        anew(self.folder)
        put(tables, self.folder, TABLES)
        put(roll, self.folder, ROLL)
        self.is_loaded, self.is_on, self.armed, self.cut, self.unstarted = False, False, None, None, None
        self.visit, self.known, self.shown = [], [], []
        self.zero, self.count, self.clerk, self.looked_at = [], [], None, (None, None)
        ended = self.run(["carga", TABLES, ROLL, zone, section])
        if ended.status == 0:
            self.is_loaded, self.is_on, self.loaded = True, True, ended
            self.size = len(content(self.folder, FLASHES[0]))
            self.frames = [content(self.folder, name)[:HEADER].ljust(self.size, b"\0") for name in FLASHES]
            self.opening = self.vota([])
        return ended

    def vota(self, presses, **asked):
        """A session with these presses. The file of the keys is removed after it."""
        put("".join(f"{it}\n" for it in presses).encode(), self.folder, KEYS)
        try:
            return self.run(["vota", TABLES, ROLL, KEYS, RESULT], **asked)
        finally:
            os.remove(os.path.join(self.folder, KEYS))

    # ---- presses

    def press(self, line):
        """One press. Returns its new lines."""
        self.want_on()
        if not 0 < len(line) <= LONGEST_PRESS or not line.isascii() or not line.isprintable():
            raise Refused(400, "não é uma tecla")
        if len(self.visit) >= MOST_PRESSES and begins(line, "E"):
            raise Refused(409, "são teclas demais em uma só vez: o mesário deve suspendê-la")
        presses = [*self.visit, line]
        if self.armed and self.pull(presses):
            return self.cut["linhas"]
        ended = self.vota(presses)
        lines = self.new_lines(ended)
        if ended.status == 0 or is_over(lines):
            self.take(line, presses, ended, lines)
        else:
            self.answer(line, lines, ended.status)
        return lines

    def new_lines(self, ended):
        """The lines of a session after those already known. A refused command has none of these."""
        known = ended.lines[: len(self.known)] == self.known
        return ended.lines[len(self.known) :] if known else ended.lines

    def take(self, line, presses, ended, lines):
        """A session accepted the presses. These of its lines are new."""
        if not self.visit and changes(lines[1:]):
            self.shown = []
        news = [it for it in lines if not begins(it, "URNA ")]
        self.shown += news if changes(news) else []
        self.keep_counts(news)
        self.answer(line, news, ended.status)
        if is_over(news):
            self.visit, self.known = [], []
            self.opening = self.vota([])
        elif changes(news):
            self.visit, self.known = presses, ended.lines

    def keep_counts(self, lines):
        """The zero report and the counts of the seal are shown once."""
        if lines[:1] == ["ZERESIMA"]:
            self.zero = lines
        if lines and begins(lines[0], "ENCERRADA "):
            self.count = lines

    def answer(self, line, lines, status):
        """The clerk's terminal has the answers to the clerk's keys. Of a voter's key it has only that it failed, until one doesn't; not
        which key it was, nor what the voter's screen showed."""
        if begins(line, "M "):
            self.clerk = {"tecla": line, "linhas": lines, "numero": status}
        elif status != 0:
            self.clerk = {"tecla": None, "linhas": [it for it in lines if it == "FIM" or begins(it, "ERRO ")], "numero": status}
        elif self.clerk and self.clerk["tecla"] is None:
            self.clerk = None

    # ---- the power

    def want_on(self):
        self.want_loaded()
        if not self.is_on:
            raise Refused(409, "a urna está desligada")

    def want_off(self):
        self.want_loaded()
        if self.is_on:
            raise Refused(409, "a urna está ligada")

    def want_loaded(self):
        if not self.is_loaded:
            raise Refused(409, "a urna não foi carregada")

    def arm(self, number):
        """Stops the next commit, at this operation of it, or at a drawn one."""
        self.want_on()
        if not self.program.library:
            raise Refused(409, "não há compilador de C, e sem ele o programa não é parado no meio de uma gravação")
        self.armed = {"operacao": number}

    def copied(self, flashes=None):
        """A copy of the machine's folder, with these flashes instead of its own."""
        shutil.rmtree(self.scratch, ignore_errors=True)
        shutil.copytree(self.folder, self.scratch)
        for name, flash in zip(FLASHES, flashes or ()):
            put(flash, self.scratch, name)
        return self.scratch

    def asked_of_copy(self, presses, flashes=None, **asked):
        """What a session with these presses shows over a copy."""
        folder = self.copied(flashes)
        put("".join(f"{it}\n" for it in presses).encode(), folder, KEYS)
        try:
            return self.program.run(folder, ["vota", TABLES, ROLL, KEYS, RESULT], **asked)
        finally:
            shutil.rmtree(folder)

    def operations(self, presses):
        """The calls of a session on flashes and the display, and how many of them come before its commit; None if it has none."""
        put(b"", self.told_at)
        self.asked_of_copy(presses, URNA_TELL=self.told_at)
        calls, _ = calls_of(content(self.told_at))
        os.remove(self.told_at)
        calls = [it for it in calls if it.kind in ("write", "sync") and it.name in (*FLASHES, "display")]
        first = next((at for at, it in enumerate(calls) if it.kind == "write" and it.name in FLASHES), None)
        return calls, first

    def pull(self, presses):
        """Stops a session inside its commit. Returns whether there was one."""
        calls, first = self.operations(presses)
        if first is None:
            return False
        commit = calls[first:]
        number = min(self.armed["operacao"] or random.randint(1, len(commit)), len(commit))
        stopped = commit[number - 1]
        ending = "display" if stopped.name == "display" else ".flash"
        same = [it for it in calls[: first + number] if it.kind == stopped.kind and it.name.endswith(ending)]
        before = self.vota(presses, URNA_FAIL=f"{stopped.kind} {ending} {len(same)} kill")
        self.cut = {
            "operacoes": [operation_of(it) for it in commit],
            "parou": number,
            "linhas": [it for it in self.new_lines(before) if not begins(it, "URNA ")],
            "titulo": next((it.split()[2] for it in reversed(presses) if begins(it, "M TITULO ")), None),
        }
        self.answer(presses[-1], self.cut["linhas"], before.status)
        self.shown = [*(self.shown if self.visit else []), *self.cut["linhas"]]
        self.keep_zero()
        self.switch_off()
        self.cut["memorias"] = self.memories()
        return True

    def keep_zero(self):
        """The zero report, if it was shown whole before the power went."""
        if self.cut["linhas"][:1] == ["ZERESIMA"] and any(begins(it, "ABERTA ") for it in self.cut["linhas"]):
            self.zero = self.cut["linhas"]

    def switch_off(self):
        """Without power. Whatever the flashes don't hold is lost."""
        self.want_loaded()
        self.is_on, self.armed, self.visit, self.known = False, None, [], []

    def switch_on(self):
        """A session without presses: its line reports what both flashes hold, and it brings both to that state."""
        self.want_off()
        self.opening = self.vota([])
        self.is_on = self.opening.status == 0
        self.unstarted = None if self.is_on else self.opening.told()
        if self.is_on:
            self.shown, self.clerk = [], None
        if self.cut:
            self.cut["inicio"] = self.opening.told()
            self.cut["volta"] = self.asked_title() if self.is_on and self.cut["titulo"] else None
        return self.opening

    def asked_title(self):
        """What the program shows over a copy if the voter at whom the power went is identified again."""
        ended = self.asked_of_copy([f"M TITULO {self.cut['titulo']}"])
        return ended.lines[-1] if ended.lines else ""

    # ---- the flashes

    def exchange(self, device):
        """Replaces this flash by a blank one, with the power off."""
        self.want_off()
        put(bytes(self.size), self.folder, FLASHES[device])
        self.unstarted = None

    def reload(self, device):
        """Loads the replaced flash from the other one."""
        self.want_off()
        ended = self.run(["repoe", TABLES, ROLL, WORDS[device]])
        if ended.status == 0:
            self.unstarted = None
        return ended

    def memories(self):
        """What each flash alone holds, as the program reports it over a copy in which the other one has only its frame; and its gates."""
        flashes = [content(self.folder, name) for name in FLASHES]
        if self.looked_at[0] != flashes:
            self.looked_at = flashes, [self.memory(flashes, device) for device in (0, 1)]
        return self.looked_at[1]

    def memory(self, flashes, device):
        pair = [flash if it == device else self.frames[it] for it, flash in enumerate(flashes)]
        ended = self.asked_of_copy([], pair)
        # A file that is too short has no byte there.
        gates = [{"lugar": at, "byte": flashes[device][at : at + 1].hex().upper()} for at in GATES]
        return {"nome": WORDS[device], "linha": "".join(ended.lines[:1]), "numero": ended.status, "portas": gates}

    # ---- the results

    def is_sealed(self):
        """Whether the result files were written."""
        return self.is_loaded and all(os.path.exists(os.path.join(self.folder, it)) for it in (REPORT, RECORD))

    def result(self, name):
        if name not in (REPORT, RECORD) or not self.is_sealed():
            raise Refused(404, "a votação não está lacrada")
        return content(self.folder, name)

    def paper(self):
        """The report on paper with its codes, made by tools/paper."""
        self.result(REPORT)
        try:
            run = subprocess.run(
                [PRINTER, "--urna", self.program.path, TABLES, REPORT, PAPER], cwd=self.folder, capture_output=True, text=True, timeout=LONGEST
            )
        except (OSError, subprocess.TimeoutExpired):
            raise Refused(409, "o papel não pôde ser feito")
        if run.returncode != 0:
            raise Refused(409, run.stderr.strip())
        made = content(self.folder, PAPER)
        os.remove(os.path.join(self.folder, PAPER))
        return made

    def check(self):
        self.result(REPORT)
        return self.run(["confere", TABLES, REPORT])

    def recount(self):
        self.result(REPORT)
        return self.run(["reconta", REPORT, RECORD])

    def state(self):
        """Everything that the page shows of the machine."""
        if not self.is_loaded:
            return {"carregada": False}
        return {
            "carregada": True,
            "ligada": self.is_on,
            "carga": self.loaded.told(),
            "inicio": self.opening.told(),
            "recusada": self.unstarted,
            "visita": self.shown,
            "mesario": self.clerk,
            "ocupada": bool(self.visit),
            "armada": self.armed,
            "corte": self.cut,
            "memorias": self.memories(),
            "zeresima": self.zero,
            "contagem": self.count,
            "lacrada": self.is_sealed(),
        }
