"""A model of what `urna_ledger` prints in the script `ledger` (crates/session_tests), by docs/FORMATS.md, "Parts", "Verdicts", "Totals"
and "The ledger", and docs/CRASH.md, "Slots" and "Four slots".

`other_answers` returns the lines of the script with another answer. It leaves out the commands of `urna`, the chains, and everything
after bytes that the script sets, until the flashes are known again.
"""

import contextlib
import copy
import hashlib
import re
import tomllib

import federations
import scripts

DEVICES, FLASHES = ("internal", "external"), ("INTERNA", "EXTERNA")
SLOTS = [(dev, slot) for dev in (0, 1) for slot in (0, 1)]
PAGE, BODY = 512, 262144
SHUT, OPEN, TORN = 0x5A, 0xA5, None
# The contents of a torn gate: the new byte, or some byte; the last entry is for the kept flashes, which are at rest.
WAYS = (("whole", None), ("00", 0), ("5A", SHUT), ("A5", OPEN), ("later", OPEN))
NO_FAULTS = {"room": [1500000], "fails": [], "takes": []}
LIMITS = {"TABELAS": 4194304, "LISTA": 1048576, "BOLETIM": 1048576, "CERTIFICADO": 1048576}


class End(Exception):
    """Ends a command with this status."""


def fault_of(text):
    """The first fault of a file: in its hashes, in a count with a leading zero, or in its sums of an office. The script has no others."""
    before, fields = "", []
    for i, line in enumerate(text.splitlines(), 1):
        part, _, said = line.rpartition(" HASH:")
        before = hashlib.sha512((before + part).encode()).hexdigest().upper()
        if before != said:
            return f"PARTE HASH {i}"
        fields += part.split(" ")[2:]
    votes = 0
    for k, (key, value) in enumerate((field.split(":") for field in fields), 1):
        if key not in ("HRAB", "HRFC") and re.fullmatch(r"0\d+", value):
            return f"CAMPO {k}"
        if key == "TOTC" and votes != int(value):
            return f"SOMA {k} {votes} {value}"
        if key == "CARG":
            votes = 0
        elif key in ("NOMI", "LEGC", "BRAN", "NULO"):
            votes += int(value)
    return None


class Tables:
    def __init__(self, text):
        it = self.document = tomllib.loads(text)
        self.hash = hashlib.sha256(text.encode()).digest()
        self.head = f" PROC:{it['processo']} DTPL:{it['data']} TURN:{it['turno']} "
        self.sections = [f" ZONA:{one['zona']} SECA:{one['secao']} APTO:{one['eleitores']} " for one in it["secao"]]
        parties = sorted(one["numero"] for one in it["partido"])
        self.panels = []
        for code, rule in ((office["codigo"], office["regra"]) for office in it["cargo"]):
            candidates = sorted(one["numero"] for one in it["candidato"] if one["cargo"] == code)
            self.panels.append((code, candidates, parties if rule == "proporcional" else []))

    def choices(self):
        return [(code, it) for code, candidates, parties in self.panels for it in [*candidates, *parties, "BRAN", "NULO"]]

    def place(self, text):
        """The place of the section of a report that fits the tables."""
        votes = {choice for choice, count in federations.sums_of(fields_of(text)).items() if count}
        offices = [int(it) for it in re.findall(r" CARG:(\d+)", text)]
        fits = offices == [code for code, _, _ in self.panels] and votes <= set(self.choices()) and self.head in text
        return next((k for k, section in enumerate(self.sections) if fits and section in text), None)


def fields_of(text):
    return [" ".join(field for line in text.splitlines() for field in line.split(" ")[2:-1])]


class Ledger:
    """The hash of each section's report, by its place, and the sums."""

    def __init__(self, hashes=(), sums=()):
        self.hashes, self.sums = dict(hashes), dict(sums)

    def __eq__(self, other):
        return isinstance(other, Ledger) and (self.hashes, self.sums) == (other.hashes, other.sums)

    def offer(self, tables, text):
        """The verdict on a file, and the ledger after it."""
        fault = fault_of(text)
        place = None if fault else tables.place(text)
        if place is None:
            return fault or "ESTRANHO", self
        section = " ".join(re.search(r"ZONA:(\d+) SECA:(\d+)", text).groups())
        said = text.rstrip("\n")[-128:]
        if place in self.hashes:
            return f"{'REPETIDO' if self.hashes[place] == said else 'CONFLITO'} {section}", self
        votes = federations.sums_of(fields_of(text))
        sums = {it: self.sums.get(it, 0) + votes[it] for it in tables.choices()}
        return f"ACEITO {section}", Ledger(self.hashes | {place: said}, sums)

    def lines(self, tables):
        """The lines of `totais`."""
        lines = [f"SECOES {len(self.hashes)} DE {len(tables.sections)}"]
        for code, candidates, parties in tables.panels:
            n, p = (sum(self.sums.get((code, it), 0) for it in them) for them in (candidates, parties))
            b, x = (self.sums.get((code, it), 0) for it in ("BRAN", "NULO"))
            lines.append(f"CARGO {code} VALIDOS {n + p} NOMINAIS {n} LEGENDA {p} BRANCOS {b} NULOS {x} TOTAL {n + p + b + x}")
            lines += [f"CANDIDATO {it} VOTOS {self.sums.get((code, it), 0)}" for it in candidates]
        return lines

    def body(self, tables):
        body = bytearray(BODY)
        body[0], body[4:8] = 1, len(self.hashes).to_bytes(4, "big")
        for place, said in self.hashes.items():
            body[8 + place // 8] |= 128 >> place % 8
            body[512 + 64 * place : 576 + 64 * place] = bytes.fromhex(said)
        sums = [self.sums.get(it, 0).to_bytes(8, "big") for it in tables.choices()]
        body[128512 : 128512 + 8 * len(sums)] = b"".join(sums)
        return bytes(body)


class Flash:
    """A device: the tables' hash in its frame; for each slot its gate and the ledger under it, which may be torn; and which gate isn't
    synced."""

    def __init__(self):
        self.frame, self.gates, self.held, self.dirty = None, [0, 0], [TORN, TORN], None

    def __eq__(self, other):
        return (self.frame, self.gates, self.held) == (other.frame, other.gates, other.held)

    def do(self, what, slot, value):
        if what == "sync":
            self.dirty = None
        elif what == "frame":
            self.frame = value
        elif what == "gate":
            self.gates[slot], self.dirty = value, slot
        elif what == "body":
            self.held[slot] = value

    def stands(self, slot):
        return self.gates[slot] == OPEN

    def image(self, tables, dev):
        header = (b"URNALG\0\0" + bytes([1 + dev]) + tables.hash).ljust(PAGE, b"\0")
        return header + b"".join(bytes([self.gates[s]]).ljust(PAGE, b"\0") + self.held[s].body(tables) for s in (0, 1))


def cut(flashes, byte):
    """What a power cut leaves if an unsynced gate has this byte, or its new one."""
    left = copy.deepcopy(flashes)
    for flash in left:
        if flash.dirty is not None and byte is not None:
            flash.gates[flash.dirty] = byte
        flash.dirty = None
    return left


def alone(flashes, dev):
    """One device, next to the other one with its gates shut."""
    left = copy.deepcopy(flashes)
    left[1 - dev].gates = [0, 0]
    return left


# A step is its number of bytes, its device, its operation, and the slot and the value of the operation.


def slot_steps(dev, slot, is_open, ledger, sizes):
    """The steps that bring a slot to a ledger: shut it if it is open, write it in pieces of these sizes, open it."""
    sync = (0, dev, "sync", None, None)
    shut = [(1, dev, "gate", slot, SHUT), sync] if is_open else []
    pieces = [(size, dev, "body", slot, TORN) for size in sizes[:-1]] + [(sizes[-1], dev, "body", slot, ledger)]
    return [*shut, *pieces, sync, (1, dev, "gate", slot, OPEN), sync]


def commit_steps(tables, old, new):
    """Commits: writes the pages that differ."""
    one, other = old.body(tables), new.body(tables)
    sizes = [PAGE for at in range(0, BODY, PAGE) if one[at : at + PAGE] != other[at : at + PAGE]]
    return [step for dev, slot in SLOTS for step in slot_steps(dev, slot, True, new, sizes)]


def heal_steps(flashes, found):
    """Rewrites the slots that don't hold the found ledger."""
    for dev, slot in SLOTS:
        stands = flashes[dev].stands(slot)
        if not stands or flashes[dev].held[slot] != found:
            yield from slot_steps(dev, slot, stands, found, [BODY])


def load_steps(tables, flashes):
    for dev, flash in enumerate(flashes):
        sync = (0, dev, "sync", None, None)
        for slot in filter(flash.stands, (0, 1)):
            yield from ((1, dev, "gate", slot, SHUT), sync)
        for slot in (0, 1):
            yield from ((BODY, dev, "body", slot, Ledger()), sync)
        yield from ((size, dev, "frame", None, tables.hash) for size in (PAGE, PAGE - 1, PAGE - 1))
        yield sync
        for slot in (0, 1):
            yield from ((1, dev, "gate", slot, OPEN), sync)


class Run:
    """A command over flashes and files: its steps, its output, its status, and the flashes that it leaves."""

    def __init__(self, words, flashes, files, faults=NO_FAULTS):
        self.start, self.left, self.files = flashes, copy.deepcopy(flashes), files
        self.room, self.fails, self.takes = faults["room"][0], faults["fails"], faults["takes"]
        self.done, self.shown, self.taken, self.code = [], "", 0, 0
        try:
            self.run(words)
        except End as end:
            self.code = end.args[0]

    def run(self, words):
        forms = {"abre": (self.abre, 2), "recebe": (self.recebe, 3), "totais": (self.totais, 2)}
        if len(words) < 2 or words[0] not in forms or len(words) != forms[words[0]][1]:
            self.refuse("ERRO USO", 2)
        forms[words[0]][0](*words[1:])

    def do(self, size, dev, what, slot, value):
        """Does a step, or half of it if there is no room or the call of its number fails. No read precedes such a call."""
        if len(self.done) in self.fails or size > self.room:
            if what == "show":
                self.shown += value[: min(size // 2, self.room)]
            elif size > 1:
                self.left[dev].do(what, slot, TORN)
            raise End(23 if what == "show" else 21 + dev)
        self.room -= size
        self.done.append((dev, what, slot, value))
        if what == "show":
            self.shown += value
        else:
            self.left[dev].do(what, slot, value)

    def all(self, steps):
        for step in list(steps):
            self.do(*step)

    def sync(self):
        self.all((0, dev, "sync", None, None) for dev in (0, 1))

    def show(self, line):
        self.do(len(line) + 1, None, "show", None, line + "\n")

    def refuse(self, line, code):
        """A fault of the display leaves the number unchanged."""
        with contextlib.suppress(End):
            self.show(line)
        raise End(code)

    def call(self):
        """A call of the cabinet, which fails if its number is to fail."""
        self.taken += 1
        if self.taken - 1 in self.takes:
            raise End(20)

    def take(self, name, word):
        self.call()
        if name not in self.files:
            self.refuse(f"ERRO FALTA {word}", 12)
        if len(self.files[name].encode()) > LIMITS[word]:
            self.refuse(f"ERRO TAMANHO {word}", 5)
        return self.files[name]

    def tables(self, name):
        text = self.take(name, "TABELAS")
        try:
            tables = Tables(text)
        except tomllib.TOMLDecodeError:
            self.refuse("ERRO TABELAS TOML", 3)
        parties = re.findall(r"\{numero = (\d+), nome", text)
        if len(set(parties)) < len(parties):
            self.refuse("ERRO TABELAS REGRA 8", 3)
        return tables

    def names(self, name):
        """The names of a list: at most 4,096 lines of 1 to 255 bytes, none of them zero."""
        lines = self.take(name, "LISTA").split("\n")
        names = lines if lines[-1] else lines[:-1]
        for number, line in enumerate(names, 1):
            if number > 4096 or not 1 <= len(line.encode()) <= 255 or "\0" in line:
                self.refuse(f"ERRO LINHA {number}", 4)
        return names

    def opened(self, tables):
        """The ledger that the flashes hold."""
        self.sync()
        for dev, flash in enumerate(self.left):
            if flash.frame != tables.hash:
                self.refuse(f"ERRO OUTRA CARGA {FLASHES[dev]}", 30)
        standing = [self.left[dev].held[slot] for dev, slot in SLOTS if self.left[dev].stands(slot)]
        if not standing:
            self.refuse("ERRO SEM IMAGEM", 31)
        found = max(standing, key=lambda it: len(it.hashes))
        self.all(heal_steps(self.left, found))
        return found

    def abre(self, name):
        tables = self.tables(name)
        self.sync()
        for dev, flash in enumerate(self.left):
            if flash.frame and any(flash.held[slot].hashes for slot in filter(flash.stands, (0, 1))):
                self.refuse(f"ERRO EM USO {FLASHES[dev]}", 32)
        self.all(load_steps(tables, self.left))
        self.show("LIVRO 0")

    def recebe(self, name, listed):
        tables = self.tables(name)
        names = self.names(listed)
        ledger = self.opened(tables)
        self.show(f"LIVRO {len(ledger.hashes)}")
        for number, it in enumerate(names, 1):
            verdict, behind = ledger.offer(tables, self.take(it, "BOLETIM"))
            if behind is not ledger:
                self.all(commit_steps(tables, ledger, behind))
            self.show(f"{number} {verdict}")
            self.code = self.code if behind is not ledger else 6
            ledger = behind

    def totais(self, name):
        tables = self.tables(name)
        for line in self.opened(tables).lines(tables):
            self.show(line)

    def stop(self, count):
        """What its first steps left."""
        left = copy.deepcopy(self.start)
        for dev, what, slot, value in self.done[:count]:
            if what != "show":
                left[dev].do(what, slot, value)
        return left

    def answer(self):
        lines = self.shown.splitlines()
        if self.shown and not self.shown.endswith("\n"):
            lines[-1] += "…"
        return lines + [f"= {self.code}"] * (self.code != 0)


def told(words, flashes, files):
    """What a command prints over both flashes, and over each one alone if that differs."""
    both, internal, external = (Run(words, it, files).shown.rstrip("\n") for it in (flashes, alone(flashes, 0), alone(flashes, 1)))
    return both if both == internal == external else f"{both}; internal {internal}; external {external}"


def stops(run, words, files):
    """What `stops` prints for a command."""
    answers = []
    for count in range(len(run.done) + 1):
        text, before = "", None
        for way, byte in WAYS:
            one = told(words, cut(run.stop(count), byte), files)
            if one != before:
                text += one if before is None else f" | from {way} on {one}"
            before = one
        answers.append(text)
    first, lines = 0, []
    for at, text in enumerate(answers):
        if at + 1 == len(answers) or answers[at + 1] != text:
            lines.append(f"{first} to {at}: {text}")
            first = at + 1
    return lines


def hashed(text):
    before, lines = "", ""
    for line in text.splitlines():
        part = line.partition(" HASH:")[0]
        before = hashlib.sha512((before + part).encode()).hexdigest().upper()
        lines += f"{part} HASH:{before}\n"
    return lines


class Play:
    """The state of the script so far: its files, its kept flashes, and its last command. The flashes are `None` if they aren't known."""

    def __init__(self):
        self.files, self.kept, self.flashes = {}, {}, None
        self.last, self.words, self.faults = None, [], NO_FAULTS

    def run(self, words):
        self.last = self.flashes and Run(words, self.flashes, self.files, self.faults)
        self.words, self.flashes = words, self.last and self.last.left
        return self.last and self.last.answer()

    def anew(self, files):
        """The last command over other files."""
        return Run(self.words, self.last.start, files, self.faults).answer()

    def step(self, line):
        """The expected text under a line; `None` if the model doesn't cover it."""
        word, *rest = line.split(" ")
        if word in ("file", "text", "long", "none", "edit"):
            scripts.give(self.files, line)
        elif word == "hash":
            self.files[rest[0]] = hashed(self.files[rest[0]])
        elif word == "blank":
            self.flashes = [Flash(), Flash()] if rest else None
        elif word == "keep":
            self.kept[rest[0]] = self.flashes
        elif word == "back":
            known = self.kept[rest[0]]
            self.flashes = self.flashes and [known[d] if DEVICES[d] in rest else self.flashes[d] for d in (0, 1)] if rest[1:] else known
        elif word == "shut":
            self.flashes = self.flashes and alone(self.flashes, 1 - DEVICES.index(rest[0]))
        elif word == "set":
            self.flashes = None
        elif word in self.faults:
            self.faults = {**self.faults, word: [int(it) for it in rest]}
        elif word == "stop":
            self.flashes = self.last and cut(self.last.stop(int(rest[0])), int(rest[1], 16))
        elif word == "livro":
            return self.run(rest)
        elif word in ("again", "anew") and self.last:
            changed = scripts.edited(self.files[rest[0]], line.split(" ", 2)[2])
            changed = hashed(changed) if word == "anew" else changed
            return self.anew({**self.files, rest[0]: changed})
        elif word == "operations" and self.last:
            return [str(len(self.last.done))]
        elif word == "like" and self.flashes:
            return ["the same" if self.flashes == self.kept[rest[0]] else "not the same"]
        elif word == "bytes" and self.flashes:
            dev, at, count = DEVICES.index(rest[0]), int(rest[1]), int(rest[2])
            image = self.flashes[dev].image(Tables(self.files[self.words[1]]), dev)
            return [image[at : at + count].hex().upper()]
        elif word == "stops" and self.last:
            return stops(self.last, rest[2:], self.files)
        return None


def others(script, play):
    """The lines of a script whose answer differs from that of a model that plays it."""
    count = 0
    for number, line, came in scripts.steps_of(script):
        wanted = None if line.startswith("#") else play.step(line)
        count += wanted is not None
        if wanted is not None and came != wanted:
            yield f"{scripts.CRATE}/stdout:{number}: the answer under `{line}` differs from the model's"
    if not count:
        yield f"{scripts.CRATE}/stdout: the script {script} has no answer"


def other_answers():
    yield from others("ledger", Play())
