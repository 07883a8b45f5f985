"""Signatures of reports, tables, rolls and lists of signers, made and tested only by ssh-keygen (OpenSSH, -Y)."""

import os
import re
import tempfile
import tomllib

import inputs
from inputs import Stopped

KEYGEN = "ssh-keygen"
MOST_KEY, MOST_SIGNATURE, MOST_SIGNERS = 65_536, 65_536, 16_777_216
SIGNER = re.compile(rb'[^\s#]\S* (?:\S*"[^"\n]*"\S* |\S+ )?(?:sk-)?(?:ssh|ecdsa)-\S+ \S+.*')
PUBLIC = re.compile(rb"(?:sk-)?(?:ssh|ecdsa)-\S+ \S+.*")
# The first bytes of a list of revoked keys made by ssh-keygen -k.
REVOCATIONS = b"SSHKRL\n\0"


def namespace(kind):
    return f"urna-{kind}"


def lines_of(data):
    return [it for it in data.split(b"\n") if it.strip() and not it.startswith(b"#")]


def tables_in(data):
    """The tables of an election, by key."""
    try:
        read = tomllib.loads(data.decode())
    except (ValueError, RecursionError):
        return {}
    return read if all(isinstance(read.get(it), int) for it in ("processo", "data", "turno")) else {}


def kind_of(data):
    """Which kind of signed file this is, by its content; None if it is none of them."""
    lines = lines_of(data)
    if data.startswith(b"QRBU:"):
        return "boletim"
    if lines and all(re.fullmatch(rb"\d{12}", it) for it in lines):
        return "rol"
    if lines and all(SIGNER.fullmatch(it) for it in lines):
        return "chaves"
    return "tabelas" if tables_in(data) else None


def keygen(*words, data=b""):
    """Runs ssh-keygen. Times without a zone are in UTC."""
    return inputs.ran([KEYGEN, *words], data, TZ="UTC", SSH_ASKPASS_REQUIRE="never")


def said(run):
    """The last line that ssh-keygen printed about a fault."""
    lines = (run.stderr or run.stdout).decode(errors="replace").split("\n")
    return next((it.strip() for it in reversed(lines) if it.strip()), f"termina com {run.returncode}")


def signed(data, kind, key):
    """The signature of these bytes."""
    # A name that begins with a dash must not be read as an option of ssh-keygen.
    run = keygen("-Y", "sign", "-q", "-n", namespace(kind), "-f", os.path.abspath(key), data=data)
    if run.returncode != 0 or not run.stdout.startswith(b"-----BEGIN SSH SIGNATURE-----"):
        raise Stopped(f"{key}: ssh-keygen não assina: {said(run)}")
    return run.stdout


class Election:
    """The tables that the reports must belong to, and two facts from them: the number of the election and the day of the poll."""

    def __init__(self, tables, path, program):
        self.tables, self.program = tables, program
        read = tables_in(tables)
        if not read:
            raise Stopped(f"{path}: não são as tabelas de uma eleição")
        self.process, self.day = read["processo"], read["data"]


def lost_in(path):
    """The lost keys: a list of ssh-keygen -k, or one public key per line."""
    data = inputs.taken(path, MOST_SIGNERS)
    if not data.startswith(REVOCATIONS) and not all(PUBLIC.fullmatch(it) for it in lines_of(data)):
        raise Stopped(f"{path}: não é uma lista de chaves perdidas")
    return data


class Keys:
    """The list of signers and of the lost keys, as they were when they were read."""

    def __init__(self, signers, lost):
        data = inputs.taken(signers, MOST_SIGNERS)
        for number, line in enumerate(data.split(b"\n"), 1):
            if line.strip() and not line.startswith(b"#") and (not SIGNER.fullmatch(line) or set(line.split(b" ")[0]) & set(b'*?!"')):
                raise Stopped(f"{signers}: a linha {number} não é de uma chave com nomes inteiros")
        self.given = {"signers": data, "lost": lost_in(lost) if lost is not None else None}

    def __enter__(self):
        self.folder = tempfile.TemporaryDirectory(prefix="urna-chaves-")
        for name, data in self.given.items():
            if data is not None:
                inputs.put(os.path.join(self.folder.name, name), data)
        self.signers, self.lost = (os.path.join(self.folder.name, it) for it in self.given)
        self.signature = os.path.join(self.folder.name, "sig")
        return self

    def __exit__(self, *fault):
        self.folder.cleanup()

    def hold(self, signature):
        """The signature under test."""
        with open(self.signature, "wb") as file:
            file.write(signature)

    def is_made(self, data):
        """Whether it is a signature of these bytes, by any key."""
        return keygen("-Y", "check-novalidate", "-n", namespace("boletim"), "-s", self.signature, data=data)

    def owner(self, day):
        """Whose key it is, at its time."""
        return keygen("-Y", "find-principals", "-f", self.signers, "-s", self.signature, "-O", f"verify-time={day}Z")

    def verify(self, name, day, data, *revoked):
        words = ["-f", self.signers, "-I", name, "-n", namespace("boletim"), "-s", self.signature, "-O", f"verify-time={day}Z", *revoked]
        return keygen("-Y", "verify", *words, data=data)

    def fault(self, name, day, data):
        """Why a signature isn't that of this name on this day; None if it is."""
        if self.verify(name, day, data, *(["-r", self.lost] if self.given["lost"] is not None else [])).returncode == 0:
            return None
        made = self.is_made(data)
        if made.returncode != 0:
            return "assinado como outra coisa" if b"namespace" in made.stderr else "alterado, ou a assinatura não é deste arquivo"
        if self.given["lost"] is not None and self.verify(name, day, data).returncode == 0:
            return f"a chave de {name} está perdida"
        found = self.owner(day)
        if found.returncode == 0:
            owner = found.stdout.decode(errors="replace").split("\n")[0]
            return f"assinado por {owner}, e é de {name}" if owner != name else f"a chave de {name} não serve para boletins"
        return "a chave está fora do seu tempo" if b"verify time" in found.stderr else "a chave não está na lista"


def fault_of(election, keys, path):
    """Why a report isn't accepted; None if it is."""
    data = inputs.taken(path, inputs.MOST_REPORT)
    word, *place = inputs.verdict(election.program, election.tables, data)
    if word != "ACEITO":
        return " ".join([word, *place])
    try:
        keys.hold(inputs.taken(f"{path}.sig", MOST_SIGNATURE))
    except Stopped as stopped:
        return "sem assinatura" if not os.path.lexists(f"{path}.sig") else f"sem assinatura: {stopped}"
    return keys.fault("-".join([str(election.process), *place]), election.day, data)
