"""The sessions of the page: one per browser, identified by a token, with its files in a folder of its own."""

import base64
import collections
import os
import secrets
import shutil
import tempfile
import threading

import elections
from machine import REPORT, WORDS, Machine
from programs import Refused, anew
from totals import Totals

MOST_SESSIONS = 32
# The types of the browser's inputs, by key.
TEXT, NUMBER, LIST = str, int, list


def given(asked, key, kind):
    """A value of a request, which must have this type."""
    value = asked.get(key)
    if not isinstance(value, kind) or isinstance(value, bool):
        raise Refused(400, f"falta {key}, ou não tem a forma")
    return value


def file_given(asked, key, most):
    """The bytes of a file of a request."""
    try:
        data = base64.b64decode(given(asked, key, TEXT), validate=True)
    except ValueError:
        raise Refused(400, f"{key} não é base64")
    if len(data) > most:
        raise Refused(413, f"{key} é grande demais")
    return data


def device_given(asked):
    word = given(asked, "memoria", TEXT)
    if word not in WORDS:
        raise Refused(400, "não há esta memória")
    return WORDS.index(word)


class Session:
    """The requests of one browser, one after the other."""

    def __init__(self, program, top):
        self.program, self.top, self.lock = program, top, threading.Lock()
        self.folder, self.is_closed = None, False

    def open(self):
        """The folder of the session, created by the first request that needs it."""
        if self.is_closed:
            raise Refused(410, "esta sessão foi fechada: recarregar a página")
        if not self.folder:
            self.folder = tempfile.mkdtemp(dir=self.top)
            self.machine, self.tables, self.names, self.titles = Machine(self.program, self.folder), None, {}, []
            self.totalled = Totals(self.program, self.path("totais"))

    def close(self):
        with self.lock:
            self.is_closed = True
            if self.folder:
                shutil.rmtree(self.folder, ignore_errors=True)

    def path(self, name):
        return os.path.join(self.folder, name)

    # ---- the requests

    def state(self, asked=None):
        return {"preparada": bool(self.program.library), **self.machine.state()}

    def election(self, asked=None):
        return {"nomes": self.names, "titulos": self.titles}

    def begin(self, asked):
        """Starts another election: a built-in one, or one with the given tables and roll."""
        if "exemplo" in asked:
            anew(self.path("ensaio"))
            tables, roll, zone, section = elections.poll(self.program, self.path("ensaio"), given(asked, "exemplo", TEXT))
        else:
            tables = file_given(asked, "tabelas", elections.MOST_TABLES)
            roll = file_given(asked, "rol", elections.MOST_ROLL)
            zone, section = str(given(asked, "zona", NUMBER)), str(given(asked, "secao", NUMBER))
        ended = self.machine.load(tables, roll, zone, section)
        self.tables, self.names, self.titles = tables, elections.names_in(tables), elections.titles_in(roll)
        return {**self.election(), **self.state(), "carga": ended.told()}

    def press(self, asked):
        lines = self.machine.press(given(asked, "tecla", TEXT))
        return {"linhas": lines, **self.state()}

    def arm(self, asked):
        number = asked.get("operacao")
        if number is not None and not 1 <= given(asked, "operacao", NUMBER) <= 999:
            raise Refused(400, "não há esta operação")
        self.machine.arm(number)
        return self.state()

    def disarm(self, asked):
        self.machine.want_on()
        self.machine.armed = None
        return self.state()

    def switch_off(self, asked):
        self.machine.want_on()
        self.machine.switch_off()
        self.machine.cut = None
        return self.state()

    def switch_on(self, asked):
        return {"resposta": self.machine.switch_on().told(), **self.state()}

    def exchange(self, asked):
        self.machine.exchange(device_given(asked))
        return self.state()

    def reload(self, asked):
        return {"resposta": self.machine.reload(device_given(asked)).told(), **self.state()}

    def check(self, asked):
        return {"resposta": self.machine.check().told()}

    def paper(self):
        return self.machine.paper()

    def recount(self, asked):
        return {"resposta": self.machine.recount().told()}

    def totals(self, asked):
        """The totals of an example, of the example day with the report of this machine, or of the given files; for the latter with the
        tables of the machine, if no others are given."""
        if "exemplo" in asked:
            return self.totalled.tell(*self.example(given(asked, "exemplo", TEXT)))
        tables = file_given(asked, "tabelas", elections.MOST_TABLES) if asked.get("tabelas") is not None else self.tables
        if tables is None:
            raise Refused(409, "faltam as tabelas: carregar uma urna, ou dar também o arquivo das tabelas")
        reports = [(given(it, "nome", TEXT), file_given(it, "base64", elections.MOST_REPORT)) for it in self.files_given(asked)]
        return self.totalled.tell(tables, reports)

    def example(self, name):
        """The tables and the reports of an example."""
        anew(self.path("ensaio"))
        tables, reports = elections.reports(self.program, self.path("ensaio"), name)
        if name == "dia" and self.machine.is_sealed():
            reports = [(REPORT, self.machine.result(REPORT)), *reports]
        return tables, reports

    def verify(self, asked):
        """The program's answer about a certificate of these totals, or about a file that is given instead of it."""
        name = given(asked, "certificado", TEXT)
        if "base64" not in asked:
            return {"resposta": self.totalled.check(name).told()}
        return {"resposta": self.totalled.check_given(name, file_given(asked, "base64", elections.MOST_CERTIFICATE)).told()}

    def files_given(self, asked):
        files = given(asked, "boletins", LIST)
        if not all(isinstance(it, dict) for it in files):
            raise Refused(400, "um boletim não tem a forma")
        return files

    def result(self, name):
        return self.totalled.certificate(name) if name.endswith(".cer") else self.machine.result(name)


class Sessions:
    """All sessions. If there are too many, the one that was idle longest is closed."""

    def __init__(self, program, top):
        self.program, self.top, self.lock = program, top, threading.Lock()
        self.kept = collections.OrderedDict()

    def of(self, token):
        with self.lock:
            if token in self.kept:
                self.kept.move_to_end(token)
            return self.kept.get(token)

    def new(self):
        token, oldest = secrets.token_urlsafe(32), None
        with self.lock:
            if len(self.kept) >= MOST_SESSIONS:
                oldest = self.kept.popitem(last=False)[1]
            self.kept[token] = Session(self.program, self.top)
        if oldest:
            oldest.close()
        return token

    def close(self):
        """Closes each session, after its current request."""
        with self.lock:
            kept = list(self.kept.values())
        for it in kept:
            it.close()
