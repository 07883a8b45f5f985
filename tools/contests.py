"""A model of what `certifica` and `verifica` print for given files. It reads tables, lists and reports as tools/offers.py does, computes
the contest of an office as for the totals (tools/federations.py), and writes and judges the certificate with tools/certificates.py. It
covers all commands of the script `certificates` (crates/session_tests), and those of `known` except `totaliza`.

`other_answers` returns the lines of these scripts with another answer.
"""

import re
from collections import Counter

import certificates
import federations
import offers
import recounts

FAULTS = {"quotient": "QUOCIENTE", "first": "PRIMEIRA", "round": "RODADA", "end": "FIM"}


def told(code, judged):
    """The line of a verdict on a text, and the status of the command."""
    kind, *number = judged.split(" ")
    if kind == "valid":
        return f"CERTIFICADO VALIDO {code}", 0
    if kind == "line":
        return f"ERRO CERTIFICADO LINHA {number[0]}", 10
    return " ".join(["RECUSADO", FAULTS[kind], *number]), 11


class Run(offers.Run):
    """A command over files. A certificate that it writes is added to them, and its name to `made`."""

    def __init__(self, words, files, faults=offers.NO_FAULTS):
        self.made = []
        super().__init__(words, None, files, faults)

    def run(self, words):
        forms = {"certifica": self.certifica, "verifica": self.verifica}
        if len(words) != 5 or words[0] not in forms or not re.fullmatch("[1-9][0-9]?", words[3]):
            self.refuse("ERRO USO", 2)
        _, tables, listed, code, name = words
        self.office = int(code)
        self.contest = self.contest_of(self.tables(tables), listed)
        forms[words[0]](name)

    def contest_of(self, tables, listed):
        """The seats and the parties of the office's contest over the accepted reports of a list."""
        offices = [it for it in tables.document["cargo"] if it["codigo"] == self.office and it["regra"] == "proporcional"]
        if not offices:
            self.refuse("ERRO CARGO", 36)
        ledger = offers.Ledger()
        for name in self.names(listed):
            _, ledger = ledger.offer(tables, self.take(name, "BOLETIM"))
        return offices[0]["cadeiras"], federations.contestants(tables.document, self.office, Counter(ledger.sums))

    def certifica(self, out):
        if not certificates.comes_to_seats(*self.contest):
            self.refuse("ERRO SEM VAGAS", 37)
        self.call()
        self.made.append(f"{out}.cer")
        self.files[f"{out}.cer"] = certificates.certificate(self.office, *self.contest)
        for party, rank, number in certificates.substitutes(*self.contest):
            self.show(f"SUPLENTE {party} {rank} {number}")
        self.show(f"CERTIFICADO {self.office}")

    def check(self, text):
        return told(self.office, certificates.judged(self.office, *self.contest, text))

    def verifica(self, name):
        line, number = self.check(self.take(name, "CERTIFICADO"))
        if number == 10:
            self.refuse(line, number)
        self.show(line)
        raise offers.End(number)

    def answer(self):
        return super().answer() + [f"+ {name}" for name in self.made]


def run(words, files):
    """A command over files of bytes, each byte as one character."""
    return Run(words, {name: content.decode("latin-1") for name, content in files.items()})


class Play(offers.Play):
    """The state of the script so far. Its commands write on no flash."""

    def run(self, words):
        self.last, self.words = Run(words, self.files, self.faults), words
        return self.last.answer()

    def anew(self, files):
        return Run(self.words, files, self.faults).answer()

    def told_of(self, text):
        """What the last command, a `verifica`, prints for another text instead of the certificate."""
        line, number = self.last.check(text.decode("latin-1"))
        return f"{line} = {number}" if number else line

    def step(self, line):
        word, *rest = line.split(" ")
        if word == "urna" and rest[:1] == ["totaliza"]:
            # tools/federations.py checks the totals.
            self.last = None
        elif word == "urna":
            return self.run(rest)
        if word == "print":
            return self.files[rest[0]].splitlines() if rest[0] in self.files else ["is not there"]
        if word == "same":
            return ["the same" if self.files[rest[0]] == self.files[rest[1]] else "not the same"]
        if word == "answers":
            return recounts.answers(self.told_of, self.files[rest[0]].encode())
        return super().step(line)


def other_answers():
    for script in ("certificates", "known"):
        yield from offers.others(script, Play())
