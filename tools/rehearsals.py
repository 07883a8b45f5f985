"""The rehearsal of docs/FORMATS.md, "The rehearsal", computed by the rules: who comes, what is typed, the report's text, the seats and
the lines.

`other_rows` returns the numbers of voters for which the scripts of crates/session_tests have other lines.
"""

import re
from collections import Counter

import parts
import seats

PARTIES = range(10, 30)
SEATS = 9
# How many numbers of voters have lines in a script (docs/PROVED.md).
NUMBERS = 9
ROW = re.compile(r"^urna ensaio (\d+)\n(    ENSAIO .*\n(?:    [A-Z]+ .*\n)+)(?=    \+ )", re.MULTILINE)

# Remainders by 20, what is typed in panel 1 (a party's candidate, or a party's vote, or BRANCO), and what in panel 2.
TYPED = {
    (0, 1, 2, 5): ((10, "candidate"), 10),
    (3,): ((10, "party"), 10),
    (6, 7, 10): ((11, "candidate"), 11),
    (11,): ((11, "candidate"), 12),
    (12,): ((12, "candidate"), 12),
    (13,): ((12, "party"), 13),
    (15,): ((12, "candidate"), 14),
    (16,): ((13, "candidate"), 15),
    (17,): ((14, "candidate"), "blank"),
    (8, 18): ("blank", "null"),
}


class Poll:
    """What was counted: the votes of each panel, who came and who was suspended."""

    def __init__(self, voters):
        self.voters, self.came, self.suspended = voters, 0, 0
        self.councillor, self.mayor = Counter(), Counter()
        for place in range(voters):
            for remainders, (first, second) in TYPED.items():
                if place % 20 in remainders:
                    self.add(place, first, second)

    def add(self, place, first, second):
        self.came += 1
        if first != "blank":
            party, kind = first
            first = 1000 * party + 100 + place // 160 if kind == "candidate" else party
        self.councillor[first] += 1
        if place % 80 == 7:
            self.suspended += 1
            second = "null"
        self.mayor[second] += 1

    def numbers(self, votes):
        return sorted(number for number in votes if isinstance(number, int))

    def candidates_of(self, party):
        return [n for n in self.numbers(self.councillor) if n // 1000 == party]

    def sums(self, votes, nominal, legend):
        """The fields that end an office."""
        told = [f"APTA:{self.voters}", f"NOMI:{nominal}"] + ([] if legend is None else [f"LEGC:{legend}"])
        return told + [f"BRAN:{votes['blank']}", f"NULO:{votes['null']}", f"TOTC:{self.came}"]

    def fields(self):
        told = ["ORIG:VOTA", "PROC:1", "DTPL:20261004", "TURN:1", "ZONA:1", "SECA:1"]
        told += [f"APTO:{self.voters}", f"COMP:{self.came}", f"FALT:{self.voters - self.came}"]
        told += ["DTAB:20261004", "HRAB:080000", "DTFC:20261004", "HRFC:170000", "CARG:13", "TIPO:1"]
        nominal = legend = 0
        for party in PARTIES:
            own = self.candidates_of(party)
            votes, alone = sum(self.councillor[n] for n in own), self.councillor[party]
            if votes + alone:
                told += [f"PART:{party}", *(f"{n}:{self.councillor[n]}" for n in own), f"LEGP:{alone}", f"TOTP:{votes + alone}"]
            nominal, legend = nominal + votes, legend + alone
        told += self.sums(self.councillor, nominal, legend)
        mayors = self.numbers(self.mayor)
        told += ["CARG:11", "TIPO:0", *(f"{n}:{self.mayor[n]}" for n in mayors)]
        return told + self.sums(self.mayor, sum(self.mayor[n] for n in mayors), None)

    def report(self):
        """The file of the report."""
        return parts.parts_file(" ".join(self.fields()))

    def contest(self):
        """The contest for councillor, in the form of the rows of crates/seat_tests: each party has 50 candidates."""
        told = [f"{SEATS} seats"]
        for party in PARTIES:
            votes = [self.councillor[1000 * party + 100 + k] for k in range(50)]
            told.append(f"{party}: L{self.councillor[party]} " + " ".join(map(str, votes)))
        return ", ".join(told)

    def councillor_lines(self):
        told = seats.outcome(self.contest())
        valid = sum(self.councillor[n] for n in self.numbers(self.councillor))
        yield f"CARGO 13 VALIDOS {valid} BRANCOS {self.councillor['blank']} NULOS {self.councillor['null']}"
        if told.startswith("QE "):
            quotient, vacant = re.match(r"QE (\d+)", told)[1], re.search(r"vacant (\d+)$", told)[1]
            yield f"CARGO 13 QUOCIENTE {quotient} VAGAS {SEATS} VACANTES {vacant}"
            given = re.findall(r"(\d+): \d+ \d+ (\d+)", told)
            yield "CARGO 13 ELEITOS" + "".join(f" {party}:{n}" for party, n in given if n != "0")
        else:
            kind = "SEM QUOCIENTE" if told.startswith("no quotient") else "QUOCIENTE EXCEDIDO"
            yield f"CARGO 13 {kind} {' '.join(told.split()[-2:])}"
            yield "CARGO 13 ELEITOS"

    def mayor_lines(self):
        # More votes first; among equals, all born on one day, the lower number.
        ranked = sorted(self.numbers(self.mayor), key=lambda n: (-self.mayor[n], n))
        valid = sum(self.mayor[n] for n in ranked)
        yield f"CARGO 11 VALIDOS {valid} BRANCOS {self.mayor['blank']} NULOS {self.mayor['null']}"
        if not ranked:
            yield "CARGO 11 NINGUEM"
        elif 2 * self.mayor[ranked[0]] > valid:
            yield f"CARGO 11 ELEITO {ranked[0]}"
        else:
            yield f"CARGO 11 SEGUNDO TURNO {ranked[0]} {ranked[1]}"

    def lines(self):
        told = [f"ENSAIO {self.voters}", f"COMP {self.came}", f"FALT {self.voters - self.came}", f"SUSPENSOS {self.suspended}"]
        told += [*self.councillor_lines(), *self.mayor_lines(), f"PARTES {len(self.report().splitlines())}"]
        return "".join(line + "\n" for line in told)


def other_rows(text):
    rows = ROW.findall(text)
    if len({voters for voters, _ in rows}) != NUMBERS:
        yield f"{len(rows)} rehearsals found, expected {NUMBERS}, each with another number of voters"
    for voters, told in rows:
        if Poll(int(voters)).lines() != re.sub(r"^    ", "", told, flags=re.MULTILINE):
            yield f"{voters} voters: the rules give {Poll(int(voters)).lines()!r}"
