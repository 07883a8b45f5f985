#!/usr/bin/env python3
"""The example of the electoral quotient that the TSE has published for years, as an election for councillor. known.py writes its tables,
the reports of its sections and their list beside itself, and `make check-house` compares them.

The example has 9 seats, four parties with 1,900, 1,350, 550 and 2,250 valid votes, and 300 blank and 250 null ones. Chosen here: how a
party's votes are split among its candidates, and how all votes are split among twelve sections; in each 550 of 600 voters came.
"""

import os
import sys
from collections import Counter

EXAMPLES = os.path.dirname(os.path.abspath(__file__))
sys.dont_write_bytecode = True
sys.path += [os.path.join(os.path.dirname(EXAMPLES), "tools")]

from municipality import COUNCIL, council_fields, head_fields, tables_of, write
from parts import parts_file

PROCESS, SEATS, SECTIONS, VOTERS = 8, 9, 12, 600
# Each party's name, its party votes, and its candidates with their votes. QE is 672, so arts. 108 and 109 require 68 votes of a candidate
# for a seat of the first phase, and 135 for one of the second. AMELIA and DULCE have too few for either.
PARTIES = {
    10: ("PARTIDO A", 200, {"ALICE": 620, "ARTUR": 480, "AURORA": 330, "ANTONIO": 210, "AMELIA": 60}),
    20: ("PARTIDO B", 170, {"BENEDITA": 450, "BRUNO": 340, "BEATRIZ": 240, "BENTO": 150}),
    30: ("PARTIDO C", 70, {"CECILIA": 260, "CAIO": 140, "CARLA": 80}),
    40: ("PARTIDO D", 220, {"DANIEL": 640, "DORA": 500, "DAVI": 390, "DALVA": 280, "DIEGO": 170, "DULCE": 50}),
}
BLANK, NULL = 300, 250
TABLES, LIST = "conhecida.toml", "conhecida-lista.txt"


def candidates():
    """The number of each candidate, with the name and the votes."""
    for party, (_, _, them) in PARTIES.items():
        for place, (name, votes) in enumerate(them.items(), 1):
            yield 1000 * party + place, name, votes


def tables():
    return tables_of(
        PROCESS,
        {
            "cargo": [f'codigo = {COUNCIL}, regra = "proporcional", cadeiras = {SEATS}'],
            "partido": [f'numero = {party}, nome = "{name}"' for party, (name, _, _) in PARTIES.items()],
            "candidato": [f'cargo = {COUNCIL}, numero = {number}, nascimento = 19600101, nome = "{name}"' for number, name, _ in candidates()],
            "secao": [f"zona = 1, secao = {section}, eleitores = {VOTERS}" for section in range(1, 1 + SECTIONS)],
        },
    )


def votes():
    """All votes, choice by choice."""
    cast = {number: count for number, _, count in candidates()} | {party: legend for party, (_, legend, _) in PARTIES.items()}
    return list(Counter(cast | {"BRAN": BLANK, "NULO": NULL}).elements())


def report(section):
    """The file of the report of a section. All votes are dealt to the sections, one by one."""
    own = votes()[section - 1 :: SECTIONS]
    return parts_file(" ".join([head_fields(PROCESS, (1, section), VOTERS, len(own)), *council_fields(VOTERS, Counter(own))]))


def files():
    """The text of each file that is written, by name."""
    reports = {f"conhecida-{section}.bu": report(section) for section in range(1, 1 + SECTIONS)}
    return {TABLES: tables(), **reports, LIST: "".join(f"{name}\n" for name in reports)}


if __name__ == "__main__":
    for name, text in files().items():
        write(EXAMPLES, name, text)
