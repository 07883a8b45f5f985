"""The largest report that the limits allow (docs/FORMATS.md, "Limits"), and the tables of its election: all offices, all parties, 600
voters who came, and as many candidates as their votes can name."""

import os
import sys

sys.path.append(os.path.join(os.path.dirname(os.path.dirname(os.path.abspath(__file__))), "tools"))

import parts

VOTERS = 600
PARTIES = range(10, 50)
MAJORITY, PROPORTIONAL = {1: 2, 3: 2, 5: 3, 11: 2}, {6: 4, 7: 5, 8: 5, 13: 5}
# The offices in the order of the panels, each with its digits.
OFFICES = {1: 2, 3: 2, 5: 3, 6: 4, 7: 5, 8: 5, 11: 2, 13: 5}
HEAD = "ORIG:VOTA PROC:99999 DTPL:20261004 TURN:1 ZONA:9999 SECA:9999 APTO:600 COMP:600 FALT:0 DTAB:20261004 HRAB:080000 DTFC:20261004 HRFC:170000"
# The maximum length of a name.
LONG = 70


def votes_of(code):
    """How many votes an office has."""
    return VOTERS * (2 if code == 5 else 1)


def candidates_of(code):
    """The candidates of an office, the same number of each party: all that its numbers allow, or one for each vote."""
    digits = OFFICES[code] - 2
    each = min(10**digits, votes_of(code) // len(PARTIES))
    return {party: [party * 10**digits + it for it in range(each)] for party in PARTIES}


def majority_fields(code):
    candidates = [it for own in candidates_of(code).values() for it in own]
    each = votes_of(code) // len(candidates)
    places = ["LUGA:2"] if code == 5 else []
    return ["TIPO:0", *places, *(f"{it}:{each}" for it in candidates), "APTA:600", f"NOMI:{votes_of(code)}"]


def proportional_fields(code):
    fields = ["TIPO:1"]
    for party, candidates in candidates_of(code).items():
        fields += [f"PART:{party}", *(f"{it}:1" for it in candidates), "LEGP:0", f"TOTP:{len(candidates)}"]
    return [*fields, "APTA:600", "NOMI:600", "LEGC:0"]


def fields_of(code):
    fields = majority_fields(code) if code in MAJORITY else proportional_fields(code)
    return [f"CARG:{code}", *fields, "BRAN:0", "NULO:0", f"TOTC:{votes_of(code)}"]


def report():
    return parts.parts_file(" ".join([HEAD, *(it for code in OFFICES for it in fields_of(code))])).encode()


def office(code):
    rule, seats = ("proporcional", 200) if code in PROPORTIONAL else ("simples", 2 if code == 5 else 1)
    return f'{{codigo = {code}, regra = "{rule}", cadeiras = {seats}}}'


def tables():
    """The tables, with names of the maximum length."""
    candidates = [(code, it) for code in OFFICES for own in candidates_of(code).values() for it in own]
    rows = {
        "cargo": map(office, OFFICES),
        "partido": (f'{{numero = {it}, nome = "{f"PARTIDO {it} ".ljust(LONG, "P")}"}}' for it in PARTIES),
        "candidato": (
            f'{{cargo = {code}, numero = {it}, nascimento = 19600101, nome = "{f"CANDIDATO {it} ".ljust(LONG, "C")}"}}' for code, it in candidates
        ),
        "secao": ["{zona = 9999, secao = 9999, eleitores = 600}"],
    }
    lines = [f"{key} = [\n  " + ",\n  ".join(it) + "\n]" for key, it in rows.items()]
    return "\n".join(["processo = 99999", "data = 20261004", "turno = 1", *lines, ""]).encode()
