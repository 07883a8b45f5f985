"""A municipal election by the rules of the rehearsal (docs/FORMATS.md, "The rehearsal") with more sections: its tables, the files of its
reports, its list, and the expected output of `totaliza`, computed from the drawn votes.

Offices, parties and candidates are those of the rehearsal. Drawn are the number of sections, 1 to 400 and seldom many; the voters of
each, 1 to 600 with a median of 300; and the birth dates of the candidates. There are 9 seats, and two more for each 60 sections. Some
80% of the voters come. How many of them vote for a candidate, for a party, blank or null, and how often one is suspended before the vote
for mayor, is as in the rehearsal. The party and the candidate are drawn, some more often than others.

Of 100 sections one has only a damaged report, one has a damaged one beside its own, one has its own twice, and one has a second,
different one. Beside one in 100 is a report of another municipality. The list has all of them in a drawn order.
"""

import json
import os
import random
from collections import Counter, defaultdict
from itertools import accumulate
from typing import NamedTuple

import federations
from parts import parts_file
from rehearsals import PARTIES, SEATS, TYPED

COUNCIL, MAYOR = 13, 11
MAYORS = range(10, 16)
CANDIDATES = [1000 * party + 100 + k for party in PARTIES for k in range(50)]
MOST_SECTIONS, MOST_VOTERS = 400, 600
# What voters of the rehearsal type for councillor, a candidate, a party or blank, and for mayor, and how often.
TYPED_ROWS = [row for remainders, row in TYPED.items() for _ in remainders]
COUNCIL_SHARES = Counter(first if first == "blank" else first[1] for first, _ in TYPED_ROWS)
MAYOR_SHARES = Counter(second for _, second in TYPED_ROWS)
BIRTHS = range(19400101, 20000101, 10000)
DAY = "DTPL:20261004 TURN:1"
HOURS = "DTAB:20261004 HRAB:080000 DTFC:20261004 HRFC:170000"
TABLES, LIST, TOTALS, DRAWN = "tabelas.toml", "lista.txt", "totais.txt", "sorteio.json"


class File(NamedTuple):
    """A listed file: its text, and the place of its section with its votes for councillor and for mayor; or the verdict that refuses it
    on its own."""

    text: str
    place: int = 0
    council: list = []
    mayor: list = []
    fault: str = ""


class Ballot:
    """The choices of an office, each with its share of the votes."""

    def __init__(self, shares):
        self.choices, self.until = list(shares), list(accumulate(shares.values()))

    def votes(self, draw, count):
        return draw.choices(self.choices, cum_weights=self.until, k=count)


def spread(share, weights):
    """A share, divided by these weights."""
    whole = sum(weights.values())
    return {choice: share * weight / whole for choice, weight in weights.items()}


class Municipality:
    """The election of this number. Everything in it depends only on the seed and the number."""

    def __init__(self, seed, number):
        self.seed, self.number = seed, number
        draw = self.drawn_by("tables")
        count = int((MOST_SECTIONS + 1) ** draw.random())
        self.voters = [int(draw.triangular(1, MOST_VOTERS + 1, MOST_VOTERS / 2)) for _ in range(count)]
        self.seats = SEATS + 2 * (count // 60)
        self.births = draw.choices(BIRTHS, k=len(CANDIDATES) + len(MAYORS))
        parties = {party: draw.expovariate(1) for party in PARTIES}
        candidates = {number: parties[number // 1000] * draw.expovariate(1) for number in CANDIDATES}
        named = spread(COUNCIL_SHARES["candidate"], candidates) | spread(COUNCIL_SHARES["party"], parties)
        self.council = Ballot({**named, "BRAN": COUNCIL_SHARES["blank"]})
        named = {number: MAYOR_SHARES[other] for number, other in zip(draw.sample(MAYORS, len(MAYORS)), MAYORS)}
        self.mayor = Ballot({**named, "BRAN": MAYOR_SHARES["blank"], "NULO": MAYOR_SHARES["null"]})

    def drawn_by(self, *what):
        return random.Random(f"{self.seed} {self.number} {what}")

    def section(self, place):
        """The zone and the number of the section at a place."""
        return 1 + place // 100, 1 + place

    def tables(self):
        people = [(COUNCIL, it) for it in CANDIDATES] + [(MAYOR, it) for it in MAYORS]
        rows = {
            "cargo": [
                f'codigo = {COUNCIL}, regra = "proporcional", cadeiras = {self.seats}',
                f'codigo = {MAYOR}, regra = "absoluta", cadeiras = 1',
            ],
            "partido": [f'numero = {party}, nome = "P{party}"' for party in PARTIES],
            "candidato": [
                f'cargo = {code}, numero = {number}, nascimento = {birth}, nome = "C{number}"' for (code, number), birth in zip(people, self.births)
            ],
            "secao": ["zona = {}, secao = {}, eleitores = {}".format(*self.section(place), count) for place, count in enumerate(self.voters)],
        }
        return tables_of(self.number, rows)

    # ---- files

    def fields(self, place, council, mayor):
        """The field text of the report of a section with these votes."""
        voters, head = self.voters[place], head_fields(self.number, self.section(place), self.voters[place], len(council))
        return " ".join([head, *council_fields(voters, Counter(council)), *mayor_fields(voters, Counter(mayor))])

    def drawn_votes(self, draw, place):
        """The votes for councillor and for mayor of those who come."""
        came = round(self.voters[place] * draw.uniform(0.7, 0.9))
        suspended = came // 80
        return self.council.votes(draw, came), self.mayor.votes(draw, came - suspended) + ["NULO"] * suspended

    def report(self, place, which="first"):
        """The file of a report of a section."""
        votes = self.drawn_votes(self.drawn_by(place, which), place)
        return File(parts_file(self.fields(place, *votes)), place, *votes)

    def files(self, others):
        """The listed files in order; some are of municipalities with these numbers."""
        draw, found = self.drawn_by("files"), []
        for place in range(len(self.voters)):
            report = self.report(place)
            case = draw.randrange(100)
            if case in (0, 1):
                found.append(damaged(draw, report.text, self.voters[place]))
            if case != 0:
                found.append(report)
            if case == 2:
                found.append(report)
            if case == 3:
                found.append(self.report(place, "second"))
            if draw.randrange(100) == 0:
                other = Municipality(self.seed, draw.choice(others))
                found.append(File(other.report(draw.randrange(len(other.voters))).text, fault="ESTRANHO"))
        draw.shuffle(found)
        return found

    # ---- the expected output

    def told(self, files):
        """The verdict on each file of the list, and the sums of the accepted ones by office and choice."""
        accepted, verdicts, sums = {}, [], {COUNCIL: Counter(), MAYOR: Counter()}
        for file in files:
            section = "{} {}".format(*self.section(file.place))
            if file.fault:
                verdicts.append(file.fault)
            elif file.place in accepted:
                verdicts.append(f"{'REPETIDO' if accepted[file.place] == file.text else 'CONFLITO'} {section}")
            else:
                accepted[file.place] = file.text
                verdicts.append(f"ACEITO {section}")
                sums[COUNCIL].update(file.council)
                sums[MAYOR].update(file.mayor)
        return verdicts, [(code, it, count) for code, cast in sums.items() for it, count in cast.items()]


def tables_of(number, rows):
    """The tables of the election of this number, with the rows of each array."""
    arrays = "".join(f"{name} = [\n" + "".join(f"  {{{row}}},\n" for row in its) + "]\n" for name, its in rows.items())
    return f"processo = {number}\ndata = 20261004\nturno = 1\n{arrays}"


def head_fields(number, section, voters, came):
    """The fields of a report before its offices; the section is its zone and its number."""
    zone, its = section
    return f"ORIG:VOTA PROC:{number} {DAY} ZONA:{zone} SECA:{its} APTO:{voters} COMP:{came} FALT:{voters - came} {HOURS}"


def council_fields(voters, cast):
    """The fields of the office of councillor, with the number of votes of each choice."""
    blank, null = cast.pop("BRAN", 0), cast.pop("NULO", 0)
    named, told, nominal, legend = defaultdict(list), [], 0, 0
    for number in sorted(cast):
        own = named[number // 1000 if number > 99 else number]
        if number > 99:
            own.append(number)
    for party, own in sorted(named.items()):
        votes = sum(cast[number] for number in own)
        told += [f"PART:{party}", *[f"{number}:{cast[number]}" for number in own], f"LEGP:{cast[party]}", f"TOTP:{votes + cast[party]}"]
        nominal, legend = nominal + votes, legend + cast[party]
    sums = f"APTA:{voters} NOMI:{nominal} LEGC:{legend} BRAN:{blank} NULO:{null} TOTC:{nominal + legend + blank + null}"
    return [f"CARG:{COUNCIL} TIPO:1", *told, sums]


def mayor_fields(voters, cast):
    """The same of the office of mayor."""
    blank, null = cast.pop("BRAN", 0), cast.pop("NULO", 0)
    nominal = cast.total()
    told = [f"{number}:{cast[number]}" for number in sorted(cast)]
    return [f"CARG:{MAYOR} TIPO:0", *told, f"APTA:{voters} NOMI:{nominal} BRAN:{blank} NULO:{null} TOTC:{nominal + blank + null}"]


def damaged(draw, whole, voters):
    """A file made from a report by damaging it, with its fault ("Faults of a file" and "Faults of a report text" of docs/FORMATS.md)."""
    lines = whole.splitlines(keepends=True)
    fields = " ".join(field for line in lines for field in line.split(" ")[2:-1])
    part, cut = draw.randrange(len(lines)), whole[: draw.randrange(len(whole))]
    before, mark, said = lines[part].partition(" HASH:")
    other = f"{before[:-1]}{(int(before[-1]) + 1) % 10}{mark}{said}"
    missing = fields.split(" ")[8]
    kinds = [
        ("".join([*lines[:part], other, *lines[part + 1 :]]), f"PARTE HASH {part + 1}"),
        (cut, "PARTE NUMERO 1" if "\n" in cut else "PARTE FORMA 1"),
        (whole.replace("VRQR:U1", "VRQR:U2", 1), "PARTE VERSAO 1"),
        (parts_file(fields.replace("TURN:1", "TURN:01", 1)), "CAMPO 4"),
        (parts_file(fields.replace(missing, f"FALT:{int(missing[5:]) + 1}", 1)), f"SOMA 9 {voters + 1} {voters}"),
    ]
    text, fault = draw.choice(kinds)
    return File(text, fault=fault)


def mayor_lines(tables, sums):
    """The lines of the office of mayor ("The majority" of docs/RULES.md)."""
    votes = {number: sums[MAYOR, number] for number, _ in federations.people_of(tables, MAYOR)}
    valid, blank, null = sum(votes.values()), sums[MAYOR, "BRAN"], sums[MAYOR, "NULO"]
    ranked = sorted((-votes[number], birth, number) for number, birth in federations.people_of(tables, MAYOR))
    yield f"CARGO {MAYOR} VALIDOS {valid} NOMINAIS {valid} LEGENDA 0 BRANCOS {blank} NULOS {null} TOTAL {valid + blank + null}"
    yield from (f"CANDIDATO {number} VOTOS {count}" for number, count in votes.items())
    if not valid:
        yield "NINGUEM"
    elif -2 * ranked[0][0] > valid:
        yield f"ELEITO {ranked[0][2]}"
    else:
        yield f"SEGUNDO TURNO {ranked[0][2]} {ranked[1][2]}"


def wanted(tables, verdicts, told):
    """The expected output of `totaliza` for these verdicts and sums."""
    sums = Counter({(code, it): count for code, it, count in told})
    accepted = sum(verdict.startswith("ACEITO ") for verdict in verdicts)
    lines = [f"{number} {verdict}" for number, verdict in enumerate(verdicts, 1)]
    lines += [f"SECOES {accepted} DE {len(tables['secao'])}", *federations.office_lines(tables, tables["cargo"][0], sums)]
    return "".join(f"{line}\n" for line in [*lines, *mayor_lines(tables, sums)])


def write(folder, name, text):
    with open(os.path.join(folder, name), "w") as file:
        file.write(text)


def make(seed, number, count, folder):
    """Makes the folder of one of this many municipalities, with its documents, and a file with what was drawn."""
    its = Municipality(seed, number)
    files = its.files([*range(1, number), *range(number + 1, count + 1)] or [number + 1])
    os.mkdir(folder)
    for place, file in enumerate(files, 1):
        write(folder, f"{place}.bu", file.text)
    write(folder, TABLES, its.tables())
    write(folder, LIST, "".join(f"{place}.bu\n" for place in range(1, len(files) + 1)))
    write(folder, DRAWN, json.dumps(its.told(files)))
