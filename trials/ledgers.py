"""Ledgers of a counting centre for the scripts of this folder, written only from docs/FORMATS.md: an election of some sections, the
files of their reports with the verdict on each, and flashes whose every state is known to the byte.

A ledger is identified by the files that it has accepted, by the places of their sections.
"""

import hashlib
from typing import NamedTuple

from parts import parts_file
from polls import HEADER, HOURS, PARTIES

BODY = 262144
SLOT = 512 + BODY
GATES = (512, 512 + SLOT)
LENGTH = 512 + 2 * SLOT
MAGIC = b"URNALG\0\0"
# Where the hashes and the sums of a body begin.
HASHES, SUMS = 512, 128512

PARTY_NUMBERS = (13, 45)
OFFICES = """cargo = [
  {codigo = 13, regra = "proporcional", cadeiras = 5},
  {codigo = 5, regra = "simples", cadeiras = 2},
  {codigo = 11, regra = "absoluta", cadeiras = 1},
]
"""
CODES = (13, 5, 11)
# How many votes a voter has in each.
PLACES = (1, 2, 1)
# The kinds of a choice, in their order.
NOMINAL, PARTY, BLANK, NULL = 1, 2, 3, 4


class File(NamedTuple):
    """A listed file: its bytes, the place of its section and the votes of its report, for each panel by choice; or the verdict that
    refuses it on its own."""

    content: bytes
    place: int = 0
    votes: tuple = ()
    fault: str = ""


def last_hash(content):
    """The bytes of the hash of a report's last part."""
    return bytes.fromhex(content[-129:-1].decode())


def open_bodies(flash):
    return [flash[gate + 512 : gate + 512 + BODY] for gate in GATES if flash[gate] == 0xA5]


def is_in_use(flash):
    """Whether it has a ledger with a report, of any tables."""
    return flash.startswith(MAGIC) and any(any(body[4:8]) for body in open_bodies(flash))


class Centre:
    """An election of three offices and of sections with these numbers of voters, and with this many candidates for councillor in each
    party."""

    def __init__(self, voters, people=1):
        self.voters = voters
        self.sections = [(1 + place // 2, 42 + place) for place in range(len(voters))]
        council = [1000 * party + number for party in PARTY_NUMBERS for number in range(1, people + 1)]
        named = [council, [131, 451], list(PARTY_NUMBERS)]
        council_choices = [(PARTY, party) for party in PARTY_NUMBERS]
        self.choices = [
            [*((NOMINAL, number) for number in numbers), *(council_choices if code == 13 else []), (BLANK, 0), (NULL, 0)]
            for code, numbers in zip(CODES, named)
        ]
        people = "".join(
            f'  {{cargo = {code}, numero = {number}, nascimento = 19700101, nome = "C{number}"}},\n'
            for code, numbers in zip(CODES, named)
            for number in numbers
        )
        sections = "".join(
            f"  {{zona = {zone}, secao = {section}, eleitores = {count}}},\n" for (zone, section), count in zip(self.sections, voters)
        )
        self.tables = f"{HEADER}{OFFICES}{PARTIES}candidato = [\n{people}]\nsecao = [\n{sections}]\n".encode()

    # ---- reports

    def fields(self, place, votes):
        """The fields of the report of a section with these votes."""
        zone, section = self.sections[place]
        voters, came = self.voters[place], sum(votes[0].values())
        text = f"ORIG:VOTA PROC:7 DTPL:20261004 TURN:1 ZONA:{zone} SECA:{section} APTO:{voters} COMP:{came} FALT:{voters - came} {HOURS}"
        for code, places, bag in zip(CODES, PLACES, votes):
            text += f" CARG:{code} TIPO:{int(code == 13)}" + (f" LUGA:{places}" if places > 1 else "")
            text += party_fields(bag) if code == 13 else nominal_fields(bag, str)
            nominal, party, blank, null = (votes_of(bag, kind) for kind in (NOMINAL, PARTY, BLANK, NULL))
            text += f" APTA:{voters} NOMI:{nominal}" + (f" LEGC:{party}" if code == 13 else "")
            text += f" BRAN:{blank} NULO:{null} TOTC:{nominal + party + blank + null}"
        return text

    def votes(self, draw, place):
        """The votes of a section in which some come, for each panel by choice."""
        bags = [dict.fromkeys(choices, 0) for choices in self.choices]
        for _ in range(draw.randint(0, self.voters[place])):
            for places, choices, bag in zip(PLACES, self.choices, bags):
                chosen = [draw.choice(choices) for _ in range(places)]
                if places == 2 and chosen[0] == chosen[1] and chosen[0][0] == NOMINAL:
                    chosen[1] = (NULL, 0)
                for choice in chosen:
                    bag[choice] += 1
        return tuple(bags)

    def report(self, draw, place):
        """The file of a report of a section."""
        votes = self.votes(draw, place)
        return File(parts_file(self.fields(place, votes)).encode(), place, votes)

    def other(self, draw, file):
        """Another report of a file's section."""
        while (found := self.report(draw, file.place)).content == file.content:
            pass
        return found

    def faulty(self, draw):
        """A file that is refused on its own."""
        place = draw.randrange(len(self.voters))
        text = self.fields(place, self.votes(draw, place))
        whole = parts_file(text)
        kinds = [
            (whole.replace("PROC:7", "PROC:8", 1), "PARTE HASH 1"),
            (whole[:-1], "PARTE NUMERO 1" if whole.count("\n") > 1 else "PARTE FORMA 1"),
            ("", "PARTE FORMA 1"),
            (parts_file(text.replace("TURN:1", "TURN:01", 1)), "CAMPO 4"),
            (parts_file(text.replace("PROC:7", "PROC:8", 1)), "ESTRANHO"),
            (parts_file(text.replace("SECA:", "SECA:9", 1)), "ESTRANHO"),
        ]
        content, fault = draw.choice(kinds)
        return File(content.encode(), fault=fault)

    def offered(self, ledger, file):
        """The verdict on a file that is offered to a ledger, and the ledger after it."""
        if file.fault:
            return file.fault, ledger
        zone, section = self.sections[file.place]
        kept = ledger.get(file.place)
        if kept is None:
            return f"ACEITO {zone} {section}", {**ledger, file.place: file}
        same = last_hash(kept.content) == last_hash(file.content)
        return f"{'REPETIDO' if same else 'CONFLITO'} {zone} {section}", ledger

    def documents(self, listed):
        """The files of a command over this list of files, by name."""
        names = "".join(f"{name}\n" for name in listed)
        return {"tables": self.tables, "list": names.encode(), **{name: file.content for name, file in listed.items()}}

    # ---- sums

    def sums(self, ledger, panel):
        """The sum of each choice of a panel, in order."""
        return [sum(file.votes[panel][choice] for file in ledger.values()) for choice in self.choices[panel]]

    def totals(self, ledger):
        """What `totais` shows for a ledger."""
        lines = [f"SECOES {len(ledger)} DE {len(self.voters)}"]
        for panel, code in enumerate(CODES):
            bag = dict(zip(self.choices[panel], self.sums(ledger, panel)))
            nominal, party, blank, null = (votes_of(bag, kind) for kind in (NOMINAL, PARTY, BLANK, NULL))
            lines.append(
                f"CARGO {code} VALIDOS {nominal + party} NOMINAIS {nominal} LEGENDA {party} BRANCOS {blank} NULOS {null}"
                f" TOTAL {nominal + party + blank + null}"
            )
            lines += [f"CANDIDATO {number} VOTOS {votes}" for (kind, number), votes in bag.items() if kind == NOMINAL]
        return "".join(line + "\n" for line in lines).encode()

    # ---- flashes

    def frame(self, device):
        """A flash of a ledger of these tables, 0 the internal one, with no slot open."""
        return (MAGIC + bytes([device + 1]) + hashlib.sha256(self.tables).digest()).ljust(LENGTH, b"\0")

    def frames(self):
        return [self.frame(device) for device in (0, 1)]

    def is_framed(self, flash, device):
        return flash[:512] == self.frame(device)[:512] and not any(any(flash[gate + 1 : gate + 512]) for gate in GATES)

    def body(self, ledger):
        """The body of a slot with a ledger ("Body of a ledger")."""
        body = bytearray(BODY)
        body[0] = 1
        body[4:8] = len(ledger).to_bytes(4, "big")
        for place, file in ledger.items():
            body[8 + place // 8] |= 128 >> place % 8
            body[HASHES + 64 * place : HASHES + 64 * place + 64] = last_hash(file.content)
        sums = b"".join(it.to_bytes(8, "big") for panel in range(len(CODES)) for it in self.sums(ledger, panel))
        body[SUMS : SUMS + len(sums)] = sums
        return bytes(body)

    def flashes(self, ledger):
        """Both flashes at rest with a ledger: both slots of each are open with its body."""
        flashes, body = [bytearray(frame) for frame in self.frames()], self.body(ledger)
        for flash in flashes:
            for gate in GATES:
                flash[gate] = 0xA5
                flash[gate + 512 : gate + 512 + BODY] = body
        return [bytes(flash) for flash in flashes]


    def strange_body(self, draw, ledger):
        """A body that is not a ledger's: a ledger's body with one thing changed, and what was changed."""
        body, number = bytearray(self.body(ledger)), len(ledger)
        free = draw.choice([place for place in range(2000) if place not in ledger])
        past = one_of(draw, range(len(self.voters), 2000))
        sums = sum(map(len, self.choices))
        kind = draw.choice(["version", "front", "fewer", "more", "an unknown section", "after the marks", "hash", "sum", "end"])
        if kind == "an unknown section":
            body[8 + past // 8] |= 128 >> past % 8
        if kind in ("fewer", "more") or (kind == "an unknown section" and draw.random() < 0.5):
            body[4:8] = (number + (-1 if kind == "fewer" else 1)).to_bytes(4, "big")
        if kind == "sum":
            at = SUMS + 8 * draw.randrange(sums)
            body[at : at + 8] = (9999 * number + 1).to_bytes(8, "big")
        ranges = {
            "version": range(1),
            "front": range(1, 4),
            "after the marks": range(258, 512),
            "hash": range(HASHES + 64 * free, HASHES + 64 * free + 64),
            "end": range(SUMS + 8 * sums, BODY),
        }
        if kind in ranges:
            body[one_of(draw, ranges[kind])] = draw.randint(2, 255)
        return bytes(body), kind


def one_of(draw, places):
    """The first of these, the last, or any."""
    return draw.choice([places[0], places[-1], draw.choice(places)])


def votes_of(bag, kind):
    """All votes of a kind."""
    return sum(votes for (its, _), votes in bag.items() if its == kind)


def nominal_fields(bag, is_listed):
    """The fields of the listed candidates that have a vote."""
    return "".join(f" {number}:{votes}" for (kind, number), votes in bag.items() if kind == NOMINAL and votes and is_listed(number))


def party_fields(bag):
    """The fields of each party with a vote."""
    text = ""
    for party in PARTY_NUMBERS:
        own = sum(votes for (kind, number), votes in bag.items() if kind == NOMINAL and number // 1000 == party)
        whole = own + bag[PARTY, party]
        if whole:
            listed = nominal_fields(bag, lambda number: number // 1000 == party)
            text += f" PART:{party}{listed} LEGP:{bag[PARTY, party]} TOTP:{whole}"
    return text


class Taking:
    """A `recebe` of a list of files over a ledger: the ledgers after each file, the output, and the status."""

    def __init__(self, centre, ledger, listed):
        self.centre, self.listed, self.states, lines = centre, listed, [ledger], [f"LIVRO {len(ledger)}\n"]
        for number, file in enumerate(listed.values(), 1):
            verdict, ledger = centre.offered(ledger, file)
            self.states.append(ledger)
            lines.append(f"{number} {verdict}\n")
        self.ledger = ledger
        self.lines = [line.encode() for line in lines]
        self.shown = b"".join(self.lines)
        self.status = 6 if any(b" ACEITO " not in line for line in self.lines[1:]) else 0

    def allowed(self, count):
        """The ledgers of which the flashes hold one after this many shown bytes: that with as many reports as verdicts had begun to be
        shown, or one more; if nothing was shown, the one that was found."""
        if count == 0:
            return self.states[:1]
        starts = [sum(map(len, self.lines[:at])) for at in range(1, len(self.lines))]
        begun = sum(start < count for start in starts)
        return self.states[begun : begun + 2]
