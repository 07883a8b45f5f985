"""Draws elections and certifies each proportional office. The certificate that `certifica` writes, and the substitutes that it prints,
are those of an independent writer. For changed certificates - a line left out, doubled or swapped with the next one, a number greater or
less by one - `verifica` prints what an independent reader does (tools/contests.py). For the first ten certificates that aren't long
every such change is judged, for the others a drawn number."""

import itertools
import re
from collections import Counter

import certificates
import contests
from commands import want
from parts import parts_file
from polls import HEADER, HOURS

# The proportional offices, with the digits of their numbers, and one other office.
DIGITS, OTHER = {6: 4, 7: 5, 8: 5, 13: 5}, 11
# The total size of the changed certificates of a contest that are judged, in bytes.
MOST_BYTES = 300_000
# For how many certificates each change is judged, and their maximum length.
WHOLE, LONGEST_WHOLE = 10, 4_000


def drawn_federations(draw, parties):
    """Some of these parties in federations of two and more."""
    left, found = list(parties), []
    while len(left) > 1 and draw.random() < 0.5:
        found.append([left.pop() for _ in range(draw.randint(2, min(len(left), 4)))])
    return found


class Election:
    """The tables of some offices, parties and sections, and for each office what a ballot may have, with its weight."""

    def __init__(self, draw):
        self.parties = draw.sample(range(10, 100), draw.choice((1, 2, 3, 4, 6, 12, 40)))
        self.federations = drawn_federations(draw, self.parties)
        self.seats = {code: draw.choice((1, 2, 3, 5, 9, 30, 100, 200)) for code in draw.sample(sorted(DIGITS), draw.randint(1, 3))}
        self.voters = [draw.choice((1, 9, 60, 600, 600)) for _ in range(draw.randint(1, 4))]
        self.people = [(code, number, draw.choice((19500101, 19600101, 19600102))) for code in self.seats for number in self.drawn_numbers(draw, code)]
        draw.shuffle(self.people)
        self.ballots = {code: self.drawn_ballots(draw, code) for code in self.seats}

    def drawn_numbers(self, draw, code):
        """The numbers of an office's candidates, of each party none or some."""
        first, most = 10 ** (DIGITS[code] - 2), draw.choice((2, 5, 5, 30))
        return [party * first + place for party in self.parties for place in range(1, 1 + draw.randint(0, most))]

    def drawn_ballots(self, draw, code):
        """What a ballot may have, with its weight. In some offices no candidate has a vote, so that rounds give all seats."""
        people, others = [number for its, number, _ in self.people if its == code], [*self.parties, "BRAN", "NULO"]
        often = (0,) if draw.random() < 0.2 else (0, 0, 1, 2, 5, 20)
        weights = [draw.choice(often) for _ in people] + [draw.choice((0, 1, 2, 5, 20)) for _ in others[1:]]
        return people + others, weights + [1]

    def tables(self):
        offices = [(OTHER, "absoluta", 1), *((code, "proporcional", count) for code, count in self.seats.items())]
        rows = {
            "cargo": [f'{{codigo = {code}, regra = "{rule}", cadeiras = {count}}}' for code, rule, count in offices],
            "partido": [f'{{numero = {party}, nome = "P"}}' for party in self.parties],
            "federacao": [f'{{nome = "F", partidos = {them}}}' for them in self.federations],
            "candidato": [f'{{cargo = {code}, numero = {number}, nascimento = {birth}, nome = "C"}}' for code, number, birth in self.people],
            "secao": [f"{{zona = 1, secao = {section}, eleitores = {count}}}" for section, count in enumerate(self.voters, 1)],
        }
        return HEADER + "".join(f"{name} = [{', '.join(them)}]\n" for name, them in rows.items())

    def report(self, draw, section, voters):
        """The file of a report of a section, in which all who came have a blank vote for the office that isn't proportional."""
        came = draw.randint(0, voters)
        text = f"ORIG:VOTA PROC:7 DTPL:20261004 TURN:1 ZONA:1 SECA:{section} APTO:{voters} COMP:{came} FALT:{voters - came} {HOURS}"
        text += f" CARG:{OTHER} TIPO:0 APTA:{voters} NOMI:0 BRAN:{came} NULO:0 TOTC:{came}"
        for code, (choices, weights) in self.ballots.items():
            votes = Counter(draw.choices(choices, weights, k=came))
            text += f" CARG:{code} TIPO:1{self.party_fields(votes)} APTA:{voters} NOMI:{sum(votes[n] for n in votes if is_candidate(n))}"
            text += f" LEGC:{sum(votes[party] for party in self.parties)} BRAN:{votes['BRAN']} NULO:{votes['NULO']} TOTC:{came}"
        return parts_file(text)

    def party_fields(self, votes):
        """The fields of each party with a vote."""
        text = ""
        for party in sorted(self.parties):
            own = sorted(number for number in votes if is_candidate(number) and str(number)[:2] == str(party))
            whole = votes[party] + sum(votes[number] for number in own)
            if whole:
                text += f" PART:{party}" + "".join(f" {number}:{votes[number]}" for number in own) + f" LEGP:{votes[party]} TOTP:{whole}"
        return text

    def files(self, draw):
        """The tables, a report of each section, an invalid one, and a list of these, in which one may be twice."""
        reports = {f"r{section}": self.report(draw, section, count) for section, count in enumerate(self.voters, 1)}
        listed = [*reports, draw.choice([*reports]), "other"]
        draw.shuffle(listed)
        reports["other"] = reports["r1"].replace("PROC:7", "PROC:8", 1)
        files = {"tables": self.tables(), "list": "".join(f"{name}\n" for name in listed), **reports}
        return {name: text.encode() for name, text in files.items()}


def is_candidate(choice):
    return isinstance(choice, int) and choice > 99


# ---- changes of a certificate


def numbered(text):
    """A text with its rounds renumbered."""
    places = itertools.count(1)
    return re.sub(r"RODADA \d+", lambda _: f"RODADA {next(places)}", text)


# The replacements of a line and the next one, and the differences of a number.
OF_LINES = {"left out": lambda one, other: other, "doubled": lambda one, other: one + one + other, "swapped": lambda one, other: other + one}
OF_NUMBERS = {"one more": 1, "one less": -1}


def changes_of(text):
    """Each change: its kind, the place of its line or of its number, and whether the rounds are renumbered."""
    lines = itertools.product(OF_LINES, range(text.count("\n")), (False, True))
    return [*lines, *itertools.product(OF_NUMBERS, (found.start() for found in re.finditer(r"\d+", text)), (False,))]


def changed(text, way, at, is_anew):
    if way in OF_LINES:
        lines = [*text.splitlines(keepends=True), ""]
        text = "".join([*lines[:at], OF_LINES[way](lines[at], lines[at + 1]), *lines[at + 2 :]])
    else:
        number = re.match(r"\d+", text[at:])[0]
        text = f"{text[:at]}{int(number) + OF_NUMBERS[way]}{text[at + len(number):]}"
    return numbered(text) if is_anew else text


def some_text(model):
    """The certificate that was made; if the contest has no seats, a text that is as close to one as possible."""
    if model.made:
        return model.files["o.cer"]
    seats, parties = model.contest
    if not certificates.first_phase(seats, parties):
        return f"CERT U1\nCARGO {model.office}\nQUOCIENTE 0\nVAZIAS {seats}\nFIM\n"
    return certificates.certificate(model.office, seats, parties).replace("VAZIAS -", "VAZIAS ")


# ---- trials


def want_end(runs, files, words, end, put, what):
    """A command ends with this status and this text, and writes these files."""
    ended = runs.run(files, words)
    want((ended.status, ended.shown.decode(), ended.files) == (*end, {**files, **put}), f"{what}: {ended.told()}, expected {end}, or left other files")


def certify(runs, files, code):
    """Runs a certifica, which ends as the model's does and writes the same. Returns the model's."""
    words = ["certifica", "tables", "list", str(code), "o"]
    model = contests.run(words, files)
    put = {name: model.files[name].encode() for name in model.made}
    want_end(runs, files, words, (model.code, model.shown), put, f"the office {code}")
    return model


def judge(runs, files, model, text, what):
    """A certificate of the office of a model is judged as the model judges it."""
    line, number = model.check(text)
    words = ["verifica", "tables", "list", str(model.office), "c.cer"]
    want_end(runs, {**files, "c.cer": text.encode()}, words, (number, f"{line}\n"), {}, f"the office {model.office} with a certificate, {what}")


def judged(runs, files, model, text, changes):
    """Judges a text, and then each of these changes of it."""
    judge(runs, files, model, text, "unchanged")
    # The last round repeated, which is one too many, is always judged.
    for change in [("doubled", text.count("\n") - 3, True), *changes]:
        judge(runs, files, model, changed(text, *change), f"changed: {change}")
        yield "judged certificates"


def trials(runs, drawn):
    whole = 0
    for number in itertools.count():
        draw = drawn(number)
        election = Election(draw)
        files = election.files(draw)
        certify(runs, files, OTHER)
        for code in election.seats:
            model = certify(runs, files, code)
            yield "certified offices" if model.made else "offices with no seats"
            text = some_text(model)
            changes, is_whole = changes_of(text), bool(model.made) and whole < WHOLE and len(text) <= LONGEST_WHOLE
            whole += is_whole
            yield from judged(runs, files, model, text, changes if is_whole else draw.sample(changes, min(len(changes), MOST_BYTES // len(text))))
            if is_whole:
                yield "certificates with every change judged"
