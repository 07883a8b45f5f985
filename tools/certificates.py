"""Certificates of seats and substitutes by docs/RULES.md, "The certificate", and docs/FORMATS.md, "Certificate", computed from contests
in the form of tools/seats.py: the seats, and the parties.

`other_certificates` returns the rows of crates/seat_tests whose certificate or substitutes differ, and the changes of a certificate that
are judged differently.
"""

import re
from fractions import Fraction

from seats import Party, contest_of, first_phase, give_rest, next_round, other_lists, told_averages

DECIMAL = r"(0|[1-9]\d{0,17})"
OFFICE = re.compile(f"CARGO {DECIMAL}")
QUOTIENT = re.compile(f"QUOCIENTE {DECIMAL}")
FIRST = re.compile(f"PARTIDO ([1-9][0-9]) QP {DECIMAL} APTOS {DECIMAL} VAGAS {DECIMAL}")
ROUND = re.compile(f"RODADA {DECIMAL} FASE ([23]) VENCE ([1-9][0-9])((?: [1-9][0-9]:{DECIMAL}/{DECIMAL})*)")
VACANT = re.compile(f"VAZIAS {DECIMAL}")
PROPORTIONAL = {6, 7, 8, 13}
MOST_PARTIES, MOST_ROUNDS = 40, 200

CERTIFIED = re.compile(r'\(\s*"([^"]* seats, [^"]*)",\s*"(CERT [^"]*)",\s*&\[([^]]*)\]')
CHANGE = re.compile(r'\(\s*"([^"]*)",\s*"([^"]*)",\s*"([^"]*)",?\s*\)')
JUDGED = re.compile(r'\(\s*"([^"]* seats, [^"]*)",\s*"(CERT [^"]*)",\s*"([^"]*)",?\s*\)')


def line_of(party, quotient):
    """The number of a party, its quotient, its candidates with a tenth of the electoral quotient, and its seats."""
    able = sum(-nominal >= Fraction(quotient, 10) for nominal, _, _ in party.candidates)
    return party.number, party.votes // quotient, able, party.seats


def comes_to_seats(seats, parties):
    return first_phase(seats, parties) > 0 and sum(p.seats for p in parties) <= seats


def certificate(code, seats, parties):
    """The text of the certificate of an office whose contest has seats."""
    quotient = first_phase(seats, parties)
    lines = ["CERT U1", f"CARGO {code}", f"QUOCIENTE {quotient}"]
    for party in parties:
        lines.append("PARTIDO {} QP {} APTOS {} VAGAS {}".format(*line_of(party, quotient)))
    for place, (phase, number, compete) in enumerate(give_rest(seats, parties, quotient), 1):
        lines.append(" ".join([f"RODADA {place} FASE {phase} VENCE {number}", *compete]))
    lines += [f"VAZIAS {seats - sum(p.seats for p in parties)}", "FIM"]
    return "".join(line + "\n" for line in lines)


def substitutes(seats, parties):
    """The substitutes of each party with a seat, each as party, rank and number."""
    give_rest(seats, parties, first_phase(seats, parties))
    return [(p.number, rank, candidate) for p in parties if p.seats for rank, (_, _, candidate) in enumerate(p.candidates[p.seats :], 1)]


def substitute_words(contest):
    """The substitutes of a row."""
    return "".join(f" {number} {rank} {candidate}" for number, rank, candidate in substitutes(*contest_of(contest)))


def are_rising(numbers):
    return all(one < other for one, other in zip(numbers, numbers[1:]))


def read(text):
    """The office's code in a text, its quotient, its lines of the first phase, its rounds and the vacant seats; or the number of its
    first invalid line."""
    *lines, behind = text.split("\n")
    first, rounds = [], []

    def at(place, form):
        return form.fullmatch(lines[place]) if place < len(lines) else None

    if lines[:1] != ["CERT U1"]:
        return 1
    if not (office := at(1, OFFICE)) or int(office[1]) not in PROPORTIONAL:
        return 2
    if not (quotient := at(2, QUOTIENT)):
        return 3
    place = 3
    while found := at(place, FIRST):
        line = tuple(map(int, found.groups()))
        place += 1
        if len(first) == MOST_PARTIES or not are_rising([party for party, *_ in first] + [line[0]]) or max(line[2:]) >= 2**32:
            return place
        first.append(line)
    while found := at(place, ROUND):
        averages = [tuple(map(int, re.split("[:/]", word))) for word in found[4].split()]
        place += 1
        if len(rounds) == MOST_ROUNDS or int(found[1]) != len(rounds) + 1 or not are_rising([party for party, *_ in averages]):
            return place
        if any(not 1 <= divisor < 2**32 for *_, divisor in averages):
            return place
        rounds.append((int(found[2]), int(found[3]), found[4].split()))
    vacant = at(place, VACANT)
    if not vacant or int(vacant[1]) >= 2**32:
        return place + 1
    if lines[place + 1 : place + 2] != ["FIM"]:
        return place + 2
    if lines[place + 2 :] or behind:
        return place + 3
    return int(office[1]), int(quotient[1]), first, rounds, int(vacant[1])


def fault_of(seats, parties, told):
    """The first fault of a certificate, each line judged after those before it; or valid."""
    _, quotient, first, rounds, vacant = told
    if quotient != first_phase(seats, parties) or quotient == 0:
        return "quotient"
    law = [line_of(party, quotient) for party in parties]
    for place in range(max(len(law), len(first))):
        if law[place : place + 1] != first[place : place + 1]:
            return f"first {place + 1}"
    for number, (phase, winner, averages) in enumerate(rounds, 1):
        lawful, compete = next_round(parties, quotient)
        if sum(p.seats for p in parties) >= seats or not compete or phase != lawful or averages != told_averages(compete):
            return f"round {number}"
        best = min(compete, key=Party.rank)
        if winner != best.number:
            return f"round {number}"
        best.seats += 1
    left = seats - sum(p.seats for p in parties)
    return "end" if vacant != left or vacant and next_round(parties, quotient)[1] else "valid"


def judged(code, seats, parties, text):
    """The verdict on a text for the contest of this office's code: an invalid line, the first fault, or valid."""
    told = read(text)
    if isinstance(told, int) or told[0] != code:
        return f"line {told if isinstance(told, int) else 2}"
    return fault_of(seats, parties, told)


def other_certificates(text):
    text = re.sub(r"\\\n\s*", "", text).replace("\\n", "\n")
    rows = CERTIFIED.findall(text)
    if not rows:
        yield "found no row of certificates"
    for contest, told, changes in rows:
        found = certificate(13, *contest_of(contest))
        if found != told:
            yield f"{contest!r}: the certificate is {found!r}"
        for piece, other, answer in [("CERT", "CERT", "valid"), *CHANGE.findall(changes)]:
            found = judged(13, *contest_of(contest), told.replace(piece, other, 1))
            if piece not in told or found != answer:
                yield f"{contest!r}: with {other!r} instead of {piece!r} it is {found}"
    for contest, told, answer in JUDGED.findall(text):
        found = judged(13, *contest_of(contest), told)
        if found != answer:
            yield f"{contest!r}: {told!r} is {found}"
    yield from other_lists(text.split("SUBSTITUTES", 1)[1], "substitutes", substitute_words)
