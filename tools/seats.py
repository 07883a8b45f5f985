"""The seat law of docs/RULES.md, "The seats", with fractions: the outcome of a contest in the form of the rows of crates/seat_tests.

`other_rows` returns the rows whose outcome isn't the law's.
"""

import re
from fractions import Fraction

ROW = re.compile(r'\(\s*(?://[^\n]*\n\s*)?"([^"]*)",\s*"([^"]*)",\s*"([^"]*)",\s*\)')
TABLE = re.compile(r'\(\s*"([^"]* seats, [^"]*)",\s*"([^"]*)",?\s*\)')
BIRTH = "19600101"


class Party:
    """One contestant, which may also be a federation: its number, its party votes, and for each candidate the votes, the birth and the
    number."""

    def __init__(self, number, votes, candidates):
        self.number, self.seats = number, 0
        # More votes first, then the older, then the lower number.
        self.candidates = sorted((-nominal, birth, candidate) for nominal, birth, candidate in candidates)
        self.votes = votes + sum(nominal for nominal, _, _ in candidates)

    def has_left(self, least):
        """Whether a candidate without a seat has at least this many votes."""
        return any(-nominal >= least for nominal, _, _ in self.candidates[self.seats :])

    def rank(self):
        """The highest average comes first, then more votes, then the lower number."""
        return (-Fraction(self.votes, self.seats + 1), -self.votes, self.number)

    def elected(self):
        return [candidate for _, _, candidate in self.candidates[: self.seats]]


def party_of(told):
    number, words = told.split(": ") if ": " in told else (told.rstrip(":"), "")
    votes, candidates = 0, []
    for word in words.split():
        if word.startswith("L"):
            votes = int(word[1:])
        else:
            nominal, birth = (word.split("@") + [BIRTH])[:2]
            candidates.append((int(nominal), birth, int(number) * 1000 + len(candidates) + 1))
    return Party(int(number), votes, candidates)


def contest_of(told):
    """The seats and the parties of a contest."""
    told, *parties = told.split(", ")
    return int(told.split()[0]), [party_of(party) for party in parties]


def first_phase(seats, parties):
    """Gives the parties the seats of the first phase. Returns the electoral quotient."""
    # The nearest whole number; at a half the lower one.
    quotient = -((seats - 2 * sum(party.votes for party in parties)) // (2 * seats))
    for party in parties if quotient else []:
        able = sum(-nominal >= Fraction(quotient, 10) for nominal, _, _ in party.candidates)
        party.seats = min(party.votes // quotient, able)
    return quotient


def next_round(parties, quotient):
    """The phase of the next round, and the parties that compete in it."""
    compete = [p for p in parties if p.votes >= Fraction(4 * quotient, 5) and p.has_left(Fraction(quotient, 5))]
    return (2, compete) if compete else (3, [p for p in parties if p.votes >= 1 and p.has_left(0)])


def told_averages(compete):
    return [f"{p.number}:{p.votes}/{p.seats + 1}" for p in compete]


def give_rest(seats, parties, quotient):
    """Gives the remaining seats. Returns for each the phase, the number of the party and the averages that compete."""
    rounds = []
    for _ in range(seats - sum(party.seats for party in parties)):
        phase, compete = next_round(parties, quotient)
        if not compete:
            break
        best = min(compete, key=Party.rank)
        rounds.append((phase, best.number, told_averages(compete)))
        best.seats += 1
    return rounds


def outcome(contest):
    seats, parties = contest_of(contest)
    quotient = first_phase(seats, parties)
    if quotient == 0:
        return f"no quotient {sum(party.votes for party in parties)} {seats}"
    first = sum(party.seats for party in parties)
    if first > seats:
        return f"over {first} {seats}"
    rounds = give_rest(seats, parties, quotient)
    standings = ", ".join(f"{p.number}: {p.votes} {p.votes // quotient} {p.seats}" for p in parties)
    awards = [f"{phase}>{number}" for phase, number, _ in rounds]
    elected = [str(number) for p in parties for number in p.elected()]
    vacant = seats - first - len(rounds)
    return f"QE {quotient}, {standings}, {' '.join(['rounds', *awards])}, {' '.join(['elected', *elected])}, vacant {vacant}"


def averages(contest):
    """The averages from which the seats of the second phase are taken, each as votes/divisor>party."""
    seats, parties = contest_of(contest)
    quotient = first_phase(seats, parties)
    table, left = [], seats - sum(party.seats for party in parties)
    for party in parties:
        if party.votes >= Fraction(4 * quotient, 5):
            most = sum(-nominal >= Fraction(quotient, 5) for nominal, _, _ in party.candidates)
            for divisor in range(party.seats + 1, min(most, party.seats + left) + 1):
                table.append((-Fraction(party.votes, divisor), -party.votes, party.number, divisor))
    return "".join(f" {-votes}/{divisor}>{number}" for _, votes, number, divisor in sorted(table))


def other_lists(text, name, list_of):
    """The rows of a contest and a list whose list differs."""
    rows = TABLE.findall(text)
    if not rows:
        yield f"found no row of {name}"
    for contest, told in rows:
        if list_of(contest) != told:
            yield f"{contest!r}: the {name} are {list_of(contest)!r}"


def other_rows(text):
    contests = re.sub(r"\\\n\s*", "", text.split("MAJORITIES", 1)[0])
    rows = ROW.findall(contests)
    if not rows:
        yield "found no row"
    for name, contest, told in rows:
        if outcome(contest) != told:
            yield f"{name!r}: the law gives {outcome(contest)!r}"
    yield from other_lists(text.split("AVERAGES", 1)[1], "averages", averages)
