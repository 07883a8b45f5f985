"""A model of what `reconta` prints in the script `recounts` (crates/session_tests), with a reader of its own for the files:
docs/FORMATS.md, "Record text", and docs/RULES.md, "The recount".

`other_answers` returns the lines of the script with another answer.
"""

import hashlib
import re
from collections import Counter

import scripts

DIGITS = {1: 2, 3: 2, 5: 3, 6: 4, 7: 5, 8: 5, 11: 2, 13: 5}
PROPORTIONAL = (6, 7, 8, 13)
MOST_VOTES = 1200
LIMIT = 1048576
HEADING = re.compile(rb"PROC ([1-9]\d{0,4}) DTPL (\d{8}) TURN ([12]) ZONA ([1-9]\d{0,3}) SECA ([1-9]\d{0,3})")
OFFICE = re.compile(rb"CARG (0|[1-9]\d*) (0|[1-9]\d*)")
VOTE = re.compile(rb"N ([1-9]\d*)|L ([1-9]\d)|(B)|(X)")
KINDS = ("NOMINAL", "LEGENDA", "BRANCO", "NULO")


class Fault(Exception):
    """An invalid line, by its number."""


class Lines:
    def __init__(self, text):
        *self.whole, self.rest = text.split(b"\n")
        self.read = 0

    def next(self):
        """The next line; invalid if the text has ended or the line has no line feed."""
        self.read += 1
        if self.read > len(self.whole):
            raise Fault(self.read)
        return self.whole[self.read - 1]

    def must(self, it):
        if not it:
            raise Fault(self.read)
        return it


def is_date(digits):
    """Reads a year, a month and a day, without a calendar (docs/RULES.md, "Numbers, dates and moments")."""
    return int(digits[:4]) >= 1000 and 1 <= int(digits[4:6]) <= 12 and 1 <= int(digits[6:]) <= 31


def vote_of(code, line):
    """A vote as its kind and its number, in the order of choices; None if it isn't a vote of the office."""
    match = VOTE.fullmatch(line)
    if not match:
        return None
    kind = match.lastindex - 1
    number = int(match[match.lastindex]) if kind < 2 else 0
    fits = (len(str(number)) == DIGITS[code], code in PROPORTIONAL, True, True)[kind]
    return (kind, number) if fits else None


def read_record(text):
    """The heading and the offices of a record, with the number of lines of each choice; `Fault` if the text is invalid."""
    lines = Lines(text)
    lines.must(lines.next() == b"RDV U1")
    heading = lines.must(HEADING.fullmatch(lines.next()))
    lines.must(is_date(heading[2]))
    offices = {}
    while not (lines.next() == b"FIM" and offices):
        office = lines.must(OFFICE.fullmatch(lines.whole[lines.read - 1]))
        code, count = map(int, office.groups())
        lines.must(code in DIGITS and code not in offices and count <= MOST_VOTES)
        votes = []
        for _ in range(count):
            vote = lines.must(vote_of(code, lines.next()))
            lines.must(not votes or votes[-1] <= vote)
            votes.append(vote)
        offices[code] = Counter(votes)
    if lines.rest or len(lines.whole) > lines.read:
        raise Fault(lines.read + 1)
    return list(map(int, heading.groups())), offices


def read_report(text):
    """The same for the fields of a report, whose sums are right."""
    fields = fields_of(text)
    heading, offices = [], {}
    for key, value in fields:
        if key in ("PROC", "DTPL", "TURN", "ZONA", "SECA"):
            heading.append(int(value))
        elif key == "CARG":
            votes = offices[int(value)] = Counter()
        elif key == "PART":
            party = int(value)
        elif key in ("LEGP", "BRAN", "NULO"):
            votes[{"LEGP": (1, party if key == "LEGP" else 0), "BRAN": (2, 0), "NULO": (3, 0)}[key]] = int(value)
        elif key.isdigit():
            votes[0, int(key)] = int(value)
    return heading, offices


def fields_of(text):
    return [it.split(":", 1) for line in text.splitlines() for it in line.split()[2:-1]]


def is_report(text, is_hashed):
    """Whether a file of one part is that of a report: its hash is right, unless it was recomputed, and so are the sums that the script
    changes."""
    if not is_hashed:
        part, _, said = text.removesuffix("\n").rpartition(" HASH:")
        if hashlib.sha512(part.encode()).hexdigest().upper() != said:
            return False
    fields = fields_of(text)
    came = int(dict(fields)["COMP"])
    said = [[int(value) for key, value in fields if key == it] for it in ("NOMI", "LEGC", "BRAN", "NULO", "TOTC")]
    offices = read_report(text)[1].values()
    votes = [[sum(it for (kind, _), it in office.items() if kind == k) for office in offices] for k in range(4)]
    totals = [sum(office.values()) for office in offices]
    right = said[0] == votes[0] and sum(said[1]) == sum(votes[1]) and said[4] == totals == [came] * len(totals)
    # The order of the totals of parties: a party's candidates, its own votes, and then the sums of both.
    party, parties = 0, []
    for key, value in fields:
        if key == "PART":
            party = 0
        elif key == "TOTP":
            parties.append(party == int(value))
        elif key == "LEGP" or key.isdigit():
            party += int(value)
    return right and all(parties) and dict(fields)["TURN"] in ("1", "2")


def is_recount(line, words, files, faults):
    """Whether a line recounts a report and a text without a failing call."""
    there = len(words) == 3 and words[0] == "reconta" and all(len(files.get(it, "0" * LIMIT + "0")) <= LIMIT for it in words[1:])
    return there and not any(faults) and is_report(files[words[1]], line.startswith("anew "))


def answer(report, record):
    """The line that `reconta` prints, with its status if it isn't 0."""
    try:
        heading, offices = read_record(record)
    except Fault as fault:
        return f"ERRO REGISTRO LINHA {fault} = 8"
    other_heading, others = read_report(report)
    if heading != other_heading:
        return "DIFERE CABECALHO = 9"
    codes, other_codes = list(offices), list(others)
    if codes != other_codes:
        place = next((k for k, pair in enumerate(zip(codes, other_codes)) if pair[0] != pair[1]), min(len(codes), len(other_codes)))
        return f"DIFERE CARGOS {place + 1} = 9"
    for code in codes:
        for kind, number in sorted({*offices[code], *others[code]}):
            lines, said = offices[code][kind, number], others[code][kind, number]
            if lines != said:
                choice = KINDS[kind] + (f" {number}" if kind < 2 else "")
                return f"DIFERE CARGO {code} {choice} REGISTRO {lines} BOLETIM {said} = 9"
    return "CONFERE"


def runs(answers):
    """Answers for one place after another; equal neighbours are one line."""
    first = 0
    for at in range(len(answers)):
        if at + 1 == len(answers) or answers[at + 1] != answers[at]:
            yield f"{first} to {at}: {answers[at]}"
            first = at + 1


def turned(answer, text, at):
    """The answers when each bit of a byte is changed, each printed only if it differs from the one before."""
    told, before = "", None
    for bit in (1 << k for k in range(8)):
        one = answer(text[:at] + bytes([text[at] ^ bit]) + text[at + 1 :])
        if one != before:
            told += one if before is None else f" | from {bit} on {one}"
        before = one
    return told


def answers(answer, text):
    """What `answers` prints for a text: cut at each length, and then with each bit changed."""
    places = range(len(text))
    return [*runs([answer(text[:at]) for at in places]), *runs([turned(answer, text, at) for at in places])]


def other_answers():
    count = 0
    for number, line, came, words, files, faults in scripts.asked("recounts"):
        if not is_recount(line, words, files, faults):
            continue
        report, record = (files[it] for it in words[1:])
        record = record.encode()
        count += 1
        wanted = answers(lambda it: answer(report, it), record) if line.startswith("answers ") else answer(report, record).split(" = ")
        found = [it.removeprefix("= ") for it in came]
        if found != wanted:
            yield f"{scripts.CRATE}/stdout:{number}: the answer under `{line}` differs from the model's"
    if not count:
        yield f"{scripts.CRATE}/stdout: the script recounts has no recount"
