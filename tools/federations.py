"""The totals of the scripts `federations` and `known` (crates/session_tests), computed from their tables and reports by docs/RULES.md,
"The totals": a federation is one contestant, with the party votes and the candidates of all its parties.

`other_totals` returns the lines of these scripts with other totals.
"""

import re
import tomllib
from collections import Counter

import scripts
import seats

SCRIPTS = ("federations", "known")


def sums_of(reports):
    """The votes of each office: for each candidate and each party by number, blank and null."""
    sums = Counter()
    for report in reports:
        for key, value in (field.split(":", 1) for field in report.split()):
            if key == "CARG":
                office = int(value)
            elif key == "PART":
                party = int(value)
            elif key == "LEGP":
                sums[office, party] += int(value)
            elif key in ("BRAN", "NULO"):
                sums[office, key] += int(value)
            elif key.isdigit():
                sums[office, int(key)] += int(value)
    return sums


def blocs_of(tables):
    """Each bloc in ascending order: its number, its word, and its parties."""
    federations = [federation["partidos"] for federation in tables.get("federacao", [])]
    alone = {party["numero"] for party in tables["partido"]}.difference(*federations)
    return sorted([(min(them), "FEDERACAO", them) for them in federations] + [(party, "PARTIDO", [party]) for party in alone])


def result_lines(blocs, contestants, places, votes):
    quotient = seats.first_phase(places, contestants)
    first = sum(it.seats for it in contestants)
    if quotient == 0:
        return [f"SEM QUOCIENTE {sum(it.votes for it in contestants)} {places}"]
    if first > places:
        return [f"QUOCIENTE EXCEDIDO {first} {places}"]
    rounds = seats.give_rest(places, contestants, quotient)
    word = {number: f"{word} {number}" for number, word, _ in blocs}
    lines = [f"QUOCIENTE {quotient}"]
    lines += [f"{word[it.number]} VOTOS {it.votes} QP {it.votes // quotient} VAGAS {it.seats}" for it in contestants]
    lines += [f"SOBRA {k} FASE {phase} {word[number]}" for k, (phase, number, _) in enumerate(rounds, 1)]
    lines += [f"ELEITO {number} VOTOS {votes[number]}" for it in contestants for number in it.elected()]
    return [*lines, f"VAGAS VAZIAS {places - first - len(rounds)}"]


def people_of(tables, code):
    """The candidates for an office in ascending order, each with the day of birth."""
    return sorted((it["numero"], it["nascimento"]) for it in tables["candidato"] if it["cargo"] == code)


def contestants(tables, code, sums):
    """The contestants for an office: each bloc in ascending order, with its party votes and its candidates."""
    found, people = [], people_of(tables, code)
    for number, _, them in blocs_of(tables):
        own = [(sums[code, n], birth, n) for n, birth in people if int(str(n)[:2]) in them]
        found.append(seats.Party(number, sum(sums[code, party] for party in them), own))
    return found


def office_lines(tables, office, sums):
    """The lines of a proportional office."""
    code, parties = office["codigo"], [party["numero"] for party in tables["partido"]]
    votes = {number: sums[code, number] for number, _ in people_of(tables, code)}
    nominal, legend = sum(votes.values()), sum(sums[code, party] for party in parties)
    blank, null = sums[code, "BRAN"], sums[code, "NULO"]
    valid = f"VALIDOS {nominal + legend} NOMINAIS {nominal} LEGENDA {legend}"
    lines = [f"CARGO {code} {valid} BRANCOS {blank} NULOS {null} TOTAL {nominal + legend + blank + null}"]
    lines += [f"CANDIDATO {number} VOTOS {count}" for number, count in votes.items()]
    return lines + result_lines(blocs_of(tables), contestants(tables, code, sums), office["cadeiras"], votes)


def totals(text, reports):
    """What `totaliza` prints for reports that are all accepted, each of a different section."""
    tables = tomllib.loads(text)
    lines = []
    for k, report in enumerate(reports, 1):
        zone, section = re.search(r"ZONA:(\d+) SECA:(\d+)", report).groups()
        lines.append(f"{k} ACEITO {zone} {section}")
    lines.append(f"SECOES {len(reports)} DE {len(tables['secao'])}")
    for office in tables["cargo"]:
        lines += office_lines(tables, office, sums_of(reports))
    return lines


def other_totals():
    for script in SCRIPTS:
        count = 0
        for number, line, came, words, files, _ in scripts.asked(script):
            if words[:1] == ["totaliza"]:
                count += 1
                if came != totals(files[words[1]], [files[it] for it in files[words[2]].splitlines()]):
                    yield f"{scripts.CRATE}/stdout:{number}: the totals under `{line}` differ from the model's"
        if not count:
            yield f"{scripts.CRATE}/stdout: the script {script} has no totals"
