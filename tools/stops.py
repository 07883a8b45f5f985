"""Checks the rule of docs/CRASH.md on what the scripts of cases print for stops. After each operation of a session both flashes, and
each one alone, hold the state whose line the display had begun last, or the next; before its first line both hold the state that it
found. After each operation of a replacement the remaining flash holds the one poll, and nothing reports another one.

`violations` returns the lines of the expected text of `session_tests` that break this rule.
"""

import re

# How many operations the commit before a line has: for a voter, and for the opening or the closing.
COMMITS = {"FIM": 28, "ABERTA": 24, "ENCERRADA": 24}
RUN = re.compile(r"    (\d+) to (\d+): (.*)")


def commit_of(line):
    return COMMITS.get(line.split(" ")[0], 0)


def states_of(opening, lines):
    """What a session without presses prints for each state of a session that began with this line."""
    word, came = opening.split(" ")[1], int(opening.split(" ")[2])
    states = [opening]
    for line in lines:
        if commit_of(line):
            came += line == "FIM"
            word = "LACRADA" if line.startswith("ENCERRADA") else "ABERTA"
            states.append(f"URNA {word} {came}")
    return states


def begun_by(lines, front, operations):
    """How many lines, and how many that report a state, the first operations begin; the given number of others comes before all lines."""
    at, shown, told = front, 0, 0
    for line in lines:
        at += commit_of(line)
        if at < operations:
            shown, told = shown + 1, told + bool(commit_of(line))
        at += 1
    return shown, told


def told_in(text):
    """What a text prints for both flashes and for each one alone, for each way in which bytes may be torn."""
    for way in re.split(r" \| from \w+ on ", text):
        found = re.findall(r"URNA \w+ \d+", way)
        ranks = re.search(r"internal (\S) (\S) external (\S) (\S)", way)
        yield found, [[int(it) for it in ranks.groups()[at : at + 2] if it != "-"] for at in (0, 2)] if ranks else []


def is_kept(text, states, shown, told, first):
    """Whether each printed state, and the greatest rank on each flash, is the last one whose line was begun, or the next."""
    allowed = states[told : told + 2]
    for found, ranks in told_in(text):
        if found and (found[0] not in allowed or (shown and not set(found) <= set(allowed))):
            return False
        greatest = [max(it, default=-1) for it in ranks]
        held = [max(greatest)] if greatest and not shown else greatest
        if not all(first + told <= it <= first + told + 1 for it in held):
            return False
    return not (not shown and any(found and found[0] != states[0] for found, _ in told_in(text)))


def begun_before(lines, cut):
    """How far a session is that stopped after this line, which may be cut to its half, for each possible place."""
    for at, line in enumerate(lines):
        if cut in (line, line[: (len(line) + 1) // 2].rstrip()):
            yield at + 1, sum(bool(commit_of(it)) for it in lines[: at + 1])
    if not cut:
        yield 0, 0


def check_runs(word, runs, session, first):
    """The lines of one look over a session that break the rule."""
    opening, lines = session[0], session[1:]
    states = states_of(opening, lines)
    operations = int(runs[-1][1]) + (word == "pieces")
    front = operations - sum(1 + commit_of(line) for line in session)
    for low, high, text in runs:
        if word == "calls":
            cut = re.match(r'= \d+ behind "(.*?)", left (.*)', text)
            places = list(begun_before(session, cut[1]))
            if not any(is_kept(cut[2], states, shown, told, first) for shown, told in places):
                yield f"{low} to {high}: {text}"
            continue
        for done in range(int(low), int(high) + 1):
            shown, told = begun_by(session, front, done)
            if not is_kept(text, states, shown, told, first):
                yield f"{done} of {low} to {high}: {text}"


def check_replacement(runs, line):
    """The lines of one look over a replacement that report a poll other than that of this line and of the first of them."""
    standing, seen = "INTERNA" in line, {"REPOSTA": line}
    for low, high, text in runs:
        found = re.findall(r"(?:URNA|REPOSTA) [A-Z]+(?: \d+)+", text)
        greatest = [f"rank {max(ranks[standing], default='-')}" for _, ranks in told_in(text) if ranks]
        if any(seen.setdefault(told.split(" ")[0], told) != told for told in [*found, *greatest]) or "rank -" in greatest:
            yield f"{low} to {high}: {text}"


def violations(expected):
    """The lines of the expected text that break the rule for stops of sessions and of replacements."""
    session, look, runs, rank = [], "", [], {"PRONTA": 0}
    for line in [*expected.splitlines(), ""]:
        run = RUN.fullmatch(line)
        if run and look:
            runs.append(run.groups())
            continue
        if runs and session and session[0].startswith("REPOSTA "):
            yield from check_replacement(runs, session[0])
        if runs and session and session[0].startswith("URNA ") and look != "others":
            opening = session[0].split(" ")
            yield from check_runs(look, runs, session, 0 if opening[1] == "PRONTA" else 1 + int(opening[2]))
        if line.startswith("    "):
            if not re.match(r"    [=+!] ", line):
                session.append(line[4:])
            continue
        runs, words = [], line.split(" ")
        look = words[0] if words[0] in ("ranks", "pieces", "calls", "stops") else ""
        look = "others" if look == "stops" and len(words) > 2 else look
        if words[0] in ("urna", "hush", "session"):
            session = []
