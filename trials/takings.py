"""Cuts of urna_ledger: `recebe` over a list of drawn files is cut at a drawn stop (trials/cuts.py), in some runs after a failed call,
and so are `abre` and `totais`. The next command continues over what the cut left.

After each `recebe` both flashes, and each one alone if a byte was shown, hold the ledger with the first of the listed files: as many as
verdicts had begun to be shown, or one more. No reported file is lost, and no section counts twice: the ledger is known to the byte
(trials/ledgers.py). At the end the rest of the reports is received, and the sums of `totais` are those that `totaliza`, a command of
urna, prints for the accepted reports.
"""

import itertools

from commands import ABRE, RECEBE, TOTAIS, TOTALIZA, Violation, want
from cuts import cut, drawn_fault, mixed_slots
from held import flashes_in, looks
from ledgers import GATES, LENGTH, Centre, Taking, is_in_use
from polls import FLASHES


def with_flashes(centre, listed, flashes):
    """The files of a ledger."""
    return {**centre.documents(listed), **dict(zip(FLASHES, flashes))}


# ---- what flashes hold


def held(runs, centre, flashes, ledgers, what):
    """The ledger among these that both flashes hold, as `totais` shows its sums. They are at rest with it after the call."""
    ended = runs.run(with_flashes(centre, {}, flashes), TOTAIS)
    left = flashes_in(ended.files, what)
    for ledger in ledgers:
        if (ended.status, ended.shown) == (0, centre.totals(ledger)) and left == centre.flashes(ledger):
            return ledger
    numbers = " or ".join(f"{len(ledger)} reports" for ledger in ledgers)
    raise Violation(f"{what}: totais {ended.told()}, or both flashes are not at rest with the ledger of {numbers}")


def want_held(runs, centre, flashes, ledgers, alone, what):
    """Both flashes hold one of these ledgers, and so does each one alone if asked for. Returns the ledger that both hold."""
    tried = looks(flashes, centre.frames(), alone).items()
    return [held(runs, centre, images, ledgers, f"{what}, {name}") for name, images in tried][0]


def lines_of_sums(shown):
    """The lines of totals with the sections, all votes of an office and those of a candidate."""
    return [line for line in shown.splitlines() if line.startswith((b"SECOES ", b"CARGO ", b"CANDIDATO "))]


def want_sums(runs, centre, ledger, what):
    """`totais` of the flashes that hold a ledger prints what `totaliza` prints for its reports."""
    listed = {f"a{place}": file for place, file in ledger.items()}
    files = with_flashes(centre, listed, centre.flashes(ledger))
    sums, totals = runs.run(files, TOTAIS), runs.run(files, TOTALIZA)
    same = lines_of_sums(totals.shown) == sums.shown.splitlines()
    want((sums.status, totals.status) == (0, 0) and same, f"{what}: totais {sums.told()}, and totaliza {totals.told()}")


# ---- what is drawn


def drawn_centre(draw):
    """An election of some sections, some of them with a report of two parts."""
    voters = [draw.randint(1, 9) for _ in range(draw.randint(1, 10))]
    return Centre([draw.choice([it, it, 400]) for it in voters], 80) if draw.random() < 0.2 else Centre(voters)


def drawn_history(centre, draw):
    """Ledgers one after another from the first on, each with one more report, up to a drawn one."""
    places = draw.sample(range(len(centre.voters)), draw.randint(0, len(centre.voters)))
    found = [{}]
    for place in places:
        found.append({**found[-1], place: centre.report(draw, place)})
    return found


def drawn_list(centre, draw, ledger):
    """A list of reports: some new, the kept ones again, in conflict with them, or not a report, by name."""
    known, listed = dict(ledger), {}
    for number in range(1, draw.randint(1, 7) + 1):
        place = draw.randrange(len(centre.voters))
        if draw.random() < 0.15:
            file = centre.faulty(draw)
        elif place not in known:
            file = known[place] = centre.report(draw, place)
        else:
            file = draw.choice([known[place], centre.other(draw, known[place])])
        listed[f"r{number}"] = file
    return listed


def beginnings(centre, draw, history):
    """Flashes that hold the last of these ledgers: at rest, or in a slot, with others holding that or the one before it."""
    if draw.random() < 0.5:
        return centre.flashes(history[-1])
    return mixed_slots(draw, centre.frames(), GATES, lambda is_sure: centre.body(history[-1] if is_sure else draw.choice(history)))


def greater(centre, draw, ledger):
    """Flashes at rest with a ledger of as many reports or more."""
    for place in range(len(centre.voters)):
        if place not in ledger and draw.random() < 0.7:
            ledger = {**ledger, place: centre.report(draw, place)}
    return centre.flashes(ledger)


# ---- cut calls


def cut_call(runs, centre, draw, files, words, usual, what):
    """A call over a ledger's flashes, cut at a drawn stop, sometimes after a fault. `usual` is its status, its text and the ledger with
    which it leaves both at rest. Returns the images, and what was shown."""
    flashes, (status, text, ledger) = [files[name] for name in FLASHES], usual
    fail = drawn_fault(draw, 2)
    what = what + (f" with URNA_FAIL='{fail}'" if fail else "")
    ended = runs.run(files, words, fail=fail, tells=True)
    if ended.other:
        is_front = text.startswith(ended.shown)
        want(is_front and ended.status == 21 + FLASHES.index(ended.other.name), f"{what}: {ended.told()}")
    else:
        want((ended.status, ended.shown) == (status, text), f"{what}: {ended.told()}, expected {status} and {text!r}")
        want(flashes_in(ended.files, what) == centre.flashes(ledger), f"{what}: left another ledger")
    told, images, shown = cut(draw, flashes, ended.calls, greater(centre, draw, ledger))
    return images, shown, f"{what}, {told} and {len(shown)} shown bytes"


def cut_taking(runs, centre, draw, flashes, ledger, what):
    """A `recebe`, cut. Returns the images and the ledger that both hold."""
    listed = drawn_list(centre, draw, ledger)
    taking = Taking(centre, ledger, listed)
    what = f"{what}, recebe of {len(listed)} files over {len(ledger)}"
    usual = (taking.status, taking.shown, taking.ledger)
    images, shown, what = cut_call(runs, centre, draw, with_flashes(centre, listed, flashes), RECEBE, usual, what)
    return images, want_held(runs, centre, images, taking.allowed(len(shown)), bool(shown), what), what


def cut_totals(runs, centre, draw, flashes, ledger, what):
    """A `totais`, cut: the ledger stays."""
    usual = (0, centre.totals(ledger), ledger)
    images, shown, what = cut_call(runs, centre, draw, with_flashes(centre, {}, flashes), TOTAIS, usual, f"{what}, totais")
    want_held(runs, centre, images, [ledger], bool(shown), what)
    return images, what


def want_end(runs, centre, draw, flashes, ledger, what):
    """Receives a report of each section, those already in once more; then each counts once."""
    reports = [ledger.get(place) or centre.report(draw, place) for place in range(len(centre.voters))]
    draw.shuffle(reports)
    listed = {f"e{number}": file for number, file in enumerate(reports)}
    taking = Taking(centre, ledger, listed)
    ended = runs.run(with_flashes(centre, listed, flashes), RECEBE)
    want((ended.status, ended.shown) == (taking.status, taking.shown), f"{what}: the rest of the reports {ended.told()}")
    at_rest = flashes_in(ended.files, what) == centre.flashes(taking.ledger)
    want(at_rest and len(taking.ledger) == len(reports), f"{what}: the rest of the reports left another ledger")
    want_sums(runs, centre, taking.ledger, what)


def intakes(runs, draw):
    """Up to four calls, each cut, and each over the images that the one before it left."""
    centre = drawn_centre(draw)
    history = drawn_history(centre, draw)
    ledger, flashes = history[-1], beginnings(centre, draw, history)
    what = f"{len(centre.voters)} sections from {len(ledger)} reports"
    for _ in range(draw.randint(1, 4)):
        if draw.random() < 0.2:
            flashes, what = cut_totals(runs, centre, draw, flashes, ledger, what)
            yield "cut totals of a ledger"
            continue
        flashes, ledger, what = cut_taking(runs, centre, draw, flashes, ledger, what)
        yield "cut intakes"
    want_end(runs, centre, draw, flashes, ledger, what)


def openings(runs, draw):
    """Up to three `abre`, each cut, over flashes that have no report; none of them finds one in use."""
    centre = drawn_centre(draw)
    other = draw.choice([centre, drawn_centre(draw)])
    kinds = [[other.flashes({})[device], other.frame(device), bytes(LENGTH), draw.randbytes(LENGTH)] for device in (0, 1)]
    flashes = [draw.choice(kind) for kind in kinds]
    what = f"abre for {len(centre.voters)} sections"
    for _ in range(draw.randint(1, 3)):
        files = with_flashes(centre, {}, flashes)
        flashes, shown, what = cut_call(runs, centre, draw, files, ABRE, (0, b"LIVRO 0\n", {}), what)
        found = runs.run(with_flashes(centre, {}, flashes), TOTAIS)
        is_empty = (found.status, found.shown) == (0, centre.totals({}))
        want(is_empty or (not shown and found.status in (30, 31)), f"{what}, totais: {found.told()}")
        want(not any(map(is_in_use, flashes)), f"{what}: a flash is in use")
        yield "cut openings of a ledger"
    last = runs.run(with_flashes(centre, {}, flashes), ABRE)
    at_rest = flashes_in(last.files, what) == centre.flashes({})
    want((last.status, last.shown) == (0, b"LIVRO 0\n") and at_rest, f"{what}: the last abre {last.told()}")


def trials(runs, drawn):
    for number in itertools.count():
        draw = drawn(number)
        yield from (openings if number % 5 == 4 else intakes)(runs, draw)


# ---- what holds after a fault of another kind


def want_taken(runs, case, ended, what):
    """After a stopped `recebe` the flashes hold the reported ledger, or one with one more report, and the same list once more leaves
    what it usually leaves."""
    centre, taking = case.day, case.taking
    shown = ended.shown.partition(b"ERRO ")[0]
    flashes = flashes_in(ended.files, what)
    ledger = want_held(runs, centre, flashes, taking.allowed(len(shown)), bool(shown), what)
    again, rest = runs.run(ended.files, RECEBE), Taking(centre, ledger, taking.listed)
    want((again.status, again.shown) == (rest.status, rest.shown), f"{what}: the same list again {again.told()}")
    want(again.files == case.usual.files, f"{what}: the same list again left other files")
