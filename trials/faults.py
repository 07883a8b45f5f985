"""System calls that fail, or do less than asked: the status is that of the port, the output is a prefix of the usual output, and the
flashes hold what the display reports, or one more. Both programs are tested."""

import itertools
from errno import EACCES, EAGAIN, EINTR, EIO, EMFILE, ENOENT, ENOMEM, ENOSPC
from typing import NamedTuple

import ledgers
import memory
import takings
from commands import ABRE, CARGA, CERTIFICA, EMITE, RECEBE, TOTAIS, VERIFICA, VOTA, want
from held import allowed, flashes_in, want_held, with_flashes
from polls import FLASHES, LENGTH, Day
from runs import Ended

# How each kind of call may go. The program recovers from those of the first table.
HARMLESS = {"write": ["short", EINTR], "read": ["short", EINTR], "sync": [EINTR], "open": [EINTR], "lock": [EINTR]}
FAULTS = {
    "write": ["half", "end", EIO, ENOSPC, f"+{EIO}", f"+{ENOSPC}"],
    "read": ["end", EIO, f"+{EIO}"],
    "sync": [EIO, ENOSPC, f"+{EIO}"],
    "open": [EIO, EACCES, EMFILE, ENOENT, ENOMEM, f"+{EIO}"],
    "rename": [EIO, ENOSPC, EACCES],
    "link": [EIO, ENOSPC],
    "unlink": [EIO],
    "stat": [EIO],
    "seek": [EIO],
    "lock": [EIO, EAGAIN],
    "dup": [EMFILE],
}
# The documents of all commands, and the results, which a write replaces. The reports of a counting centre are r1, r2, ..
DOCUMENTS = ("tables", "roll", "keys", "list", "a.bu", "b.bu", "c.bu", "c.cer", *(f"r{number}" for number in range(1, 10)))
RESULTS = ("o.bu", "o.rdv", "o.cer", "p.bu", "p.rdv", *memory.REHEARSED)
# The commands that may write on a flash and write no file, and those of them that make new flashes.
NO_RESULTS = ("carga", "abre", "recebe", "totais")
MAKING = ("carga", "abre")


class Case(NamedTuple):
    """A command over files, and how it ends without a fault. For a session also its day, and its first and last states; for a `recebe`
    the counting centre instead of a day, and what it receives."""

    words: list
    files: dict
    usual: Ended
    day: Day = None
    state: int = 0
    last: int = 0
    taking: ledgers.Taking = None


def case(runs, words, files, day=None, state=0, last=0):
    return Case(words, files, runs.run(files, words, tells=True), day, state, last)


def session(runs, day, state, last, version=2, old=()):
    """A session from a state of a day to another one, over flashes at rest, with these old results."""
    files = with_flashes(day, day.keys(state, last), day.flashes(version, state))
    return case(runs, VOTA, {**files, **dict.fromkeys(old, b"old")}, day, state, last)


def taking(runs, centre, flashes, ledger, listed):
    """A `recebe` of this list over flashes that hold a ledger."""
    files, taken = takings.with_flashes(centre, listed, flashes), ledgers.Taking(centre, ledger, listed)
    found = Case(RECEBE, files, runs.run(files, RECEBE, tells=True), centre, taking=taken)
    want((found.usual.status, found.usual.shown) == (taken.status, taken.shown), f"recebe {found.usual.told()}")
    return found


def life(runs, drawn):
    """The commands of the day of one voter, and those of a counting centre that receives a report twice."""
    day = Day(1)
    yield case(runs, CARGA, day.documents(""))
    yield session(runs, day, 0, day.last)
    yield case(runs, EMITE, with_flashes(day, "", day.flashes(2, day.last)))
    centre, draw = ledgers.Centre([3, 2]), drawn("reports")
    listed = dict.fromkeys(("r1", "r2"), centre.report(draw, 1))
    yield case(runs, ABRE, centre.documents({}))
    yield taking(runs, centre, centre.flashes({}), {}, listed)
    yield case(runs, TOTAIS, takings.with_flashes(centre, {}, centre.flashes({1: listed["r1"]})))


def drawn_session(runs, draw):
    day = Day(draw.randint(1, 4))
    state = draw.randrange(day.last + 1)
    old = draw.choice([(), ("o.bu", "o.rdv")])
    return session(runs, day, state, draw.randint(state, day.last), draw.choice([1, 2, 2]), old)


def drawn_load(runs, draw):
    """A load over flashes that are missing, blank, with no slot open or already loaded, and over what a cut run left."""
    day = Day(draw.randint(1, 4))
    files = day.documents("")
    for device, name in enumerate(FLASHES):
        flash = draw.choice([None, bytes(LENGTH), day.frame(device), day.flash(device, 1, 0), day.flash(device, 2, 0)])
        files.update({name: flash} if flash else {})
        files.update({f"{name}.new": b"left"} if draw.random() < 0.3 else {})
    return case(runs, CARGA, files)


def drawn_opening(runs, draw):
    """An `abre` over flashes that are missing, blank, with no slot open or already opened, and over what a cut run left."""
    centre = takings.drawn_centre(draw)
    files = centre.documents({})
    for device, name in enumerate(FLASHES):
        flash = draw.choice([None, bytes(ledgers.LENGTH), centre.frame(device), centre.flashes({})[device]])
        files.update({name: flash} if flash else {})
        files.update({f"{name}.new": b"left"} if draw.random() < 0.3 else {})
    return case(runs, ABRE, files)


def drawn_counting(runs, draw):
    """A `recebe` or a `totais` over flashes that hold a ledger."""
    centre = takings.drawn_centre(draw)
    history = takings.drawn_history(centre, draw)
    flashes = takings.beginnings(centre, draw, history)
    if draw.random() < 0.2:
        return case(runs, TOTAIS, takings.with_flashes(centre, {}, flashes))
    return taking(runs, centre, flashes, history[-1], takings.drawn_list(centre, draw, history[-1]))


def drawn_case(runs, draw):
    kind = draw.choice(["session"] * 5 + ["load", "load", "emite", "ensaio", "listed", "certified"] + ["counting"] * 4 + ["opening"])
    if kind in ("counting", "opening"):
        return (drawn_counting if kind == "counting" else drawn_opening)(runs, draw)
    if kind == "session":
        return drawn_session(runs, draw)
    if kind == "load":
        return drawn_load(runs, draw)
    if kind == "emite":
        day = Day(draw.randint(1, 4))
        files = with_flashes(day, "", day.flashes(draw.choice((1, 2)), day.last))
        return case(runs, EMITE, {**files, **dict.fromkeys(draw.choice([(), ("p.bu", "p.rdv")]), b"old")})
    if kind == "ensaio":
        return case(runs, memory.ENSAIO, dict.fromkeys(draw.choice([(), memory.REHEARSED]), b"old"))
    if kind == "certified":
        old = dict.fromkeys(draw.choice([(), ("o.cer",)]), b"old")
        return case(runs, draw.choice((CERTIFICA, CERTIFICA, VERIFICA)), {**memory.certified_reports(), **old})
    return case(runs, draw.choice((memory.TOTALIZA, memory.CONFERE, memory.RECONTA)), memory.listed_reports())


def is_harmless(case, other, how):
    """Whether the program recovers from a call that went this way. A missing flash is missing either way."""
    is_missing = other.kind == "open" and other.name in FLASHES and other.name not in case.files
    return how in HARMLESS.get(other.kind, []) or (is_missing and how == ENOENT)


def statuses(case, other, how):
    """The statuses with which a command may end when this call went this way."""
    usual = {case.usual.status}
    if is_harmless(case, other, how):
        return usual
    if other.name == "display":
        return {23}
    for status, name in zip((21, 22), FLASHES):
        if other.name in (name, f"{name}.new"):
            return {status}
    if other.name in (".", "folder"):
        return {"ensaio": {20}, "certifica": {20}}.get(case.words[0], {21, 22} if case.words[0] in NO_RESULTS else {20, 21, 22})
    if other.kind == "open" and other.name in DOCUMENTS and how in (ENOENT, ENOMEM):
        return {12} if how == ENOENT else {1}
    # A result that is gone, or that this user may not open, is not a flash, and is replaced.
    is_free = how == ENOENT and other.kind == "stat" or how in (ENOENT, EACCES) and other.kind == "open"
    return {20} | usual if other.name in RESULTS and is_free else {20}


def is_front(case, ended, other):
    """Whether a prefix of the usual output was shown, in whole lines unless the display failed."""
    shown, _, told = ended.shown.partition(b"ERRO ") if ended.status == 12 else (ended.shown, b"", b"")
    in_lines = other.name == "display" or not shown or shown.endswith(b"\n")
    return in_lines and case.usual.shown.startswith(shown) and (not told or told.startswith(b"FALTA "))


def goes_on(ended, other):
    """Whether something is written to a flash or shown, or a flash is synced, after a port that failed."""
    behind = itertools.dropwhile(lambda call: call is not other, ended.calls)
    next(behind)
    return any(call.kind in ("write", "sync") and call.name in (*FLASHES, "display") for call in behind)


def want_files(case, ended, what):
    """Each file is the old one, or as the command leaves it; flashes are judged by what they hold, and what a cut write left is removed
    by the next one."""
    for name in set(case.files) | set(ended.files):
        if name in FLASHES or name.endswith(".new"):
            continue
        left = ended.files.get(name)
        want(left in (case.files.get(name), case.usual.files.get(name)), f"{what}: {name} is neither the old nor the new one")
    if case.words[0] not in ("vota", *NO_RESULTS):
        for name in FLASHES:
            want(ended.files.get(name) == case.files.get(name), f"{what}: {name} was written")


def want_rest_of(runs, case, ended, what):
    """The flashes hold what was shown, or one more, and the rest of the keys leave what the session leaves."""
    flashes = flashes_in(ended.files, what)
    states = allowed(case.usual.shown, ended.shown, case.state, case.last)
    state = want_held(runs, case.day, flashes, states, bool(ended.shown), what)
    rest = case.day.documents(case.day.keys(state, case.last))
    again = runs.run({**ended.files, **rest}, case.words)
    left = {**again.files, "keys": case.files["keys"]}
    want(again.status == 0 and left == case.usual.files, f"{what}: the rest of the session {again.told()}, or left other files")


def without(files, names):
    return {name: what for name, what in files.items() if name not in names}


def want_same(runs, case, ended, what):
    """The files are those that the command leaves. The other name of a flash may be left until the flash is next made, or removed."""
    others = [f"{name}.new" for name in FLASHES]
    want(without(ended.files, others) == without(case.usual.files, others), f"{what}: the command again left other files")
    left = [name for name in FLASHES if f"{name}.new" in ended.files]
    if case.words[0] in MAKING and left:
        made = runs.run(without(ended.files, left), case.words)
        want(made.files == without(case.usual.files, others), f"{what}: making the flash left other files")


def want_over(runs, case, ended, what):
    """What holds after a fault, and that the command can be repeated."""
    want_files(case, ended, what)
    if case.words[0] == "vota":
        return want_rest_of(runs, case, ended, what)
    if case.words[0] == "recebe":
        return takings.want_taken(runs, case, ended, what)
    again = runs.run(ended.files, case.words)
    want((again.status, again.shown) == (case.usual.status, case.usual.shown), f"{what}: the command again {again.told()}")
    want_same(runs, case, again, what)


def try_fault(runs, case, fail, how):
    """Makes a call go another way. Returns whether there was such a call."""
    ended = runs.run(case.files, case.words, fail=f"{fail} {how}")
    other = ended.other
    if not other:
        return False
    what = f"{' '.join(case.words)} with URNA_FAIL='{fail} {how}' ({other.kind} {other.name})"
    want(ended.status in statuses(case, other, how) and is_front(case, ended, other), f"{what}: {ended.told()}")
    if ended.status == case.usual.status:
        same = (ended.shown, ended.files) == (case.usual.shown, case.usual.files)
        want(same, f"{what}: {ended.told()}, or left other files than usual")
    else:
        # A missing file has its own line.
        want(ended.status == 12 or not goes_on(ended, other), f"{what}: it continued after the fault")
        want_over(runs, case, ended, what)
    return True


def drawn_way(draw, kind):
    """How a call of a kind goes, and over which files: a document that ends early is another document."""
    how = draw.choice(HARMLESS.get(kind, []) + FAULTS[kind])
    return how, [".flash"] if (kind, how) == ("read", "end") else ["*", ".flash", ".new", "display"]


def in_turn(runs, drawn):
    """Each call of those commands, each going in a drawn way."""
    for case in life(runs, drawn):
        for kind in FAULTS:
            for number in range(1, 1 + sum(call.kind == kind for call in case.usual.calls)):
                how, endings = drawn_way(drawn(f"{case.words[0]} {kind} {number}"), kind)
                if try_fault(runs, case, f"{kind} {endings[0]} {number}", how):
                    yield "failing calls"


def drawn_fault(runs, draw):
    """A drawn call of a drawn command, of those over some files. Returns whether there was such a call."""
    case, kind = drawn_case(runs, draw), draw.choice(["write", "write", "read", "sync", "sync", *FAULTS])
    how, endings = drawn_way(draw, kind)
    ending = draw.choice(endings)
    count = sum(call.kind == kind and (ending == "*" or call.name.endswith(ending)) for call in case.usual.calls)
    return count > 0 and try_fault(runs, case, f"{kind} {ending} {draw.randint(1, count)}", how)


def trials(runs, drawn):
    """Each call of some commands in turn, and then drawn ones of others."""
    yield from in_turn(runs, drawn)
    for number in itertools.count():
        if drawn_fault(runs, drawn(number)):
            yield "failing calls"
