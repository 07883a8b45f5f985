"""A flash breaks in the middle of a poll, another one replaces it, and `repoe` loads it from the remaining one: sessions, exchanges and
replacements one after another, each cut at a drawn stop (trials/cuts.py), killed, or with a failing call (trials/failing.c).

At every moment after an exchange the remaining flash alone holds the state that it held, which is the one whose line was begun last or
the next. No other command changes it; the bytes of both flashes determine which command continues, and with which status another one
ends. At the end the rest of the keys seal the poll, and its report is that of the day without an exchange.
"""

import itertools

from commands import CARGA, EMITE, REPOE, VOTA, WORD, want
from cuts import cut, cut_session, drawn_fault, greater
from faults import FAULTS, HARMLESS, Case, goes_on, statuses
from held import flashes_in, held, with_flashes
from polls import FLASHES, LENGTH, Day, is_in_use
from runs import FIFO, FOLDER, Link


def refusal_of_repoe(day, flashes, device):
    """How `repoe` refuses to load this flash from the other one, if it does: the tests in order."""
    standing = 1 - device
    if not day.is_loaded(flashes[standing], standing):
        return 30, f"ERRO OUTRA CARGA {WORD[standing]}\n"
    if not day.stands(flashes[standing]):
        return 35, f"ERRO SEM IMAGEM {WORD[standing]}\n"
    return (32, f"ERRO EM USO {WORD[device]}\n") if is_in_use(flashes[device]) else None


def usual_end(day, flashes, words, state):
    """How a command ends over these flashes, one of which has this state; None if it may write more than a recovery."""
    if words in REPOE:
        return refusal_of_repoe(day, flashes, REPOE.index(words))
    if words == CARGA:
        used = [WORD[device] for device in (0, 1) if is_in_use(flashes[device])]
        return (32, f"ERRO EM USO {used[0]}\n") if used else None
    others = [WORD[device] for device in (0, 1) if not day.is_loaded(flashes[device], device)]
    if others:
        return 30, f"ERRO OUTRA CARGA {others[0]}\n"
    if words == EMITE:
        return (0, "EMITIDO 1 42\n") if state == day.last else (33, "ERRO NAO LACRADA\n")
    return 0, f"URNA {day.states[state]}\n"


def replaced_line(day, device, state):
    return f"REPOSTA {WORD[device]} 1 42 {day.came(state)}\n"


def alone(runs, day, flash, device, what):
    """The state that a flash holds alone, beside one with no slot open."""
    pair = [day.frame(0), day.frame(1)]
    pair[device] = flash
    return held(runs, day, pair, f"{what}, {FLASHES[device]} alone")


def want_standing(runs, day, flash, device, state, what):
    found = alone(runs, day, flash, device, what)
    want(found == state, f"{what}: {FLASHES[device]} alone holds {day.states[found]!r}, expected {day.states[state]!r}")


def try_beside(runs, day, draw, flashes, state, what):
    """Another command over a remaining flash and one that isn't loaded from it yet. It writes nothing except a recovery of the poll."""
    words = draw.choice([CARGA, EMITE, VOTA, *REPOE])
    end = usual_end(day, flashes, words, state)
    if end is None:
        return
    ended = runs.run(with_flashes(day, "", flashes), words)
    what = f"{what}, {' '.join(words)}"
    want((ended.status, ended.shown.decode()) == end, f"{what}: {ended.told()}, expected {end}")
    left = day.flashes(2, state) if words == VOTA and end[0] == 0 else flashes
    want(flashes_in(ended.files, what) == left, f"{what}: left other flashes")


def want_replaced(runs, day, files, device, state, what):
    """The replacement is done, or the flash is in use and both hold the poll; the session after it finds both at rest. Returns them."""
    ended = runs.run(files, REPOE[device])
    is_done = (ended.status, ended.shown.decode()) == (0, replaced_line(day, device, state))
    is_poll = (ended.status, ended.shown.decode()) == (32, f"ERRO EM USO {WORD[device]}\n")
    want(is_done or is_poll, f"{what}: then repoe {ended.told()}")
    left = flashes_in(ended.files, what)
    want(is_poll or left == day.flashes(2, state), f"{what}: then repoe left other flashes")
    found = held(runs, day, left, f"{what}, and repoe")
    want(found == state, f"{what}, and repoe: {day.states[found]!r} is held, expected {day.states[state]!r}")
    return day.flashes(2, state)


def spare(day, draw, flash, device):
    """What may replace a flash that broke, and isn't in use: zeros, anything, one that is loaded for this section or for another poll,
    with a slot or with none, and the lost one without its header."""
    other = Day(day.voters % 6 + 1)
    loaded = [it.flash(device, draw.choice((1, 2)), 0) for it in (day, other)]
    frames = [it.frame(device) for it in (day, other)]
    return draw.choice([bytes(LENGTH), draw.randbytes(LENGTH), *loaded, *frames, bytes(512) + flash[512:]])


def cut_replacement(runs, day, draw, flashes, device, state, what):
    """`repoe`, sometimes with a fault, cut at a drawn stop. Returns the images."""
    fail = drawn_fault(draw, 1)
    what = what + (f" with URNA_FAIL='{fail}'" if fail else "")
    ended = runs.run(with_flashes(day, "", flashes), REPOE[device], fail=fail, tells=True)
    if ended.other:
        want(ended.status == 21 + FLASHES.index(ended.other.name), f"{what}: {ended.told()}")
    else:
        want((ended.status, ended.shown.decode()) == (0, replaced_line(day, device, state)), f"{what}: {ended.told()}")
        want(flashes_in(ended.files, what) == day.flashes(2, state), f"{what}: left other flashes")
    told, images, _ = cut(draw, flashes, ended.calls, greater(day, draw, state))
    want_standing(runs, day, images[1 - device], 1 - device, state, f"{what}, {told}")
    return images, f"{what}, {told}"


def exchange(runs, day, draw, flashes, device, state, what):
    """Exchanges a flash for a spare and loads it, with cuts in between, as often as it isn't in use. Returns both flashes."""
    flashes = list(flashes)
    flashes[device] = spare(day, draw, flashes[device], device)
    what = f"{what}, another {FLASHES[device]}"
    for _ in range(draw.randint(0, 3)):
        try_beside(runs, day, draw, flashes, state, what)
        if is_in_use(flashes[device]):
            break
        flashes, what = cut_replacement(runs, day, draw, flashes, device, state, f"{what}, repoe")
    return want_replaced(runs, day, with_flashes(day, "", flashes), device, state, what), what


def chains(runs, draw):
    """Sessions and exchanges of either flash one after another."""
    day, states = Day(draw.randint(1, 5)), None
    state = draw.randrange(day.last + 1)
    flashes = day.flashes(draw.choice((1, 2)), state)
    what = f"{day.voters} voters from {day.states[state]!r}"
    for _ in range(draw.randint(1, 3)):
        if draw.random() < 0.7:
            flashes, state, shown, what = cut_session(runs, day, draw, flashes, state, what)
            states = shown or states
        device = draw.randrange(2)
        found = alone(runs, day, flashes[1 - device], 1 - device, what)
        want(found in (states or {state}), f"{what}: {FLASHES[1 - device]} alone holds {day.states[found]!r}")
        state, states = found, None
        flashes, what = exchange(runs, day, draw, flashes, device, state, what)
        yield "exchanged flashes"
    want_end(runs, day, flashes, state, what)


def want_end(runs, day, flashes, state, what):
    """The rest of the keys seal the poll, and leave what the day without an exchange leaves."""
    ended = runs.run(with_flashes(day, day.keys(state), flashes), VOTA)
    usual = runs.run(with_flashes(day, day.keys(), day.flashes(2, 0)), VOTA)
    left = {**ended.files, "keys": usual.files["keys"]}
    want(ended.status == 0 and left == usual.files, f"{what}: the rest of the keys {ended.told()}, or left other files")


def failing(runs, draw):
    """A call of `repoe` that goes another way, or is killed, over a spare or over a missing flash, which is created."""
    day, device = Day(draw.randint(1, 4)), draw.randrange(2)
    state = draw.randrange(day.last + 1)
    flashes = day.flashes(draw.choice((1, 2, 2)), state)
    files = with_flashes(day, "", flashes)
    del files[FLASHES[device]]
    files |= draw.choice([{}, {f"{FLASHES[device]}.new": b"left"}, {FLASHES[device]: spare(day, draw, flashes[device], device)}])
    case = Case(REPOE[device], files, runs.run(files, REPOE[device], tells=True))
    kind = draw.choice(["write", "write", "sync", "sync", "read", "seek", *FAULTS])
    count = sum(call.kind == kind for call in case.usual.calls)
    how = draw.choice([*HARMLESS.get(kind, []), *(it for it in FAULTS[kind] if (kind, it) != ("read", "end")), "kill"])
    if count == 0:
        return
    fail = f"{kind} * {draw.randint(1, count)} {how}"
    ended = runs.run(files, REPOE[device], fail=fail)
    what = f"{' '.join(REPOE[device])} with URNA_FAIL='{fail}' ({ended.other.kind} {ended.other.name})"
    allowed = {-9} if how == "kill" else statuses(case, ended.other, how)
    want(ended.status in allowed, f"{what}: {ended.told()}")
    want(ended.status in (-9, 0, 12) or not goes_on(ended, ended.other), f"{what}: it continued after the fault")
    want_standing(runs, day, ended.files[FLASHES[1 - device]], 1 - device, state, what)
    want_end(runs, day, want_replaced(runs, day, ended.files, device, state, what), state, what)


def odd(runs, draw):
    """Something instead of a flash that isn't a file of its length, or is the other flash, is a fault, and nothing is written; a link to
    a card is followed."""
    day, device = Day(draw.randint(1, 3)), draw.randrange(2)
    state, words = draw.randrange(day.last + 1), draw.choice(REPOE)
    files = with_flashes(day, "", day.flashes(2, state))
    things = [FOLDER, FIFO, Link("nowhere"), Link("/dev/null"), b"", bytes(LENGTH - 1), bytes(LENGTH + 1), Link(FLASHES[1 - device])]
    files[FLASHES[device]] = thing = draw.choice(things)
    ended = runs.run(files, words)
    status = 22 if thing is things[-1] else 21 + device
    what = f"{' '.join(words)} with an odd {FLASHES[device]} ({thing!r:.60})"
    want((ended.status, ended.shown, ended.files) == (status, b"", files), f"{what}: {ended.told()}, or left other files")
    files = {**files, FLASHES[device]: Link("card"), "card": spare(day, draw, day.flash(device, 2, state), device)}
    ended = runs.run(files, REPOE[device])
    want((ended.status, ended.shown.decode()) == (0, replaced_line(day, device, state)), f"repoe of a card: {ended.told()}")
    want(ended.files == {**files, "card": day.flash(device, 2, state)}, "repoe of a card left other files")


def trials(runs, drawn):
    for number in itertools.count():
        draw = drawn(number)
        if number % 4 < 2:
            yield from chains(runs, draw)
            continue
        (failing if number % 4 == 2 else odd)(runs, draw)
        yield "replacements with faults"
