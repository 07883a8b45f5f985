"""Power cuts as images. trials/failing.c logs the writes and syncs of a run, a stop of it is drawn, and each flash is replaced by an
image that the cut may leave. Synced bytes stay. Each unsynced write is lost, whole, torn, or has left any bytes in its range, in any
order. The next call continues over these images. This is the flash model of docs/CRASH.md."""

import itertools
from errno import EIO

from commands import CARGA, EMITE, VOTA, want
from held import allowed, flashes_in, want_held, with_flashes
from polls import FLASHES, GATES, LENGTH, Day

SECTOR = 512
OPEN, SHUT = b"\xa5", b"\x5a"


def sectors(draw, pieces):
    """In each sector the bytes of one of these pieces."""
    return b"".join(draw.choice(pieces)[at : at + SECTOR] for at in range(0, len(pieces[0]), SECTOR))


def front(draw, first, second):
    """A prefix of one, and the rest of the other."""
    at = draw.randint(0, len(first))
    return first[:at] + second[at:]


def lost(draw, old, new, other):
    return old


def whole(draw, old, new, other):
    return new


def from_other(draw, old, new, other):
    return other


# The possible contents of a range with unsynced writes, from the old bytes, the new ones, and those of another flash there.
TORN = [
    lambda draw, old, new, other: front(draw, new, old),
    lambda draw, old, new, other: front(draw, old, new),
    lambda draw, old, new, other: front(draw, other, old),
    lambda draw, old, new, other: front(draw, new, other),
    lambda draw, old, new, other: sectors(draw, [old, new]),
    lambda draw, old, new, other: sectors(draw, [old, new, other]),
    lambda draw, old, new, other: bytes(draw.choice(pair) for pair in zip(old, new)),
    lambda draw, old, new, other: draw.randbytes(len(new)),
    lambda draw, old, new, other: draw.choice([OPEN, SHUT, b"\0", b"\xff"]) * len(new),
]
# How the writes of one cut end: each is lost or whole, or has left the bytes of another flash, or is torn.
CUTS = [[lost, whole], [from_other], [lost, whole, from_other], [lost, whole, from_other, *TORN]]


def image(draw, flash, calls, other, ways):
    """An image of a flash after these calls on it. The last write may have only begun; a failed sync has cleaned nothing."""
    content, dirty = bytearray(flash), []
    for call in calls:
        if call.kind == "write":
            dirty.append(call)
        elif call.answer == 0:
            for put in dirty:
                content[put.at : put.at + len(put.data)] = put.data
            dirty = []
    draw.shuffle(dirty)
    for put in dirty:
        place = slice(put.at, put.at + len(put.data))
        content[place] = draw.choice(ways)(draw, bytes(content[place]), put.data, other[place])
    return bytes(content)


def operations(calls):
    """The writes and syncs of the flashes, and what was sent to the display."""
    on_flashes = {(kind, name) for kind in ("write", "sync") for name in FLASHES}
    return [call for call in calls if (call.kind, call.name) in {*on_flashes, ("write", "display")}]


def drawn_stop(draw, done):
    """How many operations are done: often up to a write on a flash, which has begun."""
    writes = [at for at, call in enumerate(done) if call.kind == "write" and call.name in FLASHES]
    return draw.choice(writes) if writes and draw.random() < 0.7 else draw.randint(0, len(done))


def cut(draw, flashes, calls, others):
    """A drawn stop of a run: its description, the images, and what was shown."""
    done = operations(calls)
    stop, ways = drawn_stop(draw, done), draw.choice(CUTS)
    told, begun = done[:stop], done[stop : stop + 1]
    shown = b"".join(call.data for call in told if call.name == "display")
    if begun and begun[0].name == "display":
        shown += begun[0].data[: draw.randrange(len(begun[0].data))]
    # A sync that has only begun has cleaned nothing yet.
    told += [call for call in begun if call.kind == "write"]
    own = [[call for call in told if call.name == name] for name in FLASHES]
    images = [image(draw, flash, calls, other, ways) for flash, calls, other in zip(flashes, own, others)]
    return f"cut after {stop} of {len(done)} operations", images, shown


def mixed_slots(draw, frames, gates, body):
    """Flashes with these frames. One slot is open with the body for it; each other one is open with the body for others, or shut over
    anything."""
    flashes = [bytearray(frame) for frame in frames]
    slots = list(itertools.product((0, 1), gates))
    sure = draw.choice(slots)
    for slot in slots:
        device, gate = slot
        told = body(slot == sure)
        is_open = slot == sure or draw.random() < 0.7
        flashes[device][gate] = 0xA5 if is_open else draw.choice([0, 0x5A, 0x25, 0xFF])
        place = slice(gate + 512, gate + 512 + len(told))
        flashes[device][place] = told if is_open else sectors(draw, [told, draw.randbytes(len(told))])
    return [bytes(flash) for flash in flashes]


def mixed(day, draw, state):
    """Flashes with a slot that holds a state; each other slot holds that state or the one before it, in either version, or is shut over
    anything."""

    def body(is_sure):
        return day.body(draw.choice((1, 1, 2)), state if is_sure else draw.choice([state, draw.randint(0, state)]))

    return mixed_slots(draw, [day.frame(0), day.frame(1)], GATES, body)


def beginnings(day, draw, state):
    """Flashes that hold a state: at rest, at rest in version 1, or with several versions and states."""
    kind = draw.choice(["rest", "first", "mixed"])
    if kind == "mixed":
        return mixed(day, draw, state)
    return day.flashes(1 if kind == "first" else 2, state)


def greater(day, draw, state):
    """Flashes at rest with a state of greater rank, if there is one."""
    return day.flashes(draw.choice((1, 2)), draw.randint(min(state + 1, day.last), day.last))


def want_emite(runs, day, flashes, state, what):
    """`emite` shows whether the held state is sealed, and writes nothing on a flash."""
    ended = runs.run(with_flashes(day, "", flashes), EMITE, tells=True)
    status, shown = (0, b"EMITIDO 1 42\n") if state == day.last else (33, b"ERRO NAO LACRADA\n")
    want((ended.status, ended.shown) == (status, shown), f"{what}, emite: {ended.told()}")
    wrote = [call for call in ended.calls if call.kind == "write" and call.name in FLASHES]
    want(not wrote and flashes_in(ended.files, what) == flashes, f"{what}, emite: wrote on a flash")


def drawn_fault(draw, commits):
    """A failing write to a flash or a failing sync, in some sessions."""
    call, how = draw.choice([("write", "half"), ("write", EIO), ("sync", EIO)])
    return f"{call} .flash {draw.randint(1, 14 * (commits + 1))} {how}" if draw.random() < 0.25 else None


def cut_session(runs, day, draw, flashes, state, what):
    """A session from this state, cut at a drawn stop, sometimes after a fault. Returns the images, the state that both hold, the states
    that each alone may hold if something was shown, and the operations that were done."""
    last = draw.randint(state, min(day.last, state + draw.randint(1, 3)))
    fail = drawn_fault(draw, last - state)
    what = f"{what}, vota from {day.states[state]!r} to {day.states[last]!r}" + (f" with URNA_FAIL='{fail}'" if fail else "")
    ended = runs.run(with_flashes(day, day.keys(state, last), flashes), VOTA, fail=fail, tells=True)
    if ended.other:
        want(ended.status == 21 + FLASHES.index(ended.other.name), f"{what}: {ended.told()}")
    else:
        at_rest = flashes_in(ended.files, what) == day.flashes(2, last)
        want(ended.status == 0 and at_rest, f"{what}: {ended.told()}, or left another state")
    told, images, shown = cut(draw, flashes, ended.calls, greater(day, draw, state))
    what = f"{what}, {told} and {len(shown)} shown bytes"
    states = allowed(ended.shown, shown, state, last)
    state = want_held(runs, day, images, states, bool(shown), what)
    return images, state, states if shown else None, what


def want_end(runs, day, flashes, state, what):
    """The rest of the keys seal the poll, with each vote once."""
    ended = runs.run(with_flashes(day, day.keys(state), flashes), VOTA)
    at_rest = flashes_in(ended.files, what) == day.flashes(2, day.last)
    want(ended.status == 0 and at_rest, f"{what}: the rest of the keys {ended.told()}, or left another state")
    clean = runs.run(with_flashes(day, day.keys(state), day.flashes(2, day.last)), VOTA)
    want(ended.files == clean.files, f"{what}: the results differ from those of the same poll without cuts")


def sessions(runs, draw):
    """Up to four sessions, each cut, and each over the images that the one before it left."""
    day = Day(draw.randint(1, 6))
    state = draw.randrange(day.last + 1)
    flashes = beginnings(day, draw, state)
    what = f"{day.voters} voters from {day.states[state]!r}"
    for _ in range(draw.randint(1, 4)):
        if draw.random() < 0.4:
            want_emite(runs, day, flashes, state, what)
        flashes, state, _, what = cut_session(runs, day, draw, flashes, state, what)
        yield "cut sessions"
    want_end(runs, day, flashes, state, what)


def loads(runs, draw):
    """Up to four loads, each cut, over flashes that are ready; none of them finds a flash in use."""
    day = Day(draw.randint(1, 6))
    olds = [draw.choice([day, Day(draw.randint(1, 6))]) for _ in (0, 1)]
    kinds = [[old.flash(device, 2, 0), mixed(old, draw, 0)[device], bytes(LENGTH)] for device, old in enumerate(olds)]
    flashes = [draw.choice(kind) for kind in kinds]
    what = f"loads for {day.voters} voters"
    for _ in range(draw.randint(1, 4)):
        ended = runs.run(with_flashes(day, "", flashes), CARGA, tells=True)
        want((ended.status, ended.shown) == (0, day.loaded.encode()), f"{what}: {ended.told()}")
        want(flashes_in(ended.files, what) == day.flashes(2, 0), f"{what}: the flashes are not loaded")
        other = draw.choice([day, *olds])
        told, flashes, _ = cut(draw, flashes, ended.calls, greater(other, draw, draw.randrange(other.last)))
        what = f"{what}, {told}"
        found = runs.run(with_flashes(day, "", flashes), VOTA)
        ready = (found.status, found.shown) == (0, b"URNA PRONTA 0\n")
        want(ready or found.status in (30, 31), f"{what}, vota: {found.told()}")
        yield "cut loads"
    last = runs.run(with_flashes(day, "", flashes), CARGA)
    want(last.status == 0 and flashes_in(last.files, what) == day.flashes(2, 0), f"{what}: the last load {last.told()}")


def day_by_day(runs):
    """Each state that the program leaves at rest is that of the writer of trials/polls.py."""
    day = Day(6)
    files = runs.run(day.documents(""), CARGA).files
    for state in range(day.last + 1):
        left = flashes_in(files, day.states[state])
        want(left == day.flashes(2, state), f"the flashes of {day.states[state]!r} differ from those of the writer")
        files = runs.run(with_flashes(day, day.keys(state, state + 1), left), VOTA).files


def trials(runs, drawn):
    day_by_day(runs)
    for number in itertools.count():
        draw = drawn(number)
        yield from (loads if number % 4 == 3 else sessions)(runs, draw)
