"""The state of a day (trials/polls.py) that flashes hold, as `vota` with no keys reports it: over both, and over each one alone."""

from commands import VOTA, want
from polls import COMMIT_LINES, FLASHES


def begun(text, count):
    """How many of a session's lines that stand for a commit begin in the first bytes of its text."""
    at, lines = 0, 0
    for line in text.splitlines(keepends=True):
        lines += line.decode().startswith(COMMIT_LINES) and at < count
        at += len(line)
    return lines


def allowed(text, shown, state, last):
    """The states that the flashes may hold when a session between two states has this text, and this much of it was shown."""
    if not shown:
        return {state}
    told = state + begun(text, len(shown))
    return {told, min(told + 1, last)}


def with_flashes(day, keys, flashes):
    """The files of a poll."""
    return {**day.documents(keys), **dict(zip(FLASHES, flashes))}


def flashes_in(files, what):
    """Both flashes of a folder."""
    found = [files.get(name) for name in FLASHES]
    want(all(isinstance(flash, bytes) for flash in found), f"{what}: a flash is gone")
    return found


def held(runs, day, flashes, what):
    """The state that these flashes hold. They are at rest with it after the call."""
    ended = runs.run(with_flashes(day, "", flashes), VOTA)
    line = ended.shown.decode(errors="replace")
    is_opening = line.startswith("URNA ") and line.endswith("\n") and line[5:-1] in day.states
    want(ended.status == 0 and is_opening, f"{what}: vota with no keys {ended.told()}")
    state = day.states.index(line[5:-1])
    at_rest = flashes_in(ended.files, what) == day.flashes(2, state)
    want(at_rest, f"{what}: the flashes are not at rest with {day.states[state]!r}")
    return state


def looks(flashes, frames, alone):
    """Both flashes, and, if asked for, each one alone beside one that has its frame and no slot open."""
    tried = {"both flashes": list(flashes)}
    if alone:
        tried["the internal flash alone"] = [flashes[0], frames[1]]
        tried["the external flash alone"] = [frames[0], flashes[1]]
    return tried


def want_held(runs, day, flashes, states, alone, what):
    """Both flashes hold one of these states, and so does each one alone if asked for. Returns the state that both hold."""
    tried = looks(flashes, [day.frame(0), day.frame(1)], alone)
    told = " or ".join(day.states[it] for it in sorted(states))
    found = []
    for name, images in tried.items():
        found.append(held(runs, day, images, f"{what}, {name}"))
        want(found[-1] in states, f"{what}, {name}: {day.states[found[-1]]} is held, expected {told}")
    return found[0]
