"""The processor minutes of each crate in a run of the gate: reads and writes the stored table (gate.txt)."""

import os
import re

BENCH = os.path.dirname(os.path.abspath(__file__))
TABLE = os.path.join(BENCH, "gate.txt")
STEPS = ("proofs", "tests", "edits")
# The rows of a table below its crates.
LOOP, FACTOR, WALL, TOGETHER, QUIET = "least time of bench/loop, seconds", "factor", "wall", "together", "quiet, together"
# The maximum quiet minutes of a step, and of a crate relative to the table.
MOST, GROWTH = 10.0, 1.25


def rows(path):
    """The measured minutes of each crate by step, and the other rows of the table, by name."""
    minutes, others = {}, {}
    with open(path) as file:
        for line in file:
            name, *cells = [it.strip() for it in line.strip().strip("|").split("|")]
            crate = re.fullmatch(r"`(\w+)`", name)
            if crate and len(cells) == len(STEPS):
                minutes[crate[1]] = [float(it or 0) for it in cells]
            elif cells and re.fullmatch(r"[\d.]+", cells[0]):
                others[name] = float(cells[0])
    return minutes, others


def text(minutes, others, heading):
    """A table of these minutes."""
    lines = [*heading, "", f"| crate | {' | '.join(STEPS)} |", f"|{'---|' * (1 + len(STEPS))}"]
    for crate, row in minutes.items():
        lines.append(f"| `{crate}` | {' | '.join(f'{it:.1f}' if it else '' for it in row)} |")
    lines += [f"| {name} | {value:.3f} | | |" for name, value in others.items()]
    return "\n".join(lines) + "\n"


def path_lengths(uses, minutes):
    """For each crate the minutes of proofs on the longest path up to it, itself included."""
    lengths = {}
    for crate, used in uses.items():
        below = max((lengths[it] for it in used if it in lengths), default=0.0)
        lengths[crate] = below + minutes.get(crate, [1.0])[0]
    return lengths
