"""Reads the text of a report that `confere` accepts, for tools that show it (docs/FORMATS.md, "Report text" and "Parts")."""

import re
from typing import NamedTuple

PART = re.compile(r"QRBU:([1-9]\d{0,5}):([1-9]\d{0,5}) VRQR:\S+ (\S.*) HASH:([0-9A-F]{128})")


class Office(NamedTuple):
    """An office: its code, the votes in the order of the text, each as its field, and the fields after them."""

    code: int
    votes: list
    sums: dict


class Report(NamedTuple):
    """The lines of the parts without their line feeds, the fields before the offices, and the offices."""

    lines: list
    head: dict
    offices: list


def fields_of(lines):
    return [tuple(it.split(":", 1)) for line in lines for it in PART.fullmatch(line)[3].split(" ")]


def read(data):
    """The report of an accepted file."""
    lines = data.decode("ascii").split("\n")[:-1]
    head, offices = {}, []
    for key, value in fields_of(lines):
        if key == "CARG":
            offices.append(Office(int(value), [], {}))
        elif not offices:
            head[key] = value
        elif key.isdigit() or key in ("PART", "LEGP", "TOTP"):
            offices[-1].votes.append((key, value))
        else:
            offices[-1].sums[key] = value
    return Report(lines, head, offices)
