#!/usr/bin/env python3
"""The scripts of cases. `stdout` of `session_tests` has all of them in one text, with their expected output: a script begins at each
line `# NAME: ..`, and its lines are those that aren't indented by four spaces. `--split` writes the scripts from it, and their names
into `args`.
"""

import argparse
import os
import re
import sys

sys.dont_write_bytecode = True

import house
import stops

CRATE = "crates/session_tests"


def split():
    """Each script of the expected text, by its name, in order."""
    scripts = []
    for line in house.read(f"{CRATE}/stdout").splitlines():
        begins = re.match(r"# ([a-z]+): ", line)
        if begins:
            scripts.append((begins[1] + ".txt", ""))
        if not line.startswith("    "):
            name, text = scripts.pop()
            scripts.append((name, text + line + "\n"))
    return scripts


def steps_of(script):
    """Each line of a script with its expected output, and its number in the expected text."""
    steps, is_ours = [], False
    for number, line in enumerate(house.read(f"{CRATE}/stdout").splitlines(), 1):
        if re.match(r"# [a-z]+: ", line):
            is_ours = line.startswith(f"# {script}: ")
        if is_ours and line.startswith("    "):
            steps[-1][2].append(line[4:])
        elif is_ours:
            steps.append((number, line, []))
    return steps


def piece(text):
    return text.replace("¶", "\n").replace("␣", " ").replace("∅", "")


def edited(text, changes):
    """A text with the changes that a line of a script makes (docs/FORMATS.md, "Scripts of cases")."""
    for change in changes.split(" | "):
        old, new = change.split(" => ")
        if " .. " in old:
            first, last = map(piece, old.split(" .. "))
            at = text.index(first)
            old = text[at : text.index(last, at + len(first)) + len(last)]
        if " × " in new:
            one, times = new.split(" × ")
            new = one * int(times)
        text = text.replace(piece(old), piece(new))
    return text


def give(files, line):
    """Adds, changes or removes a file, if a line of a script does so."""
    word, name, rest = (line.split(" ", 2) + ["", ""])[:3]
    if word == "file":
        files[name] = house.read(f"{CRATE}/data/{rest}")
    elif word == "text":
        files[name] = "".join(it + "\n" for it in rest.split(" / ") if rest)
    elif word == "long":
        files[name] = "0" * int(rest)
    elif word == "none":
        files.pop(name, None)
    elif word == "edit":
        files[name] = edited(files[name], rest)


def asked(script):
    """Each line of a script that runs a command, or runs the last one again: its number, the line, its output, the words of the command,
    the texts of its files, for which `anew` recomputes no hashes, and which of its calls fail."""
    files, last, faults = {}, [], {}
    for number, line, came in steps_of(script):
        word, name, rest = (line.split(" ", 2) + ["", ""])[:3]
        give(files, line)
        if word == "print":
            files[name] = "".join(it + "\n" for it in came)
        elif word in ("fails", "takes"):
            faults[word] = line.split()[1:]
        elif word in ("urna", "answers"):
            last = line.split()[1:] if word == "urna" else last
            yield number, line, came, last, dict(files), [*faults.values()]
        elif word in ("again", "anew"):
            yield number, line, came, last, {**files, name: edited(files[name], rest)}, [*faults.values()]


def args_of(scripts):
    return "".join(name + "\n" for name, _ in scripts)


def findings():
    """Scripts that differ from the expected text, files of their folder that no script uses, and stops in the expected text that are
    impossible."""
    scripts = split()
    if args_of(scripts) != house.read(f"{CRATE}/args") or len(dict(scripts)) != len(scripts):
        yield f"{CRATE}/args: not the scripts of stdout in their order: run tools/scripts.py --split"
    given = set(re.findall(r"^file \S+ (\S+)$", "".join(text for _, text in scripts), re.M))
    there = {os.path.basename(path): path for path in house.files("", below=f"{CRATE}/data")}
    for name, text in scripts:
        if name not in there or house.read(there[name]) != text:
            yield f"{CRATE}/data/{name}: not the lines of stdout: run tools/scripts.py --split"
    for name in sorted(set(there) - given - set(dict(scripts))):
        yield f"{there[name]}: no script uses it"
    for line in stops.violations(house.read(f"{CRATE}/stdout")):
        yield f"{CRATE}/stdout: {line}"


def write(path, text):
    with open(os.path.join(house.TOP, CRATE, path), "w") as file:
        file.write(text)


if __name__ == "__main__":
    parser = argparse.ArgumentParser(description=__doc__.partition("\n")[0])
    parser.add_argument("--split", action="store_true", required=True, help="write the scripts from the expected text")
    parser.parse_args()
    for name, text in split():
        write(f"data/{name}", text)
    write("args", args_of(split()))
