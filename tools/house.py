"""Reads the repository for the scripts of this folder: its crates, and the definitions of a file with the names that they cite."""

import functools
import hashlib
import os
import re

TOP = os.path.dirname(os.path.dirname(os.path.abspath(__file__)))
NAME = r"[A-Za-z_][\w'-]*"
WORDS = r"(?:(?:abbrev|unfoldable|pub|record|data|ruleset)\s+)*"
# The name of a module of laws.
LAWS = r"(?:\w+_)?laws"
# A name that is not a field and not part of a longer name.
CITED = re.compile(rf"(?<![\w'.-]){NAME}")


def read(path):
    with open(os.path.join(TOP, path)) as file:
        return file.read()


def files(*ends, below="crates"):
    """The paths of the files with these endings, without the output of `rt`."""
    found = []
    for folder, folders, names in os.walk(os.path.join(TOP, below)):
        folders[:] = sorted(it for it in folders if it not in ("out", ".git"))
        found += [os.path.relpath(os.path.join(folder, it), TOP) for it in sorted(names) if it.endswith(ends)]
    return found


def sources():
    """A hash of everything that a program is built from: the crates with their code, by name."""
    made = hashlib.sha256()
    for path in ["crates.txt", *(it for it in files(".rt") if "/src/" in it)]:
        made.update(f"{path}\n{len(read(path))}\n{read(path)}".encode())
    return made.hexdigest()


def proved_sources(program):
    """A hash of everything that a program is proved and built from: its crates and their dependencies, with definitions and proofs."""
    uses, needed, left = crates(), set(), [program]
    while left:
        crate = left.pop()
        if crate not in needed:
            needed.add(crate)
            left += [it for it in uses[crate] if it in uses]
    made = hashlib.sha256()
    for crate in sorted(needed):
        made.update(f"{crate}: {' '.join(uses[crate])}\n".encode())
        for path in files("", below=os.path.join("crates", crate)):
            if "/must-fail/" not in path:
                with open(os.path.join(TOP, path), "rb") as file:
                    made.update(path.encode() + b"\0" + hashlib.sha256(file.read()).digest())
    return made.hexdigest()


@functools.cache
def crates():
    """Each crate with the libraries that it uses, lower crates first."""
    lines = [line.split("#")[0].partition(":") for line in read("crates.txt").splitlines()]
    uses = {head.split()[0]: rest.split() for head, _, rest in lines if head.strip()}
    ordered = {}

    def place(crate):
        if crate in uses and crate not in ordered:
            for used in uses[crate]:
                place(used)
            ordered[crate] = uses[crate]

    for crate in uses:
        place(crate)
    return ordered


def blank(match):
    return re.sub(r"[^\n]", " ", match.group())


@functools.cache
def stripped(path):
    """A file with its comments and quoted texts replaced by blanks."""
    comment = r"--[^\n]*" if path.endswith(".antt") else r"//[^\n]*"
    return re.sub(rf'"(?:[^"\\\n]|\\.)*"|{comment}', blank, read(path))


@functools.cache
def imports(path):
    """Each name that a file imports, with the module and the name there; for a whole module the name is empty."""
    found = {}
    before = r"^\s*(?:pub )?use" if path.endswith(".antt") else r"^\s*ghost use"
    for line in re.findall(rf"{before} ([^;\n]+)", stripped(path), re.M):
        whole, _, as_name = line.partition("{")[0].partition(" as ")
        whole = whole.strip().rstrip(".")
        if "{" not in line:
            found[as_name.strip() or whole.rpartition(".")[2]] = (whole, "")
            continue
        for it in line.partition("{")[2].rpartition("}")[0].split(","):
            name, _, own = it.strip().partition(" as ")
            found[own.strip() or name.strip()] = (whole, name.strip())
    return found


class Definition:
    """A definition of a file of definitions or of proofs: its name, its line, the comment above it, and its text."""

    def __init__(self, path, name, line, comment, is_public):
        self.path, self.name, self.line, self.comment, self.is_public = path, name, line, comment, is_public
        self.kind, self.text, self.constructors = "", [], []


def head_of(line, width):
    """The leading words and the name of a definition that begins on this line; None if none does."""
    match = re.match(rf" {{{width}}}({WORDS})({NAME})(?= |$)(.*)", line)
    if not match or match[2] in ("use", "module", "mod", "open", "where", "unfolding", "with"):
        return None
    if match[1]:
        return match[1].split(), match[2]
    # Ignores brackets: a clause has parameters before an equals sign, a signature has a colon first.
    flat, inner = match[3], None
    while inner != flat:
        inner, flat = flat, re.sub(r"\([^()]*\)|\{[^{}]*\}|\[[^\[\]]*\]", "", flat)
    signs = re.search(r"(?<=\s)[:=](?=\s|$)", flat)
    return ([], match[2]) if signs and signs.group() == ":" else None


@functools.cache
def definitions(path):
    """The definitions of a file in order, also those in `module` blocks, which may be nested."""
    found, comment, widths, block = [], [], [0], None
    for number, (line, code) in enumerate(zip(read(path).splitlines(), stripped(path).splitlines()), 1):
        if not code.strip():
            comment = comment + [line.strip()[2:].strip()] if line.strip().startswith("--") else []
            continue
        indent = len(code) - len(code.lstrip())
        while indent < widths[-1] and code.lstrip()[0] not in ")]}":
            widths.pop()
        head = head_of(code, widths[-1])
        if re.match(r" *module _", code):
            widths.append(indent + 2)
            block = None
        elif head:
            block = Definition(path, head[1], number, comment, "pub" in head[0])
            block.kind = next((it for it in ("record", "data") if it in head[0]), "")
            found.append(block)
        elif re.match(r"(pub )?(use|mod) ", code):
            block = None
        elif block and block.kind == "data":
            made = re.match(rf" +({NAME}) :", code)
            block.constructors += [made[1]] if made else []
        if block:
            block.text.append((number, code))
        comment = []
    return found


def module_of(path):
    """The name by which others import a file of definitions or of proofs."""
    return "Rattle." + os.path.splitext(path)[0].removeprefix("crates/").replace("/", ".")


def names_in(definition):
    """The names that a definition's text cites, without its own."""
    text = "\n".join(code for _, code in definition.text)
    return set(CITED.findall(text)) - {definition.name}


def statement(definition):
    """What a lemma states, with its variables numbered; None if the definition isn't a lemma about variables."""
    text = " ".join(code.strip() for _, code in definition.text)
    name = rf"(?<![\w'.-]){re.escape(definition.name)}(?![\w'-])"
    _, _, said = re.split(rf"({name})", text, maxsplit=1)
    said = re.split(name, said.strip().removeprefix(":"))[0].strip()
    variables = {it for names in re.findall(r"[({]([\w' -]+) :", said) for it in names.split()}
    if not variables or said.endswith("Type 0"):
        return None
    numbers = {}
    return " ".join(
        f"#{numbers.setdefault(it, len(numbers))}" if it in variables else it for it in re.findall(rf"{NAME}|[^\sA-Za-z_]", said)
    )


@functools.cache
def defining(crate, kept):
    """The paths of a crate's files of definitions or of proofs by the names of their modules."""
    return {module_of(path): path for path in files(".antt", below=os.path.join("crates", crate, kept))}


@functools.cache
def type_at(module):
    """The path and the line of the type of the code that a module `declared` refers to."""
    _, crate, _, _, *inside = module.removesuffix(".TheVariants").split(".")
    name = inside.pop()
    for depth in range(len(inside), -1, -1):
        stems = ["/".join(inside[:depth])] if depth else ["lib", "main"]
        for path in (f"crates/{crate}/src/{stem}.rt" for stem in stems):
            if os.path.exists(os.path.join(TOP, path)):
                for number, line in enumerate(read(path).splitlines(), 1):
                    if re.match(rf"\s*(pub(\(\w+\))? )?(struct|enum|trait) {name}\b", line):
                        return path, number
    return None


def constant_in(path, name):
    """The line of a constant in a file of code."""
    for number, line in enumerate(stripped(path).splitlines(), 1):
        if re.match(rf"\s*(pub(\(\w+\))? )?const {name}\b", line):
            return number
    return None


def constant_at(module, name):
    """The path and the line of a constant that a module `declared` refers to."""
    _, crate, _, _, *inside, _ = module.split(".")
    for stem in ["/".join(inside)] if inside else ["lib", "main"]:
        path = f"crates/{crate}/src/{stem}.rt"
        line = constant_in(path, name) if os.path.exists(os.path.join(TOP, path)) else None
        if line:
            return path, line
    return None


def text_of_constant(path, line):
    """The lines of a constant, up to the semicolon that ends it."""
    text = "\n".join(stripped(path).splitlines()[line - 1 :])
    return re.split(r";\s*$", text, maxsplit=1, flags=re.M)[0]
