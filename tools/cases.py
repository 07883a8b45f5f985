"""The seeded fault that each check of `check-house` must find: the check, the file, the old text and the new text. No file is changed:
`missed` runs the check on the changed text in a child process.
"""

import os

import house

CASES = [
    ("check_names", "docs/ARCHITECTURE.md", "`session_tests`", "`session_test`"),
    ("check_names", "docs/PROVED.md", "`laws::marks`", "`laws::mark`"),
    ("check_names", "CONTRIBUTING.md", "`crates/turnout/src/turnout.rt`", "`crates/turnout/src/turned.rt`"),
    ("check_names", "docs/FORMATS.md", "`TABLES_LIMIT`", "`TABLE_LIMIT`"),
    ("check_headings", "docs/WALKS.md", '`docs/FORMATS.md`, "Report text"', '`docs/FORMATS.md`, "Report texts"'),
    ("check_limits", "docs/FORMATS.md", "| 4,194,304 |", "| 4,194,305 |"),
    ("check_limits", "docs/FORMATS.md", "\n## Limits\n", "\n## Bounds\n"),
    ("check_used", "crates/urna_base/proofs/PieceLaws.antt", "no_split", "one_piece"),
    ("check_twice", "crates/urna_base/proofs/Lacking.antt", "\npub decimal_in_line", "\npub in_line : (m : ℕ) → m < 10 ^ 18 → Lacks 10 (decimal m)\n\npub decimal_in_line"),
    ("check_sessions", "docs/MANUAL.md", "\nCOMP 320\n", "\nCOMP 321\n"),
    ("check_scripts", "crates/session_tests/stdout", "\nurna abre a\n", "\nurna abre b\n"),
    ("check_day", "examples/dia.txt", "ZERESIMA", "ZERESIMO"),
    ("check_day", "docs/MANUAL.md", "\naceitos.txt: 5 de 9\n", "\naceitos.txt: 6 de 9\n"),
    ("check_seats", "crates/seat_tests/src/rows.rt", "QE 112,", "QE 113,"),
    ("check_seats", "crates/seat_tests/src/certificate_rows.rt", "QUOCIENTE 200", "QUOCIENTE 201"),
    ("check_federations", "crates/session_tests/stdout", "    CARGO 13 VALIDOS 180 NOMINAIS 180", "    CARGO 13 VALIDOS 181 NOMINAIS 180"),
    ("check_federations", "crates/session_tests/stdout", "    PARTIDO 30 VOTOS 550 QP 0 VAGAS 0\n", "    PARTIDO 30 VOTOS 550 QP 0 VAGAS 1\n"),
    ("check_recounts", "crates/session_tests/stdout", "    DIFERE CARGO 13 LEGENDA 45 REGISTRO 0 BOLETIM 1\n", "    DIFERE CARGO 13 LEGENDA 45 REGISTRO 1 BOLETIM 0\n"),
    ("check_contests", "crates/session_tests/stdout", "    SUPLENTE 10 1 10002\n", "    SUPLENTE 10 2 10002\n"),
    ("check_contests", "crates/session_tests/stdout", "    RODADA 2 FASE 2 VENCE 40 10:1900/4", "    RODADA 2 FASE 2 VENCE 30 10:1900/4"),
    ("check_offers", "crates/session_tests/stdout", "    LIVRO 0\n", "    LIVRO 9\n"),
    ("check_known", "examples/conhecida-12.bu", " BRAN:25 ", " BRAN:26 "),
    ("check_rehearsals", "crates/session_tests/stdout", "    ENSAIO 19\n", "    ENSAIO 18\n"),
    ("check_lines", "README.md", "\n\n", "\n\n" + "x" * 1201 + "\n\n"),
    ("check_sizes", "README.md", "\n## Licence\n", "\n## Licence\n" + "\nx" * 1000),
    ("check_comments", "crates/turnout/src/turnout.rt", "/// ", "// "),
    ("check_list", "docs/THEOREM.md", "| promise |", "| promises |"),
    ("check_guarantees", "docs/GUARANTEES.md", "\n- **D.** ", "\n- **E.** "),
    ("check_guarantees", "docs/GUARANTEES.md", "\n**12. ", "\n**13. "),
    ("check_guarantees", "docs/GARANTIAS.md", "*Premissas B a D;", "*Premissas A a D;"),
    ("check_guarantees", "docs/GUARANTEES.md", "`urna_laws::certificates` and `laws::certificates`", "`urna_laws::certificates` and `urna_laws::certificates`"),
    ("check_guarantees", "docs/GARANTIAS.md", "`laws::outcomes` de `seat_remainders`", "`laws::outcomes` de `seat_certificate`"),
    ("check_guarantees", "docs/GARANTIAS.md", "lista \"At rest\" (455", "lista \"At rest\" (456"),
    ("check_guarantees", "docs/GUARANTEES.md", "list \"The counting centre\"", "list \"The rehearsal\""),
    ("check_guarantees", "docs/MANUAL.md", "(promessas 2 e 4 de", "(promessas 1 e 4 de"),
    ("check_layers", "docs/pictures/layers.svg", ">turnout<", ">turned<"),
    ("check_phrases", "CONTRIBUTING.md", "\n## The loop\n", "\nThe caller owes memory.\n\n## The loop\n"),
    ("check_items", "docs/THEOREM.md", ": So it does over all flashes that hold the poll s of a section", ""),
    ("check_edits", "trials/wrong-bodies/vote_kinds/blank_is_null.edit", "old: ", "old: x"),
    ("check_marks", "README.md", "\n\n", "\n\nTODO\n\n"),
    ("check_marks", "README.md", "\n\n", "\n\n/tmp/urna\n\n"),
    ("check_marks", "README.md", "docs/PROVED.md", "docs/PROVEN.md"),
]


def read_as(path, text):
    """Makes a file read as this text, also where cached results depend on it."""
    before = house.read
    house.read = lambda it: text if it == path else before(it)
    for kept in ("stripped", "imports", "definitions"):
        make = getattr(house, kept)
        setattr(house, kept, lambda it, make=make: make.__wrapped__(it) if it == path else make(it))


def finds(check, path, text):
    """Whether a check finds something when a file has this text."""
    child = os.fork()
    if child == 0:
        read_as(path, text)
        os._exit(0 if next(iter(check()), None) else 1)
    return os.waitpid(child, 0)[1] == 0


def missed(checks):
    """The faults that these checks don't find, and the checks that have no fault."""
    for check in checks:
        cases = [it for it in CASES if it[0] == check.__name__]
        if not cases:
            yield f"tools/cases.py: {check.__name__} has no case"
        for name, path, old, new in cases:
            text = house.read(path)
            if old not in text:
                yield f"tools/cases.py: {name}: {path} has no {old.strip()}"
            elif not finds(check, path, text.replace(old, new)):
                yield f"tools/cases.py: {name} doesn't find {new.strip()[:60]} in {path}"
