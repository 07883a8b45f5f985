"""Denied memory: a run in which one allocation is denied, or one and all after it, ends as usual or out of memory, and then the same
command ends as usual."""

import itertools
import random
from errno import ENOMEM

import ledgers
import polls
import takings
from commands import ABRE, CARGA, CERTIFICA, EMITE, RECEBE, REPOE, TOTAIS, TOTALIZA, VERIFICA, VOTA, want
from parts import parts_file
from polls import FLASHES, LENGTH

CONFERE, ENSAIO = ["confere", "tables", "a.bu"], ["ensaio", "1"]
RECONTA = ["reconta", "a.bu", "a.rdv"]
# The files of a rehearsal.
REHEARSED = tuple(f"ensaio.{end}" for end in ("toml", "rol", "teclas", "flash", "bu", "rdv"))
# How many allocations one run denies, each in a copy of its process.
IN_A_RUN = 1000

# The report of a second section for the worked list, in which four of five voters came, and the output for that list up to the sums.
SECOND_FIELDS = (
    "ORIG:VOTA PROC:7 DTPL:20261004 TURN:1 ZONA:2 SECA:1 APTO:5 COMP:4 FALT:1 DTAB:20261004 HRAB:080000 DTFC:20261004 HRFC:170000"
    " CARG:13 TIPO:1 PART:45 LEGP:2 TOTP:2 APTA:5 NOMI:0 LEGC:2 BRAN:0 NULO:2 TOTC:4 CARG:11 TIPO:0 45:3 APTA:5 NOMI:3 BRAN:1 NULO:0 TOTC:4"
)
WORKED_LINES = b"""1 ACEITO 1 42
2 REPETIDO 1 42
3 PARTE HASH 1
4 CONFLITO 1 42
5 CAMPO 27
6 ESTRANHO
7 ACEITO 2 1
8 REPETIDO 1 42
SECOES 2 DE 2
"""
# The certificate of the seats of councillor over its reports.
WORKED_CERTIFICATE = b"""CERT U1
CARGO 13
QUOCIENTE 1
PARTIDO 13 QP 1 APTOS 1 VAGAS 1
PARTIDO 45 QP 3 APTOS 0 VAGAS 0
RODADA 1 FASE 3 VENCE 45 45:3/1
VAZIAS 3
FIM
"""


def worked_list():
    """Reports of two sections, as the script `intake` of `session_tests` lists them: one of the first section, a copy of it, one with a
    changed digit and the old hash, one with a null vote instead of the blank one, one with a count written 00, one of another election,
    one of the second section, and the copy again."""
    fields = polls.THREE_BALLOTS_FIELDS
    report, counts = parts_file(fields), "BRAN:1 NULO:0"
    files = {
        "b": report,
        "copy": report,
        "digit": report.replace("13001:1", "13001:2", 1),
        "vote": parts_file(fields.replace(counts, "BRAN:0 NULO:1", 1)),
        "field": parts_file(fields.replace(counts, "BRAN:1 NULO:00", 1)),
        "strange": parts_file(fields.replace("PROC:7", "PROC:8", 1)),
        "other": parts_file(SECOND_FIELDS),
    }
    files["list"] = "".join(f"{name}\n" for name in (*files, "copy"))
    one = polls.three_ballots([])
    two = one["tables"].replace(b"eleitores = 3}", b"eleitores = 3}, {zona = 2, secao = 1, eleitores = 5}")
    return {**one, "tables": two, **{name: text.encode() for name, text in files.items()}}


def listed_reports():
    """The tables of the three ballots, their report, a copy of it, one with a changed digit, the list of the three, and the record."""
    report = parts_file(polls.THREE_BALLOTS_FIELDS).encode()
    changed = report.replace(b"TOTP:1", b"TOTP:2", 1)
    return {**polls.three_ballots([]), "a.bu": report, "b.bu": report, "c.bu": changed, "list": b"a.bu\nb.bu\nc.bu\n", "a.rdv": polls.THREE_BALLOTS_RECORD.encode()}


def certified_reports():
    """The tables of the worked list, the report of the first section, one with a changed digit, that of the second section, the list of
    the three, and the certificate."""
    worked = worked_list()
    files = {name: worked[other] for name, other in (("tables", "tables"), ("a.bu", "b"), ("b.bu", "digit"), ("c.bu", "other"))}
    return {**files, "list": b"a.bu\nb.bu\nc.bu\n", "c.cer": WORKED_CERTIFICATE}


def certifying():
    """The commands of certificates with their files, the output of each, and the file that it writes."""
    yield CERTIFICA, certified_reports(), b"CERTIFICADO 13\n", {"o.cer": WORKED_CERTIFICATE}
    yield VERIFICA, certified_reports(), b"CERTIFICADO VALIDO 13\n", {}


def life(runs):
    """The commands of the poll of one vote, each with its input files."""
    files = polls.one_vote()
    for words in (CARGA, VOTA, EMITE):
        yield words, files
        files = runs.run(files, words).files


def counting():
    """The commands of a counting centre, each with its files, and for `recebe` what it receives: new reports, a kept one, one in
    conflict with it, and a file that isn't a report."""
    draw, centre = random.Random("counting"), ledgers.Centre([3, 2, 4])
    kept, new = centre.report(draw, 0), centre.report(draw, 2)
    files = [new, kept, centre.other(draw, kept), centre.faulty(draw), new, centre.report(draw, 1)]
    listed = {f"r{number}": file for number, file in enumerate(files, 1)}
    yield ABRE, centre.documents({}), None
    yield RECEBE, takings.with_flashes(centre, listed, centre.flashes({0: kept})), ledgers.Taking(centre, {0: kept}, listed)
    yield TOTAIS, takings.with_flashes(centre, {}, centre.flashes({0: kept, 2: new})), None


def cases(runs):
    """The commands in which a drawn allocation is denied."""
    listed = listed_reports()
    *_, (_, sealed) = life(runs)
    day = polls.Day(3)
    opened = {**day.documents(day.keys(3)), **dict(zip(FLASHES, day.flashes(1, 3)))}
    found = [(TOTALIZA, listed), (ENSAIO, {}), (CONFERE, listed), (RECONTA, listed), (VOTA, sealed), (VOTA, opened), (CARGA, day.documents(""))]
    found += [(words, files) for words, files, _, _ in certifying()]
    return found + [(words, {**opened, name: bytes(LENGTH)}) for words, name in zip(REPOE, FLASHES)]


def has_taken_some(taking, files, ended):
    """Whether some first files of a list were received and their lines shown, or nothing was done."""
    for number in range(len(taking.lines)):
        if ended.shown == b"".join(taking.lines[: number + 1]):
            at_rest = dict(zip(FLASHES, taking.centre.flashes(taking.states[number])))
            return ended.files == {**files, **at_rest}
    return not ended.shown and ended.files == files


def has_ended_short(words, files, usual, ended):
    """Whether the files and the output are those of a command that ran out of memory."""
    blank = {name: bytes(ledgers.LENGTH if words == ABRE else LENGTH) for name in FLASHES if name not in files}
    left = {name: what for name, what in ended.files.items() if what != blank.get(name)}
    if words[0] == "vota" and ended.shown:
        # The whole session is done, and no result is written.
        at_rest = all(ended.files.get(name) == usual.files[name] for name in FLASHES)
        return ended.shown == usual.shown and at_rest and set(left) == set(files)
    if words[0] == "totaliza":
        verdicts = usual.shown.partition(b"SECOES")[0].splitlines(keepends=True)
        return left == files and ended.shown in [b"".join(verdicts[:n]) for n in range(len(verdicts) + 1)]
    return left == files and not ended.shown


def want_refused(words, files, usual, ended, taking, what):
    if ended.status == usual.status:
        want((ended.shown, ended.files) == (usual.shown, usual.files), f"{what}: {ended.told()}, or left other files than usual")
    elif ended.status == 40:
        want(not ended.shown and ended.files == files, f"{what}: {ended.told()}, or left other files")
    else:
        is_short = has_taken_some(taking, files, ended) if taking else has_ended_short(words, files, usual, ended)
        want(ended.status == 1 and is_short, f"{what}: {ended.told()}, or left other files")


def want_again(runs, words, usual, ended, taking, what):
    """The same command ends as usual over what was left, which may now be a sealed poll, or a ledger with some of its reports."""
    again = runs.run(ended.files, words)
    if taking:
        ledger = taking.states[max(ended.shown.count(b"\n") - 1, 0)]
        rest = ledgers.Taking(taking.centre, ledger, taking.listed)
        same = (again.status, again.shown, again.files) == (rest.status, rest.shown, usual.files)
        return want(same, f"{what}: the same list again {again.told()}, or left other files")
    is_sealed = words[0] == "vota" and ended.shown
    is_usual = again.status == usual.status and (is_sealed or again.shown == usual.shown)
    want(is_usual, f"{what}: the same command again {again.told()}")
    want(again.files == usual.files, f"{what}: the same command again left other files")


def refuse(runs, words, files, usual, number, how, taking=None):
    """Runs a command with an allocation denied, and then again. Returns whether there was such an allocation. A `recebe` comes with what
    it receives."""
    fail = f"memory * {number} {how}"
    what = f"{' '.join(words)} with URNA_FAIL='{fail}'"
    ended = runs.run(files, words, fail=fail)
    if not ended.other:
        is_usual = (ended.status, ended.shown, ended.files) == (usual.status, usual.shown, usual.files)
        want(is_usual, f"{what}, which denies nothing: {ended.told()}, or left other files than usual")
        return False
    want_refused(words, files, usual, ended, taking, what)
    want_again(runs, words, usual, ended, taking, what)
    return True


def each(runs, words, files, usual, taking=None):
    """Each allocation of a command, and each with all after it, until a run has no denial."""
    for how in (f"{ENOMEM}", f"+{ENOMEM}"):
        number = 1
        while refuse(runs, words, files, usual, number, how, taking):
            yield "denied allocations"
            number += 1


def each_in_copies(runs, words, files, usual, how):
    """Each allocation of a command that has many, in a copy of its process (trials/failing.c). If a copy runs out of memory before it
    touched a file, nothing is shown and the files are as they were; else the allocation is denied in a run of its own."""
    count = sum(call.kind == "memory" for call in usual.calls)
    for first in range(1, count + 1, IN_A_RUN):
        last = min(first + IN_A_RUN - 1, count)
        ended = runs.run(files, words, fail=f"memory * {first}-{last} {how}")
        is_usual = (ended.status, ended.shown, ended.files) == (usual.status, usual.shown, usual.files)
        want(is_usual, f"{' '.join(words)} with copies from allocation {first} to {last}: {ended.told()}, or left other files")
        before_files = itertools.takewhile(lambda call: call.kind in ("memory", "copy"), ended.calls)
        short = {call.at for call in before_files if call.kind == "copy" and call.answer in (1, 40)}
        for number in range(first, last + 1):
            if number not in short:
                refuse(runs, words, files, usual, number, how)
            yield "denied allocations"


def in_turn(runs):
    """Each allocation of the poll of one vote, of the commands of a counting centre, of the totals of the worked list, of its
    certificate, and of a rehearsal over old files."""
    for words, files in life(runs):
        usual = runs.run(files, words)
        want(usual.status == 0, f"{words[0]} {usual.told()}")
        yield from each(runs, words, files, usual)
    report, record = usual.files["p.bu"].decode(), usual.files["p.rdv"].decode()
    want(report == parts_file(polls.ONE_VOTE_FIELDS) and record == polls.ONE_VOTE_RECORD, "the results of one vote differ")
    for words, files, taking in counting():
        usual = runs.run(files, words)
        is_usual = (usual.status, usual.shown) == (taking.status, taking.shown) if taking else usual.status == 0
        want(is_usual, f"{words[0]} {usual.told()}")
        yield from each(runs, words, files, usual, taking)
    files = worked_list()
    usual = runs.run(files, TOTALIZA)
    want(usual.status == 6 and usual.shown.startswith(WORKED_LINES), f"totaliza of the worked list {usual.told()}")
    yield from each(runs, TOTALIZA, files, usual)
    for words, files, shown, put in certifying():
        usual = runs.run(files, words)
        want((usual.status, usual.shown, usual.files) == (0, shown, {**files, **put}), f"{words[0]} {usual.told()}")
        yield from each(runs, words, files, usual)
    files = dict.fromkeys(REHEARSED, b"old")
    usual = runs.run(files, ENSAIO, tells=True)
    want(usual.status == 0 and usual.shown.startswith(b"ENSAIO 1\nCOMP 1\n"), f"ensaio {usual.told()}")
    yield from each_in_copies(runs, ENSAIO, files, usual, f"{ENOMEM}")


def trials(runs, drawn):
    """Each allocation of some commands in turn, and then drawn ones of these and others."""
    yield from in_turn(runs)
    known = []
    for words, files, taking in [*((*it, None) for it in cases(runs)), *counting()]:
        usual = runs.run(files, words, tells=True)
        known.append((words, files, usual, taking, sum(call.kind == "memory" for call in usual.calls)))
    for number in itertools.count():
        draw = drawn(number)
        words, files, usual, taking, count = draw.choice(known)
        refuse(runs, words, files, usual, draw.randint(1, count), draw.choice(("", "+")) + str(ENOMEM), taking)
        yield "denied allocations"
