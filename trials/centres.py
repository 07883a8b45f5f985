"""Tests urna_ledger on real files, for trials/crash-trial: how it ends, a ledger from its opening to the last section, both programs in
one folder, and runs of `abre` and `recebe` that are killed or in which a call fails, and that resume.

After each of these both flashes, and each one alone, hold the ledger with the first of the listed reports: as many as verdicts had begun
to be shown, or one more (trials/takings.py). At the end the ledger has a report of each section once, the sums are those that
`totaliza`, a command of urna, prints for the accepted reports, and the certificate of councillor's seats over them is that of a model
(tools/contests.py).
"""

import os
import random
import signal
import tempfile
import time

import contests
from commands import (
    ABRE,
    CARGA,
    CERTIFICA,
    EMITE,
    RECEBE,
    REPOE,
    TOTAIS,
    TOTALIZA,
    VERIFICA,
    VOTA,
    answer,
    content,
    ended,
    failing,
    killed,
    place,
    started,
    want,
    want_run,
)
from ledgers import Centre, Taking
from polls import FLASHES, Day
from runs import Runs
from takings import drawn_list, lines_of_sums, want_held

# An election of some sections; two of them have reports of several parts.
CENTRE = Centre([*range(1, 59), 400, 500], 60)
# How many files are in the list of a killed run, and the time limit of the trials in seconds.
FILES, LONGEST = 30, 50.0


def flashes():
    return [content(name) for name in FLASHES]


def in_new_folder(work, files):
    os.chdir(tempfile.mkdtemp(dir=work))
    place(files.keys(), files.values())


def write_list(listed, centre=CENTRE):
    files = centre.documents(listed)
    place(files.keys(), files.values())


def ledger_list(ledger):
    """The reports of a ledger as a list."""
    return {f"a{place}": file for place, file in ledger.items()}


def want_rest(ledger, what):
    for name, found, rest in zip(FLASHES, flashes(), CENTRE.flashes(ledger)):
        want(found == rest, f"{what}: {name} is not at rest with {len(ledger)} reports")


def statuses(work, urna, program):
    """The program ends with the status of its command; a refused command changes nothing."""
    draw = random.Random("statuses")
    report = CENTRE.report(draw, 0)
    in_new_folder(work, CENTRE.documents({"r": report}))
    for words in (["nada"], [], ["abre"], ["recebe", "tables"], ["totais", "tables", "list"], ["vota", "tables", "list", "r", "o"]):
        want_run(ended(program, words), 2, "ERRO USO\n", f"the words {words}")
    want_run(ended(urna, RECEBE), 2, "ERRO USO\n", "recebe of urna")
    want_run(ended(program, ["abre", "table"]), 12, "ERRO FALTA TABELAS\n", "missing tables")
    want_run(ended(program, ["abre", "list"]), 3, "ERRO TABELAS TOML\n", "a list as tables")
    want_run(ended(program, ["recebe", "tables", "lista"]), 12, "ERRO FALTA LISTA\n", "a missing list")
    want_run(ended(program, ["recebe", "tables", "."]), 20, "", "a folder as a list")
    want(not any(os.path.exists(name) for name in FLASHES), "a refused command made a flash")
    want_run(ended(program, RECEBE), 30, "ERRO OUTRA CARGA INTERNA\n", "flashes that are blank")
    want_run(ended(program, ABRE), 0, "LIVRO 0\n", "abre")
    want_run(ended(program, ABRE), 0, "LIVRO 0\n", "abre once more")
    want_rest({}, "abre")
    place(["list", "long"], [b"r\nlong\n", b"x" * 1_048_577])
    want_run(ended(program, RECEBE), 5, "LIVRO 0\n1 ACEITO 1 42\nERRO TAMANHO BOLETIM\n", "a report that is too long")
    want_rest({0: report}, "a list up to a report that is too long")
    place(["list"], [b"r\nnone\n"])
    want_run(ended(program, RECEBE), 12, "LIVRO 1\n1 REPETIDO 1 42\nERRO FALTA BOLETIM\n", "a missing report")
    place(["list"], [b"r\n.\n"])
    want_run(ended(program, RECEBE), 20, "LIVRO 1\n1 REPETIDO 1 42\n", "a folder as a report")
    place(["list"], [b"r\n\nr\n"])
    want_run(ended(program, RECEBE), 4, "ERRO LINHA 2\n", "an empty line")
    want_run(ended(program, ABRE), 32, "ERRO EM USO INTERNA\n", "abre over a ledger with a report")
    os.remove("internal.flash")
    want_run(ended(program, ABRE), 32, "ERRO EM USO EXTERNA\n", "abre without the internal flash")
    want_run(ended(program, TOTAIS), 30, "ERRO OUTRA CARGA INTERNA\n", "totais without the internal flash")
    want(content("external.flash") == CENTRE.flashes({0: report})[1], "a refused command wrote on a flash")


def want_certified(urna, files, what):
    """Certifies the seats of councillor over a list as the model does; the certificate is valid if there is one."""
    model = contests.run(CERTIFICA, files)
    want_run(ended(urna, CERTIFICA), model.code, model.shown, f"{what}, certifica")
    for name in model.made:
        want(content(name).decode() == model.files[name], f"{what}: certifica wrote a certificate other than the model's")
        want_run(ended(urna, [*VERIFICA[:-1], name]), 0, "CERTIFICADO VALIDO 13\n", f"{what}, verifica")


def want_totals(urna, program, centre, ledger, what):
    """The sums are those of the writer, and those that `totaliza` prints for the accepted reports, over which the seats are certified."""
    sums = ended(program, TOTAIS)
    want_run(sums, 0, centre.totals(ledger).decode(), f"{what}, totais")
    write_list(ledger_list(ledger), centre)
    status, totals = ended(urna, TOTALIZA)
    same = lines_of_sums(totals.encode()) == sums[1].encode().splitlines()
    want(status == 0 and same, f"{what}: totaliza ended with {status}, or printed other sums than totais")
    want_certified(urna, centre.documents(ledger_list(ledger)), what)


def days(work, urna, program):
    """Builds a ledger from its opening to the last section, one list a day: after each list the flashes are those of the writer."""
    draw, ledger = random.Random("days"), {}
    in_new_folder(work, CENTRE.documents({}))
    want_run(ended(program, ABRE), 0, "LIVRO 0\n", "abre")
    lacking = draw.sample(range(len(CENTRE.voters)), len(CENTRE.voters))
    while lacking:
        new, lacking = lacking[:9], lacking[9:]
        listed = {**drawn_list(CENTRE, draw, ledger), **ledger_list({place: CENTRE.report(draw, place) for place in new})}
        write_list(listed)
        taking = Taking(CENTRE, ledger, listed)
        want_run(ended(program, RECEBE), taking.status, taking.shown.decode(), f"a list over {len(ledger)} reports")
        ledger = taking.ledger
        want_rest(ledger, "a received list")
        want_totals(urna, program, CENTRE, ledger, f"{len(ledger)} reports")
    want(len(ledger) == len(CENTRE.voters), "some section has no report")
    want_rest(ledger, "totais")


def largest(work, urna, program):
    """A ledger with the maximum number of sections, with reports of the first and of the last, and of many parts."""
    voters = [2] * 1999 + [600]
    centre, draw = Centre(voters, 999), random.Random("largest")
    ledger = {place: centre.report(draw, place) for place in (1999, 0, 7, 8, 1000)}
    files = centre.documents(ledger_list(ledger))
    in_new_folder(work, files)
    want_run(ended(program, ABRE), 0, "LIVRO 0\n", "abre for 2000 sections")
    taking = Taking(centre, {}, ledger_list(ledger))
    want_run(ended(program, RECEBE), 0, taking.shown.decode(), "reports of some of 2000 sections")
    want(flashes() == centre.flashes(ledger), "a ledger of 2000 sections is not that of the writer")
    want_totals(urna, program, centre, ledger, "a ledger of 2000 sections")


def closed_descriptors(work, urna, program):
    """With a standard descriptor closed, no flash and no report is opened under its number."""
    listed = ledger_list({0: CENTRE.report(random.Random("closed"), 0)})
    taking = Taking(CENTRE, {}, listed)
    for closed in ((0,), (1,), (2,), (0, 1, 2)):
        in_new_folder(work, CENTRE.documents(listed))
        hidden = 1 in closed
        want_run(ended(program, ABRE, closed=closed), 23 if hidden else 0, "" if hidden else "LIVRO 0\n", f"abre without {closed}")
        want_rest({}, f"abre without {closed}")
        shown = "" if hidden else taking.shown.decode()
        want_run(ended(program, RECEBE, closed=closed), 23 if hidden else 0, shown, f"recebe without {closed}")
        want_rest({} if hidden else taking.ledger, f"recebe without {closed}")


def other_folders(work, urna, program):
    """Each program in the other one's folder ends with the fault of the internal flash, and changes nothing."""
    day, ledger = Day(3), {3: CENTRE.report(random.Random("folders"), 3)}
    folders = [
        (program, [ABRE, RECEBE, TOTAIS], {**CENTRE.documents(ledger_list(ledger)), **dict(zip(FLASHES, day.flashes(2, 2)))}),
        (urna, [CARGA, VOTA, EMITE, *REPOE], {**day.documents(day.keys()), **dict(zip(FLASHES, CENTRE.flashes(ledger)))}),
    ]
    for other, commands, files in folders:
        in_new_folder(work, files)
        for words in commands:
            want_run(ended(other, words), 21, "", f"{words[0]} in a folder of the other program")
            same = {name: content(name) for name in os.listdir()} == files
            want(same, f"{words[0]} in a folder of the other program changed it")


def two_at_once(work, urna, program):
    """Of two commands on one ledger one ends with the status of the internal flash, and no shown report is lost."""
    draw = random.Random("two")
    listed = ledger_list({place: CENTRE.report(draw, place) for place in range(len(CENTRE.voters))})
    taking = Taking(CENTRE, {}, listed)
    for _ in range(2):
        in_new_folder(work, CENTRE.documents(listed))
        want_run(ended(program, ABRE), 0, "LIVRO 0\n", "abre")
        runs = [started(program, RECEBE) for _ in range(2)]
        shown = [answer(run) for run in runs]
        ends = sorted(zip([run.returncode for run in runs], shown))
        # One may have begun after the other one had ended.
        again = Taking(CENTRE, taking.ledger, listed)
        allowed = [[(0, taking.shown.decode()), it] for it in ((21, ""), (6, again.shown.decode()))]
        want(ends in allowed, f"two at once: {ends}")
        want_rest(taking.ledger, "two at once")


CHECKS = (statuses, days, largest, closed_descriptors, other_folders, two_at_once)


class Counting:
    """The flashes of a ledger in the working folder, and what they hold."""

    def __init__(self, runs, library, seconds=0.0):
        """Opens the ledger, sometimes after openings that are killed within the given number of seconds."""
        self.runs, self.library, self.ledger = runs, library, {}
        in_new_folder(runs.work, CENTRE.documents({}))
        for _ in range(random.randint(0, 2)):
            killed(started(runs.ledger, ABRE), 0, random.random() * seconds)
        want_run(ended(runs.ledger, ABRE), 0, "LIVRO 0\n", "abre")
        want_rest({}, "abre")
        # A killed opening may have left the other name of a flash.
        left = set(os.listdir()) - {f"{name}.new" for name in FLASHES}
        want(left == {"tables", "list", *FLASHES}, f"an opening left {left}")

    def started(self, **how):
        """Starts a `recebe` of a drawn list. Returns the run and what it accepts."""
        listed = {}
        while len(listed) < FILES:
            listed.update({f"{len(listed)}.{name}": file for name, file in drawn_list(CENTRE, random, self.ledger).items()})
        write_list(listed)
        return started(self.runs.ledger, RECEBE, **how), Taking(CENTRE, self.ledger, listed)

    def go_on_from(self, taking, shown, what):
        """Tests what the flashes hold after a run that showed this and was cut off, and resumes from there. Returns whether the next
        report was already in."""
        want(taking.shown.startswith(shown), f"{what}: it showed {shown[-200:]!r}")
        allowed = taking.allowed(len(shown))
        self.ledger = want_held(self.runs, CENTRE, flashes(), allowed, bool(shown), what)
        return len(self.ledger) > len(allowed[0])

    def kill(self, seconds):
        """Kills a run after a drawn number of lines. Returns whether it was still running, and whether the next report was already in."""
        run, taking = self.started()
        shown = killed(run, random.randint(0, FILES), seconds)
        want(run.returncode in (taking.status, -signal.SIGKILL), f"recebe: {run.returncode}")
        return run.returncode < 0, self.go_on_from(taking, shown, "a recebe that was killed")

    def fail(self):
        """Makes one call of a run on a flash fail."""
        call, how = random.choice([("write", "half"), ("sync", "5")])
        number = random.randint(1, 20)
        run, taking = self.started(env=failing(self.library, f"{call} .flash {number} {how}"))
        shown = answer(run).encode()
        want(run.returncode in (21, 22, taking.status), f"recebe ended with {run.returncode} when the {call} {number} failed")
        self.go_on_from(taking, shown, f"a recebe whose {call} {number} failed")
        return run.returncode in (21, 22)

    def end(self, urna):
        """A report of each section, those already in once more: each counts once."""
        reports = {place: self.ledger.get(place) or CENTRE.report(random, place) for place in range(len(CENTRE.voters))}
        taking = Taking(CENTRE, self.ledger, ledger_list(reports))
        write_list(taking.listed)
        want_run(ended(self.runs.ledger, RECEBE), taking.status, taking.shown.decode(), "the rest of the reports")
        want_rest(reports, "the rest of the reports")
        want_totals(urna, self.runs.ledger, CENTRE, reports, "all sections")


def trials(work, urna, program, library, count, counts):
    """Ledgers whose runs are killed and resumed, until the given number is done or the time is over."""
    runs, begun = Runs(urna, program, work, library), time.perf_counter()
    counting, start = Counting(runs, library), time.perf_counter()
    run, taking = counting.started()
    answer(run)
    commit = (time.perf_counter() - start) / (1 + len(taking.ledger))
    while counts["ledgers"] < count and time.perf_counter() - begun < LONGEST:
        counting = Counting(runs, library, 2 * commit)
        for _ in range(random.randint(1, 4)):
            was_killed, ahead = counting.kill(random.random() * 3 * commit)
            counts["kills of recebe"] += was_killed
            counts["ledgers one report ahead of the shown lines"] += ahead
        if library:
            counts["failed calls of recebe"] += counting.fail()
        counting.end(urna)
        counts["ledgers"] += 1
        runs.forget()
