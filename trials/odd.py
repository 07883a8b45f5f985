"""Odd surroundings: something else instead of a flash, the flashes of the other program, flashes of a ledger that are exchanged or have
strange bodies, a display that closes in the middle of a line or has no room, a folder that can't be written, and a full disk."""

import contextlib
import itertools
import os
import shutil
import subprocess
from errno import EIO

import faults
import ledgers
import memory
import takings
from commands import ABRE, CARGA, CERTIFICA, EMITE, RECEBE, REPOE, TOTAIS, VERIFICA, VOTA, WORD, want
from cuts import mixed_slots
from held import flashes_in, held, with_flashes
from polls import FLASHES, LENGTH, Day
from runs import FIFO, FOLDER, Link, fill, found_in

PAGE = 4096
NOBODY = ["setpriv", "--reuid=65534", "--regid=65534", "--clear-groups"]


def odd_flash(runs, draw):
    """A flash that isn't a file of its length is a fault of its device, and nothing is written."""
    day = Day(draw.randint(1, 3))
    device, state = draw.randrange(2), draw.randrange(day.last + 1)
    flashes = day.flashes(2, state)
    odd = [FOLDER, FIFO, Link("nowhere"), Link("/dev/null"), b"", flashes[device][:-1], flashes[device] + b"\0"]
    files = {**with_flashes(day, day.keys(state), flashes), FLASHES[device]: draw.choice(odd)}
    words = draw.choice((CARGA, VOTA, EMITE))
    ended = runs.run(files, words)
    what = f"{words[0]} with an odd {FLASHES[device]}"
    want((ended.status, ended.shown) == (21 + device, b""), f"{what}: {ended.told()}")
    want(ended.files == files, f"{what}: left other files")
    want(held(runs, day, flashes, what) == state, f"{what}: it then holds another state")


def odd_ledger(runs, draw):
    """The same for a ledger; and one file can't be both of its flashes."""
    centre, device = takings.drawn_centre(draw), draw.randrange(2)
    ledger = takings.drawn_history(centre, draw)[-1]
    flashes = centre.flashes(ledger)
    sizes = [b"", flashes[device][:-1], flashes[device] + b"\0", bytes(LENGTH)]
    odd = [FOLDER, FIFO, Link("nowhere"), Link("/dev/null"), *sizes, Link(FLASHES[1 - device])]
    thing = draw.choice(odd)
    files = {**takings.with_flashes(centre, takings.drawn_list(centre, draw, ledger), flashes), FLASHES[device]: thing}
    words = draw.choice((ABRE, RECEBE, TOTAIS))
    ended = runs.run(files, words)
    what = f"{words[0]} with an odd {FLASHES[device]} ({thing!r:.60})"
    status = 22 if thing is odd[-1] else 21 + device
    want((ended.status, ended.shown, ended.files) == (status, b"", files), f"{what}: {ended.told()}, or left other files")
    takings.held(runs, centre, flashes, [ledger], what)


def other_program(runs, draw):
    """Each program in the other one's folder: its flash has another length, and nothing is changed."""
    centre, day = takings.drawn_centre(draw), Day(draw.randint(1, 3))
    ledger = takings.drawn_history(centre, draw)[-1]
    of_poll = draw.random() < 0.5
    words = draw.choice([ABRE, RECEBE, TOTAIS] if of_poll else [CARGA, VOTA, EMITE, *REPOE])
    flashes = day.flashes(2, draw.randrange(day.last + 1)) if of_poll else centre.flashes(ledger)
    files = {**takings.with_flashes(centre, takings.drawn_list(centre, draw, ledger), flashes), **({} if of_poll else day.documents(day.keys()))}
    ended = runs.run(files, words)
    what = f"{words[0]} in a folder of the other program"
    want((ended.status, ended.shown, ended.files) == (21, b"", files), f"{what}: {ended.told()}, or left other files")


def end_of_exchanged(centre, words, pair, listed):
    """How a command of a ledger ends over these two flashes, each with the ledger that it holds, if any, and the ledger that is left
    then, if any."""
    flashes, kept = zip(*pair)
    if words == ABRE:
        used = [WORD[device] for device in (0, 1) if ledgers.is_in_use(flashes[device])]
        return (32, f"ERRO EM USO {used[0]}\n".encode(), None) if used else (0, b"LIVRO 0\n", {})
    others = [WORD[device] for device in (0, 1) if not centre.is_framed(flashes[device], device)]
    if others:
        return 30, f"ERRO OUTRA CARGA {others[0]}\n".encode(), None
    if kept == (None, None):
        return 31, b"ERRO SEM IMAGEM\n", None
    ledger = max((it for it in kept if it is not None), key=len)
    if words == TOTAIS:
        return 0, centre.totals(ledger), ledger
    taking = ledgers.Taking(centre, ledger, listed)
    return taking.status, taking.shown, taking.ledger


def exchanged_ledger(runs, draw):
    """Flashes that are blank, strange, exchanged for each other or for those of another ledger or of a poll, or have an earlier ledger:
    a command is refused and changes nothing, or resumes from the later ledger."""
    centre, other = takings.drawn_centre(draw), takings.drawn_centre(draw)
    history, strange = takings.drawn_history(centre, draw), takings.drawn_history(other, draw)[-1]
    pair = []
    for device in (0, 1):
        ledger = draw.choice(history)
        kinds = [
            (centre.flashes(ledger)[1 - device], None),
            (centre.frame(device), None),
            (other.flashes(strange)[device], strange if other.tables == centre.tables else None),
            (Day(1).flash(device, 2, 1).ljust(ledgers.LENGTH, b"\0"), None),
            (draw.choice([bytes(ledgers.LENGTH), draw.randbytes(ledgers.LENGTH)]), None),
        ]
        pair.append((centre.flashes(ledger)[device], ledger) if draw.random() < 0.5 else draw.choice(kinds))
    listed = takings.drawn_list(centre, draw, history[-1])
    files = takings.with_flashes(centre, listed, [flash for flash, _ in pair])
    words = draw.choice((ABRE, RECEBE, TOTAIS))
    status, shown, ledger = end_of_exchanged(centre, words, pair, listed)
    ended = runs.run(files, words)
    what = f"{words[0]} over exchanged flashes"
    want((ended.status, ended.shown) == (status, shown), f"{what}: {ended.told()}, expected {status} and {shown!r}")
    left = [files[name] for name in FLASHES] if ledger is None else centre.flashes(ledger)
    want(ended.files == {**files, **dict(zip(FLASHES, left))}, f"{what}: left other files")


def strange_bodies(runs, draw):
    """Open slots with a body of a greater number that isn't a ledger's don't count; one with the greatest sums does."""
    centre = takings.drawn_centre(draw)
    place = draw.randrange(len(centre.voters))
    ledger = {it: centre.report(draw, it) for it in range(len(centre.voters)) if it != place and draw.random() < 0.5}
    votes = tuple(dict.fromkeys(choices, 9999) for choices in centre.choices)
    later = {**ledger, place: centre.report(draw, place)._replace(votes=votes)}
    kinds = []

    def body(is_sure):
        if is_sure:
            return centre.body(ledger)
        strange, kind = centre.strange_body(draw, later)
        kinds.append(kind)
        return strange

    flashes = mixed_slots(draw, centre.frames(), ledgers.GATES, body)
    what = f"slots with another body ({', '.join(kinds)})"
    takings.held(runs, centre, flashes, [ledger], what)
    takings.held(runs, centre, centre.flashes(later), [later], "the greatest sums")


def odd_result(runs, draw):
    """Whatever has the name of a result, or of a result in progress, is replaced, unless it is a folder."""
    day = Day(draw.randint(1, 3))
    whats = {"a folder": FOLDER, "a pipe": FIFO, "a link": Link("tables"), "a file": b"old"}
    kind, name = draw.choice(list(whats)), draw.choice(("p.bu", "p.rdv", "p.bu.new", "p.rdv.new"))
    files = with_flashes(day, "", day.flashes(2, day.last))
    usual = runs.run(files, EMITE)
    ended = runs.run({**files, name: whats[kind]}, EMITE)
    what = f"emite with {kind} as {name}"
    want(ended.status == (20 if kind == "a folder" else 0), f"{what}: {ended.told()}")
    if ended.status == 0:
        want(ended.files == usual.files, f"{what}: left other files")
    want(all(ended.files[it] == files[it] for it in files), f"{what}: a document or a flash differs")


def flash_as_result(runs, draw):
    """An open flash is not replaced by a result of the same name, even if a call on that name fails."""
    day, device = Day(draw.randint(1, 3)), draw.randrange(2)
    words, name = draw.choice([(EMITE, "p.bu"), (EMITE, "p.rdv"), (VOTA, "o.bu"), (VOTA, "o.rdv")])
    flashes = day.flashes(2, day.last)
    files = {**with_flashes(day, "", flashes), name: flashes[device], FLASHES[device]: Link(name)}
    calls = runs.run(files, words, tells=True).calls
    for kind in ("stat", "open", "lock"):
        for number in range(1 + sum((call.kind, call.name) == (kind, name) for call in calls)):
            # Number 0 is no call.
            fail = f"{kind} {name} {number} {EIO}"
            ended = runs.run(files, words, fail=fail)
            what = f"{words[0]} with URNA_FAIL='{fail}', where {FLASHES[device]} is a link to {name}: {ended.told()}"
            want(ended.files[name] == flashes[device], f"{what}, and the flash was replaced")
            want(ended.status in (20, 21 + device), what)


def want_shown_part(runs, case, ended, what):
    """When the display failed, the output is a prefix, and the rest holds as after any fault."""
    same = (ended.status, ended.shown, ended.files) == (case.usual.status, case.usual.shown, case.usual.files)
    if same:
        return
    want(ended.status == 23 and case.usual.shown.startswith(ended.shown), f"{what}: {ended.told()}")
    faults.want_over(runs, case, ended, what)
    if case.words[0] in ("carga", "emite", "ensaio", "certifica", "abre"):
        want(ended.files == case.usual.files, f"{what}: left other files")


def no_display(runs, draw):
    """Nobody reads the pipe that is standard output."""
    case = faults.drawn_case(runs, draw)
    ended = runs.run(case.files, case.words, tells=True, closes=0)
    want_shown_part(runs, case, ended, f"{' '.join(case.words)} with a display that is closed")


def closed_display(runs, draw):
    """The reader of a pipe goes away after a drawn number of bytes of a long session. A line to a pipe is written whole or not at all;
    full disks and short writes test cut lines."""
    day = Day(draw.randint(30, 50))
    case = faults.session(runs, day, 0, day.last)
    closes = draw.randint(1, len(case.usual.shown))
    ended = runs.run(case.files, case.words, tells=True, closes=closes)
    want_shown_part(runs, case, ended, f"{' '.join(case.words)} with a display that closes after {closes} bytes")


def full_display(runs, draw):
    """Standard output is the device that is always full."""
    case = faults.drawn_case(runs, draw)
    with open("/dev/full", "wb") as display:
        ended = runs.run(case.files, case.words, display=display)
    want_shown_part(runs, case, ended, f"{' '.join(case.words)} with /dev/full as the display")


@contextlib.contextmanager
def small_disk(runs, pages):
    """A file system in memory with room for this many pages."""
    folder = os.path.join(runs.work, "disk")
    os.makedirs(folder, exist_ok=True)
    subprocess.run(["mount", "-t", "tmpfs", "-o", f"size={pages * PAGE}", "tmpfs", folder], check=True)
    try:
        yield folder
    finally:
        subprocess.run(["umount", "-l", folder], check=True)


def display_on_a_full_disk(runs, draw):
    """Standard output is a file on a disk that gets full in the middle of a line."""
    case = faults.drawn_case(runs, draw)
    before = draw.randint(max(0, PAGE - len(case.usual.shown)), PAGE)
    with small_disk(runs, 1) as disk:
        path = os.path.join(disk, "shown")
        fill(disk, {"shown": bytes(before)})
        with open(path, "ab") as display:
            ended = runs.run(case.files, case.words, display=display)
        with open(path, "rb") as file:
            ended = ended._replace(shown=file.read()[before:])
    want_shown_part(runs, case, ended, f"{' '.join(case.words)} with a display that has room for {PAGE - before} bytes")


def want_whole_flashes(files, length, what):
    """A flash that could not be made is missing, and an existing one has its length."""
    for name in FLASHES:
        want(name not in files or len(files[name]) == length, f"{what}: {name} has another length")


def full_disk(runs, draw):
    """A load, a session and its results on a disk that gets full at some point; with more room the same commands continue."""
    day = Day(draw.randint(1, 3))
    files = day.documents(day.keys())
    pages = draw.choice([draw.randint(4, 80), draw.randint(66, 76)])
    sealed = runs.run(with_flashes(day, day.keys(), day.flashes(2, 0)), VOTA).files
    with small_disk(runs, pages) as disk:
        fill(disk, files)
        for words, faulty in ((CARGA, (21, 22)), (VOTA, (20,)), (EMITE, (20,))):
            what = f"{words[0]} on a disk of {pages} pages"
            before = found_in(disk)
            ended = runs.run_in(disk, before, words)
            want(ended.status in (0, *faulty), f"{what}: {ended.told()}")
            want_whole_flashes(ended.files, LENGTH, what)
            if ended.status:
                subprocess.run(["mount", "-o", f"remount,size={4096 * PAGE}", disk], check=True)
                again = runs.run_in(disk, ended.files, words)
                want(again.status == 0, f"{what}, and then with more room: {again.told()}")
        left = found_in(disk)
    for name, what in sealed.items():
        want(left[name] == what, f"a day on a disk of {pages} pages left another {name}")
    want(set(left) == {*sealed, "p.bu", "p.rdv"}, f"a day on a disk of {pages} pages left {sorted(left)}")


def full_disk_of_ledger(runs, draw):
    """An `abre` on a disk that gets full at some point; with more room it opens the ledger, and the reports are received."""
    centre = takings.drawn_centre(draw)
    listed = takings.drawn_list(centre, draw, {})
    files, taking = centre.documents(listed), ledgers.Taking(centre, {}, listed)
    pages = draw.choice([draw.randint(40, 300), draw.randint(262, 282)])
    what = f"abre on a disk of {pages} pages"
    with small_disk(runs, pages) as disk:
        fill(disk, files)
        ended = runs.run_in(disk, files, ABRE)
        want(ended.status in (0, 21, 22), f"{what}: {ended.told()}")
        want_whole_flashes(ended.files, ledgers.LENGTH, what)
        subprocess.run(["mount", "-o", f"remount,size={4096 * PAGE}", disk], check=True)
        for words, status, shown in ((ABRE, 0, b"LIVRO 0\n"), (RECEBE, taking.status, taking.shown)):
            ended = runs.run_in(disk, ended.files, words)
            want((ended.status, ended.shown) == (status, shown), f"{what}, and then with more room {words[0]} {ended.told()}")
    want(flashes_in(ended.files, what) == centre.flashes(taking.ledger), f"{what}, and then with more room: another ledger is left")


def read_only_cases(runs, draw):
    """Commands over a drawn day, and how each ends if nothing can be written."""
    day = Day(draw.randint(1, 3))
    state = draw.randrange(day.last + 1)
    files = with_flashes(day, day.keys(state), day.flashes(2, state))
    missing = day.documents("")
    yield files, draw.choice((CARGA, VOTA, EMITE)), 21
    yield missing, draw.choice((CARGA, VOTA, EMITE)), 21
    yield memory.listed_reports(), memory.ENSAIO, 20
    yield memory.listed_reports(), memory.CONFERE, 0
    yield memory.listed_reports(), memory.RECONTA, 0
    yield memory.certified_reports(), CERTIFICA, 20
    yield memory.certified_reports(), VERIFICA, 0
    centre = takings.drawn_centre(draw)
    ledger = takings.drawn_history(centre, draw)[-1]
    listed = takings.drawn_list(centre, draw, ledger)
    yield takings.with_flashes(centre, listed, centre.flashes(ledger)), draw.choice((ABRE, RECEBE, TOTAIS)), 21


def want_read_only(ended, files, words, status, what):
    want(ended.status == status and (status == 0 or not ended.shown), f"{words[0]} {what}: {ended.told()}")
    want(ended.files == files, f"{words[0]} {what}: left other files")


def read_only_disk(runs, draw):
    """A read-only file system."""
    for files, words, status in read_only_cases(runs, draw):
        with small_disk(runs, 4096) as disk:
            fill(disk, files)
            subprocess.run(["mount", "-o", "remount,ro", disk], check=True)
            want_read_only(runs.run_in(disk, files, words), files, words, status, "on a read-only disk")


@contextlib.contextmanager
def read_only_folder(runs, files, rights=0o444):
    """A folder in which this user can't create files, and has these rights to the files."""
    folder = os.path.join(runs.work, "shut")
    os.mkdir(folder)
    fill(folder, files)
    for name in files:
        os.chmod(os.path.join(folder, name), rights)
    os.chmod(folder, 0o555)
    try:
        yield folder
    finally:
        os.chmod(folder, 0o755)
        shutil.rmtree(folder)


def other_user(program):
    """The prefix of a command that makes rights apply to it; empty for a user to whom they apply; None if that is impossible."""
    if os.geteuid() != 0:
        return []
    try:
        run = subprocess.run([*NOBODY, program, "nada"], stdin=subprocess.DEVNULL, stdout=subprocess.PIPE, cwd="/")
    except FileNotFoundError:
        return None
    return NOBODY if run.returncode == 2 else None


def without_rights(runs, draw, prefix):
    """A folder of another user; and one in which the flashes can be written and no result can be created."""
    for files, words, status in read_only_cases(runs, draw):
        with read_only_folder(runs, files) as folder:
            ended = runs.run_in(folder, files, words, prefix=prefix)
            want_read_only(ended, files, words, status, "in a folder of another user")
    day = Day(draw.randint(1, 3))
    files = with_flashes(day, day.keys(), day.flashes(2, 0))
    with read_only_folder(runs, files, 0o666) as folder:
        ended = runs.run_in(folder, files, VOTA, prefix=prefix)
    want(ended.status == 20, f"a poll in a folder where no file can be created: {ended.told()}")
    sealed = with_flashes(day, day.keys(), day.flashes(2, day.last))
    want(ended.files == sealed, "a poll in a folder where no file can be created was not sealed")


def has_mounts(runs):
    """Whether this user may mount a file system."""
    if os.geteuid() != 0:
        return False
    try:
        with small_disk(runs, 1):
            return True
    except (subprocess.CalledProcessError, FileNotFoundError):
        return False


def surroundings(runs):
    """What can be tested on this machine. What can't is printed."""
    found = [odd_flash, odd_ledger, other_program, exchanged_ledger, strange_bodies]
    found += [odd_result, flash_as_result, no_display, closed_display, full_display]
    if has_mounts(runs):
        found += [display_on_a_full_disk, full_disk, full_disk_of_ledger, read_only_disk]
    else:
        print("note: this user can't mount a file system, so full and read-only disks are left out", flush=True)
    prefix = other_user(runs.program)
    if prefix is None:
        print("note: this user can't act as another one, so folders without rights are left out", flush=True)
    else:
        os.chmod(runs.work, 0o755)
        found.append(lambda runs, draw: without_rights(runs, draw, prefix))
    return found


def trials(runs, drawn):
    found = surroundings(runs)
    for number in itertools.count():
        found[number % len(found)](runs, drawn(number))
        yield "odd surroundings"
