"""Inputs that are cut at each length, or with each byte changed: a command of either program ends with a status of docs/FORMATS.md, no
changed report is accepted, and for a changed record or certificate the output is that of an independent reader."""

import itertools
import random
import re

import contests
import ledgers
import memory
import recounts
import takings
from commands import ABRE, CARGA, RECEBE, TOTAIS, VERIFICA, VOTA, want
from held import with_flashes
from polls import FLASHES, Day

VERDICT = rb"PARTE (FORMA|VERSAO|NUMERO|HASH|CORTE) \d+\n"
KEYS_LINE = re.compile(rb"M (?:ABRE|ENCERRA) (\d{14})|M TITULO \d{12}|M (?:LIBERA|CANCELA|SUSPENDE)|E [0-9BRC]+")
DAY = Day(3)
# A counting centre with a report, and a list of a new one, that one again, and a file that isn't a report.
CENTRE = ledgers.Centre([3, 2])
KEPT, NEW = (CENTRE.report(random.Random(place), place) for place in (0, 1))
LEDGER, LISTED = {0: KEPT}, {"r1": NEW, "r2": KEPT, "r3": CENTRE.faulty(random.Random("none"))}
# Keys of every form, for a session from the beginning to the seal.
KEYS = f"{DAY.keys(0, 2)}M TITULO {2:012}\nM CANCELA\nM TITULO {2:012}\nM LIBERA\nE 45C\nM SUSPENDE\n{DAY.keys(3)}".encode()

# How a byte is changed.
WAYS = {
    "with its lowest bit flipped": lambda byte, draw: byte ^ 1,
    "with its highest bit flipped": lambda byte, draw: byte ^ 128,
    "made zero": lambda byte, draw: 0,
    "made a line feed": lambda byte, draw: 10,
    "made a space": lambda byte, draw: 32,
    "one more": lambda byte, draw: (byte + 1) % 256,
    "made any byte": lambda byte, draw: draw.randrange(256),
}


def is_moment(digits):
    """Whether 14 digits are a valid moment (docs/FORMATS.md, "Roll, keys and list")."""
    year, rest = int(digits[:4]), [int(digits[at : at + 2]) for at in range(4, 14, 2)]
    month, day, hour, minute, second = rest
    return 1000 <= year and 1 <= month <= 12 and 1 <= day <= 31 and hour <= 23 and minute <= 59 and second <= 59


def lines_of(text):
    lines = text.split(b"\n")
    return lines if lines[-1] else lines[:-1]


def faulty_line(keys):
    """The number of the first line of the keys that is outside their form."""
    for number, line in enumerate(lines_of(keys), 1):
        match = KEYS_LINE.fullmatch(line)
        if not match or (match[1] and not is_moment(match[1])):
            return number
    return None


def faulty_name(text):
    """The same of a list."""
    for number, line in enumerate(lines_of(text), 1):
        try:
            line.decode()
        except UnicodeDecodeError:
            return number
        if not line or len(line) > 255 or b"\0" in line:
            return number
    return None


def try_report(runs, files, what):
    ended = runs.run(files, memory.CONFERE)
    want(ended.status == 7 and re.fullmatch(VERDICT, ended.shown), f"{what}, confere: {ended.told()}")
    ended = runs.run(files, memory.TOTALIZA)
    is_left_out = re.match(rb"1 " + VERDICT + rb"SECOES 0 DE 1\n", ended.shown)
    want(ended.status == 6 and is_left_out, f"{what}, totaliza: {ended.told()}")


def try_record(runs, files, what):
    ended = runs.run(files, memory.RECONTA)
    shown, _, status = recounts.answer(files["a.bu"].decode(), files["a.rdv"]).partition(" = ")
    want((ended.status, ended.shown) == (int(status or 0), f"{shown}\n".encode()), f"{what}, reconta: {ended.told()}, not {shown}")


def try_certificate(runs, files, what):
    ended, told = runs.run(files, VERIFICA), contests.run(VERIFICA, files)
    want((ended.status, ended.shown.decode()) == (told.code, told.shown), f"{what}, verifica: {ended.told()}, not {told.shown!r}")


def verdict_on(name, is_first):
    """The verdict on a listed file. The report and its copy are the same; the third file has a changed digit."""
    if name in ("a.bu", "b.bu"):
        return "ACEITO 1 42" if is_first else "REPETIDO 1 42"
    return "PARTE HASH 1" if name == "c.bu" else "PARTE FORMA 1"


def totals(files):
    """What `totaliza` shows for a list, up to the sections or to a missing file, and its status."""
    shown, names = b"", lines_of(files["list"])
    for number, name in enumerate(names, 1):
        name = name.decode()
        if "/" in name and name.split("/")[0] in files:
            return shown, 20
        if name not in files:
            return shown + b"ERRO FALTA BOLETIM\n", 12
        shown += f"{number} {verdict_on(name, b'ACEITO' not in shown)}\n".encode()
    told = shown.count(b"ACEITO")
    return shown + f"SECOES {told} DE 1\n".encode(), 0 if told == len(names) else 6


def try_list(runs, files, what):
    ended = runs.run(files, memory.TOTALIZA)
    line = faulty_name(files["list"])
    shown, status = (f"ERRO LINHA {line}\n".encode(), 4) if line else totals(files)
    want(ended.status == status and ended.shown.startswith(shown), f"{what}: {ended.told()}")


def want_unchanged(files, ended, what):
    want(all(ended.files.get(name) == files[name] for name in FLASHES), f"{what}: wrote on the flashes")


def try_load(runs, files, what):
    """Tables or a roll other than those of the load."""
    ended = runs.run(files, VOTA)
    want(ended.status in (3, 30) and ended.shown.startswith(b"ERRO "), f"{what}, vota: {ended.told()}")
    want_unchanged(files, ended, what)
    load = runs.run(files, CARGA)
    want(load.status in (0, 3, 34), f"{what}, carga: {load.told()}")
    if load.status:
        want_unchanged(files, load, what)


def try_keys(runs, files, what):
    ended = runs.run(files, VOTA)
    line = faulty_line(files["keys"])
    if line:
        want((ended.status, ended.shown) == (4, f"ERRO LINHA {line}\n".encode()), f"{what}: {ended.told()}")
        want_unchanged(files, ended, what)
        return
    want(ended.status == 0, f"{what}: {ended.told()}")
    again = runs.run({**ended.files, "keys": b""}, VOTA)
    came = sum(text == b"FIM" for text in ended.shown.splitlines())
    phase = "PRONTA" if b"\nABERTA " not in ended.shown else "ABERTA" if b"\nENCERRADA " not in ended.shown else "LACRADA"
    told = f"URNA {phase} {came}\n".encode()
    want((again.status, again.shown) == (0, told), f"{what}, vota with no keys: {again.told()}, expected {told!r}")


def want_ledger(files, ended, ledger, what):
    """Both flashes are at rest with this ledger, and no other file changed."""
    left = {**files, **dict(zip(FLASHES, CENTRE.flashes(ledger)))}
    want(ended.files == left, f"{what}: {ended.told()}, and left another ledger, or other files")


def try_offer(runs, files, what):
    """No ledger accepts a changed report."""
    ended = runs.run(files, RECEBE)
    is_left_out = re.fullmatch(rb"LIVRO 1\n1 " + VERDICT, ended.shown)
    want(ended.status == 6 and is_left_out, f"{what}, recebe: {ended.told()}")
    want_ledger(files, ended, LEDGER, what)


def try_intake(runs, files, what):
    """The list of a counting centre: the files before a missing one are received."""
    ended = runs.run(files, RECEBE)
    line = faulty_name(files["list"])
    if line:
        want((ended.status, ended.shown) == (4, f"ERRO LINHA {line}\n".encode()), f"{what}: {ended.told()}")
        return want_ledger(files, ended, LEDGER, what)
    names = [name.decode() for name in lines_of(files["list"])]
    front = list(itertools.takewhile(lambda name: name in LISTED, names))
    # A name may be there twice.
    taking = ledgers.Taking(CENTRE, LEDGER, {number: LISTED[name] for number, name in enumerate(front)})
    status, shown = taking.status, taking.shown
    if len(front) < len(names):
        other = names[len(front)]
        is_under_file = "/" in other and other.split("/")[0] in files
        status, shown = (20, shown) if is_under_file else (12, shown + b"ERRO FALTA BOLETIM\n")
    want((ended.status, ended.shown) == (status, shown), f"{what}: {ended.told()}, expected {status} and {shown!r}")
    want_ledger(files, ended, taking.ledger, what)


def try_ledger(runs, files, what):
    """Tables other than those of the ledger."""
    for words in (RECEBE, TOTAIS, ABRE):
        ended = runs.run(files, words)
        want(ended.status in (3, 32 if words == ABRE else 30) and ended.shown.startswith(b"ERRO "), f"{what}, {words[0]}: {ended.told()}")
        want(ended.files == files, f"{what}, {words[0]}: left other files")


def try_flash(runs, files, commands, statuses, what):
    """A flash with changed bytes that no power cut leaves: the command ends on its own."""
    for words in commands:
        ended = runs.run(files, words)
        want(ended.status in statuses, f"{what}, {words[0]}: {ended.told()}")


def inputs():
    """Each input with the other files, and how it is tested."""
    listed = memory.listed_reports()
    loaded = with_flashes(DAY, "", DAY.flashes(2, 0))
    counted = takings.with_flashes(CENTRE, LISTED, CENTRE.flashes(LEDGER))
    return [
        ("r1", {**counted, "list": b"r1\n"}, try_offer),
        ("list", counted, try_intake),
        ("tables", counted, try_ledger),
        ("a.bu", {**listed, "list": b"a.bu\n"}, try_report),
        ("list", listed, try_list),
        ("a.rdv", listed, try_record),
        ("c.cer", memory.certified_reports(), try_certificate),
        ("tables", loaded, try_load),
        ("roll", loaded, try_load),
        ("keys", {**loaded, "keys": KEYS}, try_keys),
    ]


def changes():
    """Each change of each input: cut at each length below its own, and each byte changed in each way."""
    for name, files, tries in inputs():
        for at in range(len(files[name])):
            yield from ((name, files, tries, at, way) for way in ("cut here", *WAYS))


def changed(text, at, way, draw):
    """The text with this change, which may be no change."""
    if way == "cut here":
        return text[:at]
    return text[:at] + bytes([WAYS[way](text[at], draw)]) + text[at + 1 :]


def try_change(runs, draw, name, files, tries, at, way):
    """Whether there was something to test: a byte may already have the new value."""
    text = changed(files[name], at, way, draw)
    if text == files[name]:
        return False
    tries(runs, {**files, name: text}, f"{name} with byte {at} {way}")
    return True


def try_flashes(runs, draw):
    """Changes some bytes of a flash of a poll or of a ledger."""
    state = draw.randrange(DAY.last + 1)
    of_poll = with_flashes(DAY, DAY.keys(state), DAY.flashes(draw.choice((1, 2)), state)), 67072, (VOTA, CARGA), (0, 30, 31, 32)
    flashes = CENTRE.flashes(draw.choice([{}, LEDGER]))
    of_ledger = takings.with_flashes(CENTRE, LISTED, flashes), ledgers.GATES[1] + 512, (RECEBE, TOTAIS, ABRE), (0, 6, 30, 31, 32)
    files, second, commands, statuses = draw.choice([of_poll, of_poll, of_ledger])
    name = draw.choice(FLASHES)
    flash = bytearray(files[name])
    for _ in range(draw.randint(1, 8)):
        at = draw.choice([draw.randrange(len(flash)), draw.randrange(1200), second + draw.randrange(700)])
        flash[at] = draw.randrange(256)
    try_flash(runs, {**files, name: bytes(flash)}, commands, statuses, f"{name} with changed bytes")


def trials(runs, drawn):
    """Each change of each input in a drawn order, with some changes of flashes between them; then the same in another order."""
    for turn in itertools.count():
        order = list(changes())
        drawn(f"order {turn}").shuffle(order)
        for number, change in enumerate(order):
            draw = drawn(f"{turn} {number}")
            if number % 10 == 9:
                try_flashes(runs, draw)
                yield "changed flashes"
            if try_change(runs, draw, *change):
                yield "changed inputs"
