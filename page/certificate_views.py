"""The certificate of an office's seats in a browser: as `certifica` writes it, drawn line by line, the substitutes, its check by
`verifica`, and files that aren't its certificate."""

import os
import re

from commands import want
from programs import EXAMPLES, content

CODE = "13"
OFFICE = f'[data-cargo="{CODE}"]'
MARKUP = "<script>hacked=1</script><img src=x onerror=hacked=1>"
MOST = 1_048_576
# The changes of the certificate of the example with a federation, and the beginning of the line that each makes invalid.
CHANGES = (
    ("CARGO 13", "CARGO 7", "CARGO 7"),
    ("QUOCIENTE 60", "QUOCIENTE 61", "QUOCIENTE 61"),
    ("PARTIDO 20 QP 1", "PARTIDO 20 QP 2", "PARTIDO 20 QP 2"),
    ("VENCE 20", "VENCE 10", "RODADA 1 FASE 2 VENCE 10"),
    ("20:100/2", "20:100/3", "RODADA 1 FASE 2 VENCE 20"),
    ("RODADA 1 FASE 2 VENCE 20 10:80/2 20:100/2\n", "", "VAZIAS 0"),
    ("FIM\n", "FIM", "FIM"),
)


def plain(text):
    """A number of the page without the points between its thousands."""
    return text.replace(".", "")


def bloc_in(text):
    """The number of a party or a federation."""
    return text.split(" ")[1]


def vacant_in(text):
    found = re.match(r"([0-9.]+) vagas? fica", text)
    return plain(found[1]) if found else "0"


def drawn(page):
    """The lines of a certificate, from the tables of the page."""
    cells = "return [...document.querySelectorAll(arguments[0])].map((it) => [...it.cells].map((cell) => [...(cell.querySelector('ul')?.children ?? [cell])].map((one) => one.textContent)))"
    lines = ["CERT U1", f"CARGO {CODE}", f"QUOCIENTE {plain(page.texts(f'{OFFICE} .quotient strong')[0])}"]
    for [name], _, [quotient], [able], [seats] in page.browser.run(cells, f"{OFFICE} .first tbody tr"):
        lines.append(f"PARTIDO {bloc_in(name)} QP {plain(quotient)} APTOS {plain(able)} VAGAS {plain(seats)}")
    for [number], [phase], averages, [winner] in page.browser.run(cells, f"{OFFICE} .rounds tbody tr"):
        competing = " ".join(plain(it).replace(": ", ":") for it in averages)
        lines.append(f"RODADA {number} FASE {phase} VENCE {bloc_in(winner)} {competing}")
    return [*lines, f"VAZIAS {vacant_in(page.texts(f'{OFFICE} .vacancies')[0])}", "FIM"]


def substitutes(page):
    """The lines of the substitutes, from the lists of the page."""
    told = "return [...document.querySelectorAll(arguments[0])].map((it) => ['SUPLENTE', it.closest('details').dataset.bloc, it.value, it.textContent.split(' ')[0]].join(' '))"
    return page.browser.run(told, f"{OFFICE} .substitutes li")


def want_certificate(page, program, work, folder, tables, listed):
    """The certificate and the substitutes of the page are those of the program, over the files of a folder."""
    path = os.path.join(work, "certo")
    ended = program.run(folder, ["certifica", tables, listed, CODE, path])
    made = content(f"{path}.cer")
    name = page.browser.run("return document.querySelector(arguments[0]).getAttribute('download')", f"{OFFICE} a[download]")
    want(page.file(name) == made.decode(), "another file is downloaded")
    want(page.texts(f"{OFFICE} [data-texto]") == [made.decode()], "another text is shown")
    want(drawn(page) == made.decode().splitlines(), f"the tables say {drawn(page)}")
    want([*substitutes(page), f"CERTIFICADO {CODE}"] == ended.lines, f"the substitutes are {substitutes(page)[:5]}")
    page.browser.click(f'[data-verifica="{CODE}"]')
    page.browser.wait(f'{OFFICE} [data-resposta=""]', lambda text: f"CERTIFICADO VALIDO {CODE} cada linha" in text, "the certificate is not valid")
    return made


def given(page, path):
    """What the page says about a chosen file."""
    page.browser.run("document.querySelector(arguments[0]).replaceChildren()", f'{OFFICE} [data-resposta="outro"]')
    page.browser.give(f'[data-arquivo="{CODE}"]', path)
    return page.browser.wait(f'{OFFICE} [data-resposta="outro"]', lambda text: text and "o programa confere" not in text, "the file is not checked")


def put_down(work, name, data):
    path = os.path.join(work, name)
    with open(path, "wb") as file:
        file.write(data)
    return path


def changed(page, program, work, made):
    """Each change of the certificate is refused as the program refuses it, with the invalid line marked."""
    for number, (old, new, meant) in enumerate(CHANGES):
        path = put_down(work, f"outro-{number}.cer", made.replace(old.encode(), new.encode()))
        ended = program.run(EXAMPLES, ["verifica", "federacao.toml", "federacao-lista.txt", CODE, path])
        told = given(page, path)
        want(ended.status in (10, 11) and ended.lines[0] in told, f"with {new!r} instead of {old!r}: {told!r}, expected {ended.lines}")
        want(len(told.partition(ended.lines[0])[2]) > 10, f"{ended.lines[0]} is not in words: {told!r}")
        marks = page.texts(f"{OFFICE} mark")
        want(len(marks) == 1 and marks[0].startswith(meant), f"{ended.lines[0]} means {marks}")
    page.picture("certificado-recusado")


def hostile(page, work, made):
    """A file that isn't a certificate is shown as text, and refused."""
    long = made + b"\n" * (MOST + 1 - len(made))
    cases = [
        ("<b>um.cer", MARKUP.encode(), "ERRO CERTIFICADO LINHA 1"),
        ("dois.cer", b"CERT U1\nCARGO 13\n\xff\xfe\xc3(\n", "ERRO CERTIFICADO LINHA 3"),
        ("nulos.cer", bytes(2000), "ERRO CERTIFICADO LINHA 1"),
        ("vazio.cer", b"", "ERRO CERTIFICADO LINHA 1"),
        ("$(touch hacked);.cer", b"`touch hacked`\n", "ERRO CERTIFICADO LINHA 1"),
        ("igual.cer", long[:-1], "ERRO CERTIFICADO LINHA 9"),
        ("longo.cer", long, "é grande demais"),
        (f"{'W' * 240}.cer", b"W" * 4_000, "ERRO CERTIFICADO LINHA 1"),
    ]
    for name, data, answer in cases:
        told = given(page, put_down(work, name, data))
        want(name in told and answer in told, f"{name}: {told!r}")
        shown = page.texts(f'[data-outro="{CODE}"]')[0]
        want(shown.startswith(data[:200_000].decode(errors="replace")), f"{name} is shown as {shown[:100]!r}")
    page.picture("certificado-longo")
    page.drop(f'[data-solta="{CODE}"]', [("<i>solto</i>.cer", made.decode() + MARKUP)])
    page.browser.wait(f'{OFFICE} [data-resposta="outro"]', lambda text: "<i>solto</i>.cer" in text and "ERRO CERTIFICADO LINHA 9" in text, "the dropped file")
    want(page.texts(f"{OFFICE} mark") == [MARKUP], "the line after the end is not marked")
    found = page.browser.run("return [typeof hacked, document.querySelectorAll('main script, main img, main b, main i').length]")
    want(found == ["undefined", 0], f"a file became markup: {found}")


def stale(page):
    """A certificate of totals that are gone isn't checked over other totals."""
    page.browser.run("return fetch('/api/totais', { method: 'POST', headers: { 'Content-Type': 'application/json' }, body: JSON.stringify({ exemplo: 'dia' }) }).then((it) => it.status)")
    page.browser.click(f'[data-verifica="{CODE}"]')
    page.browser.wait("#falha", lambda text: "totalizar outra vez" in text, "other totals are used")


def none(page):
    """An office without seats has no certificate, and the program says why."""
    page.choose(os.path.join(EXAMPLES, "tabelas.toml"))
    page.browser.click("#soma button")
    page.browser.wait("#totalizado", lambda text: "ERRO SEM VAGAS nenhuma vaga é dada" in text, "the page doesn't say that there are no seats")
    want(not page.texts(f"{OFFICE} a[download]"), "there is a certificate without seats")
    told = given(page, os.path.join(EXAMPLES, "rol.txt"))
    want("ERRO CERTIFICADO LINHA 1" in told, f"a roll as a certificate: {told!r}")


def tried(page, program, work):
    """The certificate of a federation's seats, its changes, and invalid files"""
    page.view("totais")
    page.browser.click('#exemplos [value="federacao"]')
    page.browser.wait("#totalizado", lambda text: "FRENTE" in text, "the federation is not totalled")
    made = want_certificate(page, program, work, EXAMPLES, "federacao.toml", "federacao-lista.txt")
    page.picture("certificado")
    changed(page, program, work, made)
    hostile(page, work, made)
    stale(page)
    none(page)
