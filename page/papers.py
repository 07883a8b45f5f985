"""The paper of a report in a browser: printed to a PDF and read back by its codes at 200 dots an inch, in any order, with a black
column, and with a page missing."""

import base64
import functools
import os
import re
import shutil
import subprocess
import time

from programs import TOP, content
from commands import want

import largest
import pixels
from driver import LONGEST

# A sheet of A4, and a roll of 80 mm cut at the length of one, in inches; and their margin.
SHEETS, MARGIN = {"A4": (210 / 25.4, 297 / 25.4), "roll": (80 / 25.4, 297 / 25.4)}, 4 / 25.4
LEVELS = ("L", "M")
# One in this many columns of pixels is tested.
STEP = 8
# The tested part of a picture: a code of a whole part, which has 117 modules of 0.6 mm with the white ones.
SIDE = int(70.2 / 25.4 * pixels.DPI)


@functools.cache
def lacking():
    """The missing packages among those that these trials need."""
    segno = subprocess.run(["/usr/bin/python3", "-c", "import segno"], capture_output=True) if os.path.exists("/usr/bin/python3") else None
    found = {"python3-segno": segno and segno.returncode == 0, "zbar-tools": shutil.which("zbarimg"), "poppler-utils": shutil.which("pdftoppm")}
    return [name for name, is_there in found.items() if not is_there]


# ---- in the page


def rows(browser):
    """The rows of the paper in the page: the text of each, and its number."""
    script = "return [...(document.querySelector('iframe.codes').contentDocument?.querySelectorAll('.row span') ?? [])].map((it) => it.textContent)"
    until = time.monotonic() + LONGEST
    while not (found := browser.run(script)):
        want(time.monotonic() < until, "there is no paper in the page")
        time.sleep(0.05)
    return found


def want_printed(browser):
    """The button prints the paper, and not the page."""
    browser.run("window.printed = []; for (const it of [window, document.querySelector('iframe.codes').contentWindow]) { it.print = () => window.printed.push(it === window); }")
    browser.click("#imprime")
    want(browser.run("return window.printed") == [False], "the paper is not what is printed")


# ---- on paper


def pdf(browser, path, sheet="A4", margin=MARGIN):
    """The page that the browser shows, printed."""
    width, height = SHEETS[sheet]
    margins = {f"margin{it}": margin for it in ("Top", "Bottom", "Left", "Right")}
    data = browser.command("Page.printToPDF", {"paperWidth": width, "paperHeight": height, **margins})["data"]
    with open(path, "wb") as file:
        file.write(base64.b64decode(data))
    return path


def pages(browser, work, name, sheet="A4", margin=MARGIN):
    """The pages that the browser prints, as pictures of 200 dots an inch, in order."""
    folder = os.path.join(work, name)
    shutil.rmtree(folder, ignore_errors=True)
    os.mkdir(folder)
    pixels.pages_of(pdf(browser, os.path.join(folder, "papel.pdf"), sheet, margin), os.path.join(folder, "pagina"))
    return sorted(os.path.join(folder, it) for it in os.listdir(folder) if it.endswith(".pgm"))


def scanned(work, pictures):
    """The status of tools/scan, the file that it made from pictures, and its messages."""
    made = os.path.join(work, "lido.bu")
    if os.path.exists(made):
        os.remove(made)
    run = subprocess.run([os.path.join(TOP, "tools", "scan"), made, *pictures], capture_output=True, text=True)
    return run.returncode, content(made) if run.returncode == 0 else b"", run.stderr.strip()


def of_page(page, program, work):
    """The paper after the seal, on A4 and on a roll: the codes give the file of the urna to the byte, and confere accepts it"""
    report, tables = page.file("urna.bu").encode(), os.path.join(TOP, "examples", "tabelas.toml")
    page.browser.go(page.address + "papel")
    for sheet in SHEETS:
        found = scanned(work, pages(page.browser, work, "papel", sheet))
        want(found[:2] == (0, report), f"{sheet}: the codes give {found}")
        want(program.run(work, ["confere", tables, os.path.join(work, "lido.bu")]).lines == ["ACEITO 1 42"], f"{sheet}: what was read is not accepted")
    page.browser.go(page.address)
    page.browser.wait("body[data-ready]", bool, "the page does not begin")


def made(program, work, level):
    """The paper of the largest report at a level."""
    for name, data in (("maior.toml", largest.tables()), ("maior.bu", largest.report())):
        with open(os.path.join(work, name), "wb") as file:
            file.write(data)
    name = os.path.join(work, f"maior-{level}.html")
    words = ["--urna", program.path, "--nivel", level, os.path.join(work, "maior.toml"), os.path.join(work, "maior.bu"), name]
    run = subprocess.run([os.path.join(TOP, "tools", "paper"), *words], capture_output=True, text=True)
    want(run.returncode == 0, f"the largest report is not printed: {run.stderr}")
    return name


def parts_on(work, picture):
    """The numbers of the parts whose codes are on a page."""
    run = subprocess.run(["zbarimg", "--quiet", "--raw", "-Sdisable", "-Sqrcode.enable", picture], capture_output=True, text=True)
    return sorted(int(it) for it in re.findall(r"^QRBU:(\d+):", run.stdout, re.M))


def largest_one(browser, program, work, told):
    """The largest report: all codes are read in any order, and a missing page is reported by the numbers of its parts"""
    browser.go(f"file://{made(program, work, 'M')}")
    found = pages(browser, work, "maior")
    read = scanned(work, found[::-1])
    want(read[:2] == (0, largest.report()), f"the largest report is not read: {read}")
    answer = program.run(work, ["confere", "maior.toml", "lido.bu"]).lines
    want(answer == ["ACEITO 9999 9999"], f"the largest report: confere says {answer}")
    parts = {it: parts_on(work, it) for it in found}
    left = next(it for it in found if 1 < len(parts[it]))
    status, _, said = scanned(work, [it for it in found if it != left])
    numbers = " a ".join(str(parts[left][at]) for at in (0, -1))
    want(status == 1 and said.endswith(f"faltam {numbers}"), f"without the parts {parts[left]} the message is: {said}")
    told.append(f"the largest report: {largest.report().count(10)} codes, {len(found)} pages of A4")


def blacked(browser, program, work, told):
    """A code with a black column of pixels is read to the byte, or the part is reported as missing"""
    lines = largest.report().split(b"\n")
    for level in LEVELS:
        with open(made_at(program, work, level)) as file:
            code = re.search(r"<svg.*?</svg>", file.read(), re.S).group()
        alone = os.path.join(work, "codigo.html")
        with open(alone, "w") as file:
            file.write(f"<!DOCTYPE html><style>@page {{ margin: 0 }} body {{ margin: 0 }} svg {{ display: block }}</style>{code}")
        browser.go(f"file://{alone}")
        picture = pixels.read(pages(browser, work, "codigo", "A4", 0)[0]).cropped(0, 0, SIDE, SIDE)
        columns = range(0, SIDE, STEP)
        count = sum(is_read(work, picture.blacked(it, 1), lines[0]) for it in columns)
        told.append(f"a black column of pixels at level {level}: {count} of {len(columns)} are read, and the others reported as missing")


def made_at(program, work, level):
    name = os.path.join(work, f"maior-{level}.html")
    return name if os.path.exists(name) else made(program, work, level)


def is_read(work, picture, line):
    """Whether the code of a picture is read, to the byte; if it isn't, the message says that nothing was read."""
    name = picture.save(os.path.join(work, "coluna.pgm"))
    status, _, said = scanned(work, [name])
    if said == "nenhuma parte de um boletim foi lida":
        return False
    run = subprocess.run(["zbarimg", "--quiet", "--raw", "-Sdisable", "-Sqrcode.enable", name], capture_output=True)
    want(run.stdout == line + b"\n" and "faltam 2 a" in said, f"another line is read: {run.stdout[:60]}, {status} {said}")
    return True


def tried(new, program, work, told):
    """What the papers show, with its measurements."""
    browser = new()
    for part in (largest_one, blacked):
        part(browser, program, work, told)
        yield part.__doc__
