"""The page in a browser: a whole day by clicks and by keys, the power pulled, a flash replaced, the report, the totals, a hostile name,
and each control by the keyboard."""

import base64
import os
import re

import certificate_views
import elections
import handler
from client import fields
from commands import want
from elections import names_in
import papers
from programs import EXAMPLES, content
from visible import visible

# Keys of the keyboard that have no character.
ENTER, BACKSPACE, TAB = "\ue007", "\ue003", "\ue004"
PHONE = 390
HOSTILE = certificate_views.MARKUP
# What the page asks before these keys of the example day.
QUESTIONS = {"ABRE": "Abrir em 04/10/2026, 08h00?", "ENCERRA": "Encerrar em 04/10/2026, 17h00? Ninguém mais vota."}
# It isn't a line feed, and ends no line of the program.
SEPARATOR = "\u2028"


class Page:
    """The page in one browser."""

    def __init__(self, browser, address, pictures):
        self.browser, self.address, self.pictures = browser, address, pictures
        browser.go(address)
        browser.wait("body[data-ready]", bool, "the page does not begin")

    def reply(self, form, what):
        return self.browser.wait("#resposta", lambda text: re.search(form, text), what)

    def screen(self, form, what):
        return self.browser.wait("#tela", lambda text: re.search(form, text), what)

    def view(self, name):
        self.browser.click(f'nav a[href="#{name}"]')

    def clerk(self, word, form):
        button = "#titulo button" if word == "TITULO" else f'.clerk button[value="{word}"]'
        self.browser.click(button)
        if word in QUESTIONS:
            self.want_asked(QUESTIONS[word])
        self.reply(form, word)

    def want_asked(self, words):
        """The page asks this before it does what nothing undoes."""
        asked = self.browser.accept()
        want(words in asked, f"the page asks {asked!r} and not {words!r}")

    def title(self, voter):
        self.browser.clear("#titulo input")
        self.browser.give("#titulo input", f"{10_000_000_000 + voter:012}")

    def identify(self, voter):
        self.title(voter)
        self.clerk("TITULO", "ELEITOR")
        self.clerk("LIBERA", "LIBERADO")
        self.screen("SEU VOTO PARA", "the first vote is not called")

    def click_keys(self, keys):
        for it in keys:
            self.browser.click(f'[data-press="{it}"]')

    def picture(self, name):
        """A picture of the view, and one at a phone's width, where nothing may be wider than the page."""
        self.browser.picture(os.path.join(self.pictures, f"{name}.png"))
        wide = self.browser.picture(os.path.join(self.pictures, f"{name}-celular.png"), PHONE)
        want(wide <= PHONE, f"{name}: at a phone's width the page is {wide} wide")

    def texts(self, selector):
        return self.browser.run("return [...document.querySelectorAll(arguments[0])].map((it) => it.textContent)", selector)

    def choose(self, *paths):
        """Files for the totals, which replace those that were chosen before."""
        self.browser.run("const it = document.querySelector('#soma [name=arquivos]'); it.value = ''; it.dispatchEvent(new Event('change'))")
        if paths:
            self.browser.give("#soma [name=arquivos]", "\n".join(paths))

    def drop(self, selector, files):
        """Files, each with its text, dropped at a place of the page."""
        self.browser.run(
            "const held = new DataTransfer();"
            "for (const [name, text] of arguments[1]) { held.items.add(new File([text], name)); }"
            "document.querySelector(arguments[0]).dispatchEvent(new DragEvent('drop', { dataTransfer: held, cancelable: true, bubbles: true }))",
            selector,
            files,
        )

    def file(self, name):
        return self.browser.run("return fetch(arguments[0]).then((it) => it.text())", f"/arquivo/{name}")


def begin(page, choice):
    page.view("urna")
    page.browser.run("const it = document.querySelector('#comeca select'); it.value = arguments[0]; it.dispatchEvent(new Event('change'))", choice)
    page.browser.click("#comeca button")
    page.browser.wait("#carga", lambda text: "CARGA" in text, "the machine is not loaded")


def opened(page):
    """A key before the opening is refused, and the zero report has only zeros."""
    page.title(1)
    page.clerk("TITULO", "RECUSA 1")
    page.clerk("ABRE", "ABERTA 20261004080000")
    page.clerk("ABRE", "RECUSA 2")
    page.clerk("LIBERA", "RECUSA 7")


def count_sayings(page):
    """Counts how often a screen reader announces the clerk's terminal."""
    page.browser.run(
        "window.sayings = 0;"
        "const seen = new MutationObserver(() => { window.sayings += 1; });"
        "for (const it of ['passo', 'resposta']) { seen.observe(document.getElementById(it), { childList: true, characterData: true, subtree: true }); }"
    )


def by_clicks(page):
    page.identify(1)
    count_sayings(page)
    page.click_keys("1300")
    page.screen("VOTO DE LEGENDA", "a vote for the party is not shown")
    want(page.browser.run("return window.sayings") == 0, "a reader says again what stays")
    page.click_keys("1")
    page.screen("ANA", "the candidate is not shown")
    page.picture("urna")
    page.click_keys("C1R99")
    page.screen("VOTO NULO", "a null vote is not shown")
    page.click_keys("R45C")
    page.screen("FIM", "the first voter sees no FIM")
    want(page.browser.run("return document.querySelector('#titulo input').value") == "", "behind FIM a title is left")
    page.picture("fim")


def by_keys(page):
    page.title(2)
    page.browser.press(ENTER)
    page.reply("ELEITOR", "a title by keys")
    page.clerk("LIBERA", "LIBERADO")
    page.browser.run("document.querySelector('#terminal').focus()")
    page.browser.press("b")
    page.screen("BRANCO", "the key for blank")
    # CONFIRMA after one digit is ignored and changes nothing; nor does a key that is held down.
    page.browser.press(ENTER, "1", ENTER)
    page.screen("Prefeito", "the second office is not called")
    page.browser.press(BACKSPACE, "1")
    page.browser.run("document.querySelector('#terminal').dispatchEvent(new KeyboardEvent('keydown', { key: '1', repeat: true, bubbles: true, cancelable: true }))")
    page.browser.press("3", ENTER)
    page.screen("FIM", "the second voter sees no FIM")


def suspended(page):
    """One voter leaves and comes again; one confirmed a vote before."""
    page.identify(3)
    page.click_keys("13")
    page.clerk("SUSPENDE", "SUSPENSO")
    page.identify(3)
    page.click_keys("45CBC")
    page.screen("FIM", "the third voter sees no FIM")
    page.title(1)
    page.clerk("TITULO", "RECUSA 5")
    page.title(4)
    page.clerk("TITULO", "ELEITOR")
    page.clerk("CANCELA", "CANCELADO")
    page.identify(4)
    page.click_keys("13001C")
    page.screen("Prefeito", "the second vote is not called")
    page.clerk("SUSPENDE", "FIM")
    want(all("URNA ABERTA 4" in it for it in page.texts("#memorias .flash")), "each flash alone does not hold the four voters")


def sealed(page):
    """The paper has the counts of the file."""
    page.browser.give('[data-palavra="ENCERRA"] input', ENTER)
    page.want_asked(QUESTIONS["ENCERRA"])
    page.reply("ENCERRADA 20261004170000 4", "the seal by keys")
    page.view("boletim")
    for command, answer in (("confere", "ACEITO 1 42"), ("reconta", "CONFERE")):
        page.browser.click(f"#{command}")
        page.browser.wait("#conferido", lambda text: answer in text, command)
    page.picture("boletim")
    first, council, mayor = fields(page.file("urna.bu"))
    rows = papers.rows(page.browser) if "python3-segno" not in papers.lacking() else page.texts("[data-paper=boletim] .count span")
    counts = {name.upper(): count for name, count in zip(*[iter(rows)] * 2)}
    want(first["COMP"] == "4" and counts["TOTAL"] == "4", f"not four voters: {counts}")
    told = council["13001"], council["LEGP"], council["BRAN"], mayor["45"], mayor["13"], mayor["BRAN"], mayor["NULO"]
    want(told == ("2", "1", "1", "1", "1", "1", "1"), f"the file has other votes: {told}")
    shown = [counts[it] for it in ("13001 ANA", "45 DAVI", "13 CARLA")]
    want(shown == ["2", "1", "1"], f"the paper has other votes: {shown}")
    zeros = page.texts("[data-paper=zeresima] .count span:last-child")
    want(zeros and set(zeros) == {"0"}, f"the zero report: {zeros}")


def printed(page):
    """One column of paper is printed, and nothing else."""
    page.browser.run("window.printed = 0; window.print = () => { window.printed += 1; }")
    page.browser.click("#papeis .sheet:first-child button")
    want(page.browser.run("return [window.printed, document.body.dataset.print].join()") == "1,zeresima", "the zero report is not printed")
    page.browser.command("Emulation.setEmulatedMedia", {"media": "print"})
    seen = "return [...document.querySelectorAll('h1, .sheet button, .paper, iframe')].filter((it) => it.checkVisibility({ visibilityProperty: true })).map((it) => it.dataset.paper)"
    want(page.browser.run(seen) == ["zeresima"], f"more than the zero report is printed: {page.browser.run(seen)}")
    page.picture("papel")
    page.browser.command("Emulation.setEmulatedMedia", {"media": ""})
    paper = base64.b64decode(page.browser.command("Page.printToPDF", {})["data"])
    want(len(re.findall(rb"/Type\s*/Page\b", paper)) == 1, "the zero report of a small section is not one page")
    page.browser.run("dispatchEvent(new Event('afterprint'))")
    if not papers.lacking():
        papers.want_printed(page.browser)


def totalled(page, program, work):
    """With the other section of the example, the report of this day. Three of the seats are vacant."""
    page.view("totais")
    page.browser.click('#exemplos [value="dia"]')
    page.browser.wait("#totalizado", lambda text: "ACEITO 1 42" in text and "2 de 2 seções" in text, "the day is not totalled")
    certificate_views.put_down(work, "urna.bu", page.file("urna.bu").encode())
    tables, listed = listed_files(work, ["tabelas.toml", os.path.join(work, "urna.bu"), "secao43.bu"])
    lines = program.run(work, ["totaliza", tables, listed]).lines
    want("VAGAS VAZIAS 3" in lines, "no seat is vacant")
    want_totals(page, lines, names_in(content(tables)))
    certificate_views.want_certificate(page, program, work, work, tables, listed)
    page.picture("vazias")


def day(page, program, work):
    """A whole day by clicks and by keys"""
    begin(page, "dia")
    for part in (opened, by_clicks, by_keys, suspended, sealed, printed):
        part(page)
    if not papers.lacking():
        papers.of_page(page, program, work)
    totalled(page, program, work)


def pulled(page):
    """The power pulled by clicks, and a flash replaced"""
    begin(page, "dia")
    page.clerk("ABRE", "ABERTA")
    page.view("tomada")
    page.identify(1)
    page.click_keys("13001C45")
    page.screen("DAVI", "the candidate is not shown")
    page.browser.click("#qual option:nth-child(12)")
    page.browser.click("#arma")
    page.browser.wait("#energia", lambda text: "operação 11" in text, "it is not armed")
    page.click_keys("C")
    page.browser.wait("#energia", lambda text: "Desligada" in text, "the power is not pulled")
    page.browser.click("#liga")
    page.browser.wait("#corte", lambda text: "Ao ligar" in text and "operação 11 de 29" in text, "the held state is not shown")
    want("URNA ABERTA 1" in page.browser.text("#corte") and "RECUSA 5" in page.browser.text("#corte"), "the voter is not counted")
    page.picture("tomada")
    page.browser.click("#desliga")
    page.browser.wait("#energia", lambda text: "Desligada" in text, "it is not switched off")
    page.browser.click("[data-troca=interna]")
    page.want_asked("em branco no lugar da interna?")
    page.browser.wait('[data-memoria="interna"]', lambda text: "ERRO OUTRA CARGA INTERNA" in text, "the blank flash")
    page.picture("troca")
    page.browser.click("[data-repoe=interna]")
    page.browser.wait("#reposta", lambda text: "REPOSTA INTERNA 1 42 1" in text, "repoe")
    page.browser.click("#liga")
    page.browser.wait("#energia", lambda text: "Ligada: URNA ABERTA 1" in text, "it does not start")
    want(page.browser.text("#reposta") == "", "the answer of before the start is left")


def pairs_in(text):
    """The texts of a picture: each label with its number."""
    return [(label.strip(), int(value)) for label, _, value in (it.rpartition(":") for it in text.split(";") if it.strip())]


def want_totals(page, lines, names):
    """The numbers of the page are those of the lines."""
    page.browser.run("document.querySelector('#totalizado > details').open = true")
    want(page.browser.run("return document.querySelector('#totalizado > details pre').textContent") == "\n".join(lines), f"other lines are shown than {lines[:12]}")
    code, candidates, blocs, seats = "", {}, {}, {}
    for line in lines:
        word, *rest = line.split(" ")
        code = rest[0] if word == "CARGO" else code
        if word == "CANDIDATO" and rest[2] != "0":
            candidates.setdefault(code, []).append((f"{rest[0]} {names['candidatos'][f'{code} {rest[0]}']}", int(rest[2])))
        if word in ("PARTIDO", "FEDERACAO") and (rest[2], rest[6]) != ("0", "0"):
            blocs.setdefault(code, []).append(int(rest[2]))
            seats.update({rest[0]: int(rest[6])} if rest[6] != "0" else {})
    for code, voted in candidates.items():
        pictures = [pairs_in(it) for it in page.texts(f'[data-cargo="{code}"] .bars desc')]
        want(pictures[-1] == voted, f"office {code}: the bars have {pictures[-1][:5]} and not {voted[:5]}")
        want(code not in blocs or [value for _, value in pictures[0]] == blocs[code], f"office {code}: the parties' bars: {pictures[0]}")
    drawn = page.browser.run("return [...document.querySelectorAll('circle[data-bloc]')].map((it) => it.dataset.bloc)")
    want({it: drawn.count(it) for it in drawn} == seats, f"the seats are {drawn} and not {seats}")
    vacant = sum(int(it.split()[2]) for it in lines if it.startswith("VAGAS VAZIAS"))
    want(page.browser.run("return document.querySelectorAll('circle.vacant').length") == vacant, "other seats are vacant")
    page.browser.run("document.querySelector('#totalizado > details').open = false")
    rounds = [[it.split()[at] for at in (1, 3, 5)] for it in lines if it.startswith("SOBRA")]
    shown = [page.texts(f".rounds tbody td:nth-child({at})") for at in (1, 2, 4)]
    want([[number, phase, certificate_views.bloc_in(winner)] for number, phase, winner in zip(*shown)] == rounds, f"the rounds are {shown} and not {rounds}")


def rehearsed(page, program, work):
    """The totals of the rehearsal, of a federation, and of files that are chosen and dropped, as `totaliza` tells them"""
    page.view("totais")
    program.run(work, ["ensaio", "400"])
    certificate_views.put_down(work, "lista", b"ensaio.bu\n")
    page.browser.click('#exemplos [value="ensaio"]')
    page.browser.wait("#totalizado", lambda text: "C10100" in text, "the rehearsal is not totalled")
    want_totals(page, program.run(work, ["totaliza", "ensaio.toml", "lista"]).lines, names_in(content(work, "ensaio.toml")))
    certificate_views.want_certificate(page, program, work, work, "ensaio.toml", "lista")
    page.picture("totais")
    page.browser.click('#exemplos [value="federacao"]')
    page.browser.wait("#totalizado", lambda text: "FRENTE" in text, "the federation is not totalled")
    lines = program.run(EXAMPLES, ["totaliza", "federacao.toml", "federacao-lista.txt"]).lines
    want_totals(page, lines, names_in(content(EXAMPLES, "federacao.toml")))
    page.picture("federacao")
    chosen(page, program, work)


def chosen(page, program, work):
    """Files that are chosen, and files dropped on the place for them and beside it."""
    names = ["tabelas.toml", "secao43.bu", "federacao-42.bu"]
    page.choose(*(os.path.join(EXAMPLES, it) for it in names))
    want_listed(page, program, work, names)
    for place, files in (("#solta", names[:2]), ("h1", names)):
        page.drop(place, [(it, content(EXAMPLES, it).decode()) for it in files])
        want_listed(page, program, work, files)
    page.drop("#solta", [("longo.bu", "x" * 1_048_577)])
    page.browser.click("#soma button")
    page.browser.wait("#falha", lambda text: "longo.bu é grande demais" in text, "a large report")


def listed_files(work, names):
    """The tables and the list of reports, from such files of the examples."""
    tables, *reports = (os.path.join(EXAMPLES, it) for it in names)
    return tables, certificate_views.put_down(work, "lista-dada", "".join(f"{it}\n" for it in reports).encode())


def want_listed(page, program, work, names):
    """The given files are totalled as the program totals them; a report of another election is a stranger among them."""
    page.browser.run("document.querySelector('#totalizado').replaceChildren()")
    page.browser.click("#soma button")
    strange = "federacao-42.bu" in names
    page.browser.wait("#totalizado", lambda text: "secao43.bu" in text and ("ESTRANHO" in text) == strange, f"{names} are not totalled")
    tables, listed = listed_files(work, names)
    want_totals(page, program.run(work, ["totaliza", tables, listed]).lines, names_in(content(tables)))


def hostile(page, work):
    """A name that is markup is shown as text"""
    name = f"{HOSTILE}{SEPARATOR}FIM"
    tables = content(EXAMPLES, "tabelas.toml").decode().replace('"ANA"', f"'{name}'").replace('"PA"', f"'{HOSTILE}'")
    tables = tables.replace('"PB"', f"'{'W' * 70}'").replace('"BRUNO"', f"'{'W' * 70}'").replace("cadeiras = 5", "cadeiras = 1")
    certificate_views.put_down(work, "<b>tabelas.toml", tables.encode())
    page.view("urna")
    page.browser.run("const it = document.querySelector('#comeca select'); it.value = 'propria'; it.dispatchEvent(new Event('change'))")
    page.browser.give("#comeca [name=tabelas]", os.path.join(work, "<b>tabelas.toml"))
    page.browser.give("#comeca [name=rol]", os.path.join(EXAMPLES, "rol.txt"))
    page.browser.click("#comeca button")
    page.browser.wait("#carga", lambda text: "CARGA 1 42 4" in text, "the tables are not loaded")
    page.clerk("ABRE", "ABERTA")
    page.identify(1)
    page.click_keys("13001")
    page.screen(re.escape(visible(name)), "the name is not shown as text, and what can't be seen of it as its number")
    page.picture("nome")
    page.click_keys("C45C")
    page.screen("FIM", "no FIM")
    page.clerk("ENCERRA", "ENCERRADA")
    page.view("boletim")
    want(any(HOSTILE in it for it in page.texts(".paper span")), "the name is not on the paper")
    if not papers.lacking():
        want(any(visible(name) in it for it in papers.rows(page.browser)), "the name is not on the paper with the codes")
    page.view("totais")
    page.browser.click("#soma [name=desta]")
    page.choose()
    page.browser.click("#soma button")
    page.browser.wait("#totalizado", lambda text: "ACEITO 1 42" in text and "hacked" in text, "the report is not totalled")
    want(any(HOSTILE in it for it in page.texts(".first td")), "the name is not in the certificate's table")
    page.picture("nome-totais")
    found = page.browser.run("return [typeof hacked, document.querySelectorAll('main script, main img, main b').length]")
    want(found == ["undefined", 0], f"a name became markup: {found}")


def controls(page):
    """Each control is reached by the Tab key, and has a name for a screen reader; the first link of a view leads into that view"""
    page.view("totais")
    page.browser.click('#exemplos [value="federacao"]')
    page.browser.wait("#totalizado", lambda text: "FRENTE" in text, "the federation is not totalled")
    for view in ("urna", "tomada", "boletim", "totais"):
        page.view(view)
        want(page.texts('nav [aria-current="page"]') == page.texts(f'nav [href="#{view}"]'), f"{view}: the name of the view is not announced")
        page.browser.run("document.querySelector('.skip').focus()")
        page.browser.press(ENTER)
        shown = "return [document.activeElement.id, document.body.dataset.view]"
        want(page.browser.run(shown) == ["conteudo", view], f"{view}: the first link leads to {page.browser.run(shown)}")
        page.browser.run("for (const it of document.querySelectorAll('main details')) { it.open = it.open || it.checkVisibility(); }")
        count = page.browser.run(
            "const wanted = 'a[href], button:not(:disabled), input, select, summary, pre, .paper, #terminal';"
            "window.left = new Set([...document.querySelectorAll(wanted)].filter((it) => it.checkVisibility() && !it.matches('.skip')));"
            "document.addEventListener('focusin', (event) => window.left.delete(event.target));"
            "document.querySelector('.skip').focus(); return window.left.size"
        )
        page.browser.press(*[TAB] * (count + 5))
        left = page.browser.run("return [...window.left].map((it) => it.outerHTML.slice(0, 80))")
        want(count >= 4 and not left, f"{view}: not reached by the Tab key: {left}")
        nameless = [it for it in page.browser.controls() if not it.get("name", {}).get("value")]
        want(not nameless, f"{view}: without a name: {[it['role']['value'] for it in nameless]}")


def bounds(page):
    """The page and its server have the same limits"""
    found = page.browser.run("return import('/parts.js').then((it) => it.MOST)")
    wanted = [elections.MOST_TABLES, elections.MOST_ROLL, elections.MOST_REPORT, elections.MOST_CERTIFICATE, handler.LARGE]
    want([found[it] for it in ("tables", "roll", "report", "certificate", "asked")] == wanted, f"the page has the limits {found}")


def tried(new, program, address, pictures, work):
    page = Page(new(), address, pictures)
    for part, words in (
        (day, (program, work)),
        (pulled, ()),
        (rehearsed, (program, work)),
        (certificate_views.tried, (program, work)),
        (controls, ()),
        (bounds, ()),
        (hostile, (work,)),
    ):
        part(page, *words)
        yield part.__doc__
    other = Page(new(), address, pictures)
    begin(other, "dia")
    other.clerk("LIBERA", "RECUSA 1")
    page.view("urna")
    page.clerk("LIBERA", "RECUSA 3")
    yield "Two browsers have two sessions"
    for it in (page, other):
        # What the server refuses is reported there too.
        complaints = [line for line in it.browser.log() if "favicon" not in line and "/api/verifica" not in line]
        want(not complaints, f"the browser reports errors: {complaints[:3]}")
    yield "The browser reports no other errors"


def unprepared(new, address, pictures):
    """Without a C compiler the page says so, and the power is not pulled"""
    page = Page(new(), address, pictures)
    page.view("tomada")
    page.browser.wait("#energia", lambda text: "Sem compilador de C" in text, "the page doesn't say that there is no C compiler")
    want(page.browser.run("return document.querySelector('#arma').disabled"), "the power can be pulled")
    yield unprepared.__doc__
