"""Papers, and their codes read back."""

import os
import re
import sys
import unicodedata

import largest
import pixels
from commands import want
from tooling import content, example, put, run, want_told

NEEDS = ["python3-segno", "zbar-tools"]
TABLES, REPORT = "federacao.toml", "federacao-42.bu"
# The bytes of a name, and a text without hidden characters.
LONGEST_NAME = 70


def paper(program, tables, report, name, *words):
    """The text of a paper, and the messages."""
    status, shown, told = run("paper", "--urna", program, *words, tables, report, name)
    want(status == 0 and "ACEITO" in shown, f"{report} was not printed: {status} {told}")
    return content(name).decode(), told


def pictures(page):
    """A picture of each code of a paper."""
    found = list(pixels.drawings(page))
    want(all(side <= 72 and side / modules >= 0.55 for side, modules, _ in found), "a code doesn't fit on a roll, or its modules are too small")
    return [picture.save(f"codigo-{number}.pgm") for number, (_, _, picture) in enumerate(found, 1)]


def want_read(files, report, what):
    """The codes give the file of the report to the byte."""
    found = run("scan", "lido.bu", *files)
    want(found[0] == 0 and content("lido.bu") == report, f"{what}: {found}")
    os.remove("lido.bu")


def small(program):
    """The paper of a report has its votes by name, and its code is the line of the part"""
    example(TABLES, REPORT)
    for level in ("L", "M"):
        page, told = paper(program, TABLES, REPORT, f"{level}.html", "--nivel", level)
        want(not told, f"expected no message about these names: {told}")
        for it in ("Vereador", "10001 <bdi>ANA</bdi></span><span class=\"number\">35<", "Partido 30 <bdi>PC</bdi>", "08:00:00", "C29784B1 856B3980"):
            want(it in page, f"the paper has no {it}")
        want(not re.search(r"https?:|<script|url\(", page), "the paper loads something from outside")
        files = pictures(page)
        want_read(files, content(REPORT), f"level {level}")


def large(program):
    """The codes of the largest report are read in any order; missing, doubled and foreign parts are reported"""
    put("t.toml", largest.tables())
    report = largest.report()
    put("b.bu", report)
    files = pictures(paper(program, "t.toml", "b.bu", "p.html")[0])
    want(len(files) == report.count(b"\n"), f"{len(files)} codes")
    want_read(files[::-1] + files[:2], report, "the largest report")
    want_told(run("scan", "lido.bu", *files[:3], *files[5:9], *files[10:]), 1, f"de {len(files)} partes faltam 4 a 5, 10", "without some codes")
    lines = report.splitlines(keepends=True)
    found = run("scan", "linhas.bu", data=b"".join(reversed(lines)).replace(b"\n", b"\r\n") + b"outra coisa\n")
    want(found[0] == 0 and content("linhas.bu") == report and "não foi tomado: 1" in found[2][0], f"the lines of a scanner: {found}")
    other = lines[0].replace(b"COMP:600", b"COMP:599")
    want_told(run("scan", "lido.bu", data=report + other), 1, "boletins diferentes: a parte 1", "two parts of one number")
    example(REPORT)
    want_told(run("scan", "lido.bu", data=report + content(REPORT)), 1, "boletins diferentes: a parte 1 de 1", "two reports")
    want(not os.path.exists("lido.bu"), "a file was made from missing or mixed parts")


def hidden_characters():
    """Each character that a name of the tables may have and that is invisible or reverses the text."""
    found = [chr(it) for it in range(0x20, sys.maxunicode + 1) if unicodedata.category(chr(it)) in ("Cc", "Cf", "Zl", "Zp")]
    return [it for it in found if it != "\x7f"]


def names_of(characters):
    """Names that have all of these, each of the maximum length."""
    names = [""]
    for it in characters:
        if len((names[-1] + it).encode()) > LONGEST_NAME:
            names.append("")
        names[-1] += it
    return names


def hidden(program):
    """Each character of a name that is invisible or reverses the text is on the paper as its number, and is reported"""
    characters = hidden_characters()
    names = names_of(characters)
    fields = " ".join(f"{10001 + it}:1" for it in range(len(names)))
    count = len(names)
    head = f"ORIG:VOTA PROC:7 DTPL:20261004 TURN:1 ZONA:1 SECA:42 APTO:{count} COMP:{count} FALT:0 DTAB:20261004 HRAB:080000 DTFC:20261004 HRFC:170000"
    votes = f"CARG:13 TIPO:1 PART:10 {fields} LEGP:0 TOTP:{count} APTA:{count} NOMI:{count} LEGC:0 BRAN:0 NULO:0 TOTC:{count}"
    put("b.bu", largest.parts.parts_file(f"{head} {votes}").encode())
    rows = ",\n".join(f'{{cargo = 13, numero = {10001 + at}, nascimento = 19600101, nome = "{name}"}}' for at, name in enumerate(names))
    top = 'processo = 7\ndata = 20261004\nturno = 1\ncargo = [{codigo = 13, regra = "proporcional", cadeiras = 1}]\n'
    put("t.toml", f'{top}partido = [{{numero = 10, nome = "<b>&"}}]\ncandidato = [{rows}]\nsecao = [{{zona = 1, secao = 42, eleitores = {count}}}]\n'.encode())
    page, told = paper(program, "t.toml", "b.bu", "p.html")
    left = [it for it in characters if it in page or f"[U+{ord(it):04X}]" not in page]
    want(not left, f"not shown as numbers: {[hex(ord(it)) for it in left]}")
    want("<bdi>&lt;b&gt;&amp;</bdi>" in page, "a name became markup")
    want(len(told) == count and all("tem caracteres que não se veem: [U+" in it for it in told), f"the messages about {count} names: {told[:2]}")


def refused(program):
    """A report that confere doesn't accept isn't printed, and its verdict is printed"""
    example(TABLES, REPORT, "secao43.bu")
    put("cortado.bu", content(REPORT)[:-1])
    put("outro.bu", content(REPORT).replace(b"10001:35", b"10001:36"))
    put("soma.bu", largest.parts.parts_file(content(REPORT).decode().split(" ", 2)[2].split(" HASH:")[0].replace("10001:35", "10001:36")).encode())
    put("linha.toml", content(TABLES).replace(b'"ANA"', b'"AN\\nA"'))
    cases = [("secao43.bu", "ESTRANHO"), ("cortado.bu", "PARTE FORMA 1"), ("outro.bu", "PARTE HASH 1"), ("soma.bu", "SOMA 20 46 45"), (TABLES, "PARTE FORMA 1")]
    for report, verdict in cases:
        want_told(run("paper", "--urna", program, TABLES, report, "p.html"), 1, f"{report}: não é impresso: {verdict}", report)
    want_told(run("paper", "--urna", program, "linha.toml", REPORT, "p.html"), 2, "ERRO TABELAS REGRA 4", "a name with a line feed in the tables")
    want(not os.path.exists("p.html"), "a paper of a refused report")


PARTS = [small, large, hidden, refused]
