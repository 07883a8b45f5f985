"""Inputs that the tools can't use: each tool ends with one line and the status 2, soon, and writes no file."""

import os
import time

from commands import want
from tooling import SOON, content, example, put, run, want_told

NEEDS = ["python3-segno", "zbar-tools", "openssh-client"]
TABLES, REPORT = "federacao.toml", "federacao-42.bu"
HUGE = 1 << 30
# The arguments of each tool, with where a file is read, and where one is written.
READ, WRITTEN = "<", ">"
TOOLS = {
    "paper": (READ, READ, WRITTEN),
    "scan": (WRITTEN, READ),
    "sign": (READ, READ),
    "signed": (READ, READ, READ),
}
USABLE = {"paper": (TABLES, REPORT, "novo"), "scan": ("novo", REPORT), "sign": (REPORT, "chave"), "signed": (TABLES, "chaves", "lista")}
BAD = {
    "nada": "não há este arquivo",
    "pasta": "não é um arquivo, é uma pasta",
    "enorme": "é grande demais",
    "cano": "não é um arquivo",
    "um\nnome": "[U+000A]",
    "um\u202enome": "[U+202E]",
    "sem/pasta": "",
}


def prepared():
    example(TABLES, REPORT)
    os.mkdir("pasta")
    os.mkfifo("cano")
    with open("enorme", "wb") as file:
        file.truncate(HUGE)
    for name in ("chave", "chaves"):
        put(name, b"7-1-42 ssh-ed25519 AAAA\n")
    put("lista", f"{REPORT}\n".encode())


def want_refused(tool, words, told):
    before, begun = sorted(os.listdir()), time.monotonic()
    want_told(run(tool, *words), 2, told, f"{tool} {words}")
    want(time.monotonic() - begun < SOON, f"{tool} {words} takes too long")
    want(sorted(os.listdir()) == before, f"{tool} {words} leaves {sorted(set(os.listdir()) - set(before))}")


def files(program):
    """No file, a folder, a file of 1 GiB, a pipe, and names that can't be printed in a line, instead of each file of each tool"""
    prepared()
    for tool, places in TOOLS.items():
        for at, place in enumerate(places):
            for bad, told in BAD.items():
                if place == WRITTEN and bad in ("nada", "pasta", "enorme", "cano"):
                    continue
                words = list(USABLE[tool])
                words[at] = bad
                own = ["--urna", program] if tool in ("paper", "signed") else []
                want_refused(tool, [*own, *words], told if told else "sem/pasta")


def words(program):
    """Invalid arguments, and missing programs and libraries, each named"""
    prepared()
    for tool in TOOLS:
        for given in ([], ["-x"], ["--nada", "a", "b", "c"], ["a"] * 9) if tool != "scan" else ([], ["-x"]):
            want_refused(tool, given, "uso: ")
    for tool in ("paper", "signed"):
        want_refused(tool, ["--urna", "pasta", *USABLE[tool]], "pasta")
        want_refused(tool, ["--urna", "nada", *USABLE[tool]], "nada")
        want_refused(tool, ["--urna", program, REPORT, *USABLE[tool][1:]], "")
    os.mkdir("falso")
    put("falso/segno.py", b"raise ImportError\n")
    want_told(run("paper", "--urna", program, *USABLE["paper"], PYTHONPATH=os.path.abspath("falso")), 2, "python3-segno", "without segno")
    put("imagem", b"P5\n1 1\n255\n0")
    without = os.path.abspath("pasta")
    os.symlink("/usr/bin/python3", os.path.join(without, "python3"))
    want_told(run("scan", "novo", "imagem", PATH=without), 2, "falta o programa zbarimg", "without zbarimg")
    want_told(run("sign", REPORT, "chave", PATH=without), 2, "falta o programa ssh-keygen", "without ssh-keygen")
    want(not os.path.exists("novo"), "a file was made")


def contents(program):
    """Files with the wrong content: bytes that aren't text, empty ones, lists with odd names, invalid keys, invalid pictures"""
    prepared()
    put("vazio", b"")
    put("bytes", bytes(range(256)) * 40)
    own = ["--urna", program]
    for bad in ("vazio", "bytes"):
        want_refused("paper", [*own, bad, REPORT, "novo"], "ERRO TABELAS")
        want_refused("sign", [bad, "chave"], "não é um boletim")
        want_refused("signed", [*own, bad, "chaves", "lista"], "não são as tabelas")
    want_refused("signed", [*own, TABLES, "bytes", "lista"], "a linha 1 não é de uma chave")
    want_refused("sign", [REPORT, "chave"], "não assina")
    for lines, told in ((b"a\n\nb\n", "a linha 2 não tem um nome"), (b"a\rb\n", "[U+000D]"), (b"a", "não é uma lista"), (b"x" * 256 + b"\n", "a linha 1"), (b"a\xff\n", "[U+DCFF]")):
        put("lista", lines)
        want_refused("signed", [*own, TABLES, "chaves", "lista"], told)
    for line in (b"7-1-* ssh-ed25519 AAAA\n", b'"7-1-42 *" ssh-ed25519 AAAA\n', b"7-1-42\n", b"!7-1-42,7-1-4? ssh-rsa AAAA\n"):
        put("chaves", line)
        put("lista", f"{REPORT}\n".encode())
        want_refused("signed", [*own, TABLES, "chaves", "lista"], "a linha 1 não é de uma chave com nomes inteiros")
    for data in (b"", b"\xff" * 1000, b"\n" * 1000, b"QRBU:0:0 VRQR:U1 A HASH:" + b"0" * 128, b"QRBU:3:2 VRQR:U1 A HASH:" + b"0" * 128):
        put("linhas", data)
        found = run("scan", "novo", "linhas")
        want(found[0] == 1 and found[2][-1] == "nenhuma parte de um boletim foi lida", f"scan of {data[:20]!r}: {found}")
    for data in (b"P5\n9 9\n255\n", b"\x89PNG\r\n\x1a\n", b"\xff\xd8\xff\xe0"):
        put("imagem", data)
        found = run("scan", "novo", "imagem")
        want(found[0] in (1, 2) and len(found[2]) == 1 and not os.path.exists("novo"), f"scan of the picture {data[:9]!r}: {found}")


PARTS = [files, words, contents]
