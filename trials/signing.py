"""Signatures of reports, and which reports of a list are accepted."""

import os
import subprocess

from commands import want
from tooling import content, example, put, run, want_told

NEEDS = ["openssh-client"]
TABLES, REPORTS = "federacao.toml", ("federacao-42.bu", "federacao-43.bu")


def key(name, **how):
    subprocess.run(["ssh-keygen", "-q", "-t", how.get("kind", "ed25519"), "-N", "", "-C", "", "-f", name], check=True)
    return content(f"{name}.pub").decode().strip()


def signer(name, public, after="20261001Z", before="20261101Z", namespaces="urna-boletim"):
    return f'{name} namespaces="{namespaces}",valid-after="{after}",valid-before="{before}" {public}\n'


def sign(name, by):
    found = run("sign", name, by)
    want(found[0] == 0 and not found[2], f"{name} was not signed: {found}")


def signed(program, names, *words):
    """The accepted names, and the messages about the others."""
    put("lista", "".join(f"{it}\n" for it in names).encode())
    status, shown, told = run("signed", "--urna", program, *words, TABLES, "chaves", "lista")
    want(status == (1 if told else 0) and len(shown.splitlines()) + len(told) == len(names), f"{names}: {status} {shown!r} {told}")
    return shown.splitlines(), told


def want_taken(program, names, told, *words):
    """Each name in order has its message, or none if it is accepted."""
    taken, said = signed(program, names, *words)
    want(taken == [name for name, it in zip(names, told) if not it], f"accepted: {taken}")
    wanted = [f"{number} {name}: {it}" for number, (name, it) in enumerate(zip(names, told), 1) if it]
    want(said == wanted, f"the message is {said}, expected {wanted}")


def good(program):
    """The reports that their own sections signed are accepted, by keys of each kind, and so is one with a renewed key"""
    example(TABLES, *REPORTS)
    lines = [signer("7-1-42", key("velha"), before="20261002Z"), signer("7-1-42", key("nova", kind="ecdsa"), after="20261002Z")]
    put("chaves", "".join(["# as chaves\n", "\n", *lines, signer("7-1-43", key("outra", kind="rsa"))]).encode())
    sign(REPORTS[0], "nova")
    sign(REPORTS[1], "outra")
    want_taken(program, REPORTS, ("", ""))
    found = run("signed", "--urna", program, "-o", "aceitos", TABLES, "chaves", "lista")
    want(found == (0, "aceitos: 2 de 2\n", []) and content("aceitos") == content("lista"), f"the list: {found}")
    want_taken(program, [], ())


def others(program):
    """For each report that isn't accepted the reason is printed: unsigned, changed, signed as another kind, by another section, by an
    unknown key, or by one out of its time"""
    example(TABLES, *REPORTS)
    names = [f"{it}.bu" for it in ("sem", "alterado", "outra-coisa", "outra-secao", "desconhecida", "cedo", "tarde", "tabelas", "lixo")]
    for name in names:
        put(name, content(REPORTS[0]))
    keys = {it: key(it) for it in ("secao", "outra", "nenhuma", "cedo", "tarde", "tabelas")}
    lines = [signer("7-1-42", keys["secao"]), signer("7-1-43", keys["outra"]), signer("7-1-42", keys["cedo"], before="20261003Z")]
    lines += [signer("7-1-42", keys["tarde"], after="20261005Z"), signer("7-1-42", keys["tabelas"], namespaces="urna-tabelas")]
    put("chaves", "".join(lines).encode())
    for name, by in zip(names[1:8], ("secao", "secao", "outra", "nenhuma", "cedo", "tarde", "tabelas")):
        sign(name, by)
    # Another report of the section, which confere accepts too.
    put(f"{names[1]}.sig", content(f"{names[2]}.sig"))
    put(names[1], other_report())
    put(f"{names[2]}.sig", subprocess.run(["ssh-keygen", "-q", "-Y", "sign", "-n", "urna-rol", "-f", "secao"], input=content(names[2]), capture_output=True).stdout)
    put(f"{names[8]}.sig", b"lixo\n")
    told = ["sem assinatura", "alterado, ou a assinatura não é deste arquivo", "assinado como outra coisa", "assinado por 7-1-43, e é de 7-1-42"]
    told += ["a chave não está na lista", *["a chave está fora do seu tempo"] * 2, "a chave de 7-1-42 não serve para boletins"]
    want_taken(program, names, [*told, "alterado, ou a assinatura não é deste arquivo"])


def other_report():
    """The report of the section with a vote moved, and all hashes recomputed."""
    import parts

    fields = content(REPORTS[0]).decode().split(" ", 2)[2].split(" HASH:")[0]
    return parts.parts_file(fields.replace("10001:35 10002:10", "10001:34 10002:11")).encode()


def lost(program):
    """A report signed by a lost key is reported, with a list of public keys and with one of ssh-keygen -k; and the time of keys is in
    UTC"""
    example(TABLES, *REPORTS)
    put("chaves", (signer("7-1-42", key("um"), after="20261004Z") + signer("7-1-43", key("dois"), before="20261004000001")).encode())
    sign(REPORTS[0], "um")
    sign(REPORTS[1], "dois")
    subprocess.run(["ssh-keygen", "-k", "-q", "-f", "krl", "dois.pub"], check=True)
    want_taken(program, REPORTS, ("a chave de 7-1-42 está perdida", ""), "-r", "um.pub")
    want_taken(program, REPORTS, ("", "a chave de 7-1-43 está perdida"), "-r", "krl")
    for zone in ("America/Sao_Paulo", "Pacific/Kiritimati"):
        found = run("signed", "--urna", program, TABLES, "chaves", "lista", TZ=zone)
        want(found[0] == 0, f"in the zone {zone}: {found}")
    want_told(run("signed", "--urna", program, "-r", "chaves", TABLES, "chaves", "lista"), 2, "não é uma lista de chaves perdidas", "signers as lost keys")


def kinds(program):
    """Each kind of file is signed in its own namespace, other files aren't signed, and no signature is replaced"""
    example(TABLES, REPORTS[0], "rol.txt", "lista.txt")
    put("chaves", signer("7-1-42", key("tribunal")).encode())
    for name, kind in ((TABLES, "tabelas"), (REPORTS[0], "boletim"), ("rol.txt", "rol"), ("chaves", "chaves")):
        sign(name, "tribunal")
        with open(name, "rb") as file:
            verified = subprocess.run(["ssh-keygen", "-Y", "check-novalidate", "-n", f"urna-{kind}", "-s", f"{name}.sig"], stdin=file, capture_output=True)
        want(verified.returncode == 0, f"{name} was not signed as {kind}")
        before = content(f"{name}.sig")
        want_told(run("sign", name, "tribunal"), 2, f"{name}.sig: já existe", f"{name} a second time")
        want(content(f"{name}.sig") == before, "a signature was replaced")
    want_told(run("sign", "lista.txt", "tribunal"), 2, "não é um boletim, nem tabelas", "a list")
    put("escondidos.toml", content(TABLES).replace(b'"ANA"', '"AN\u202eA"'.encode()))
    found = run("sign", "escondidos.toml", "tribunal")
    want(found[0] == 0 and found[2] == ["escondidos.toml: o nome de candidato 13 10001 tem caracteres que não se veem: AN[U+202E]A"], f"hidden names: {found}")


PARTS = [good, others, lost, kinds]
