"""Requests that are refused: from another machine, host or origin, of a wrong form, too large, without a session; and two sessions side
by side."""

import base64
import json

from client import Client
from commands import want
from programs import EXAMPLES, content

TABLES = "tabelas"


def encoded(data):
    return base64.b64encode(data).decode()


def want_refused(client, what, statuses, way="POST", path="/api/tecla", body=b'{"tecla": "M LIBERA"}', **changed):
    status, _, told = client.send(way, path, body, **changed)
    want(status in statuses, f"{what}: answered {status} {told[:200]!r}")
    want(b"Traceback" not in told, f"{what}: shows something of the server")


def listeners(port):
    """The addresses on which something listens at a port, as the system reports them."""
    found = []
    for name in ("/proc/net/tcp", "/proc/net/tcp6"):
        with open(name) as file:
            rows = [it.split() for it in file.readlines()[1:]]
        found += [row[1].split(":")[0] for row in rows if row[3] == "0A" and int(row[1].split(":")[1], 16) == port]
    return found


def strangers(port):
    """Another machine, another host name, and requests of another page."""
    want(listeners(port) == ["0100007F"], f"the page is served at {listeners(port)}")
    client = Client(port)
    client.ask("comeca", exemplo="dia")
    for host in ("urna.example", f"urna.example:{port}", "127.0.0.1", f"127.0.0.1:{port + 1}", ""):
        # The request of a page whose host name was made to point to this machine.
        want_refused(client, f"host {host!r}", [400, 403], Host=host, Origin=f"http://{host}")
        for path in ("/", "/api/estado"):
            want_refused(client, f"{path} for host {host!r}", [400, 403], way="GET", path=path, body=None, Host=host, Origin=None)
    for origin in ("http://urna.example", "null", f"https://127.0.0.1:{port}", f"http://127.0.0.1:{port + 1}", f"http://localhost:{port}", None):
        want_refused(client, f"origin {origin!r}", [403], Origin=origin)
    want_refused(client, "a request of another site", [403], Sec_Fetch_Site="cross-site")
    for path in ("/api/estado", "/papel"):
        want_refused(client, f"reading {path} for another site", [403], way="GET", path=path, body=None, Origin="http://urna.example")
    for cookie in ("", "urna=1", f"urna-{port}=1", f"urna-{port}=\x7f;;=="):
        want_refused(client, f"the cookie {cookie!r}", [401], Cookie=cookie)
    want_refused(client, "a simple form", [415], Content_Type="application/x-www-form-urlencoded")
    want_refused(client, "text", [415], Content_Type="text/plain")


def forms(port):
    """Requests of another form than the page's."""
    client = Client(port)
    client.ask("comeca", exemplo="dia")
    for body in (b"", b"{", b"[]", b"1", b'"M LIBERA"', b"\xff", b"[" * 4000, b'{"tecla": 1}', b'{"tecla": null}', b'{"tecla": ["M"]}', b"{}"):
        want_refused(client, f"the body {body[:20]!r}", [400], body=body)
    for press in ("", "M LIBERA\nM CANCELA", "M LIBERA\r", "E 1\0", "E " + "1" * 80, "M TITULO é"):
        want_refused(client, f"the press {press[:20]!r}", [400], body=json.dumps({"tecla": press}).encode())
    for path in ("/api/nada", "/api/", "/../serve", "/page.js/../../serve", "/%2e%2e/serve", "/serve", "/handler.py", "//etc/passwd", "/arquivo/internal.flash"):
        want_refused(client, f"GET {path}", [400, 404], way="GET", path=path, body=None)
    want_refused(client, "a file above the folder", [404], way="GET", path="/arquivo/../tabelas.toml", body=None)
    want_refused(client, "a report of a poll that is open", [404], way="GET", path="/arquivo/urna.bu", body=None)
    want_refused(client, "the paper of a poll that is open", [404], way="GET", path="/papel", body=None)
    want_refused(client, "another way", [501], way="PUT")
    for words in ({}, {"certificado": 1}, {"certificado": None}):
        want_refused(client, f"a check of {words}", [400], path="/api/verifica", body=json.dumps(words).encode())
    for name in ("cargo-13-1.cer", "../../urna/urna.bu", "tabelas.toml", "-", "\ud800"):
        want_refused(client, f"a check of {name}", [409], path="/api/verifica", body=json.dumps({"certificado": name}).encode())
        want_refused(client, f"the certificate {name!r}", [404], way="GET", path=f"/arquivo/{name.encode(errors='replace').decode()}", body=None)
    for words in ({"exemplo": "../.."}, {"exemplo": 1}, {"tabelas": "?", "rol": "", "zona": 1, "secao": 42}, {"tabelas": "", "rol": "", "zona": "1;ls", "secao": 42}):
        want_refused(client, f"beginning with {words}", [400], path="/api/comeca", body=json.dumps(words).encode())
    for path, words in (("arma", {"operacao": 0}), ("arma", {"operacao": "1"}), ("arma", {"operacao": True}), ("troca", {"memoria": "../urna"}), ("repoe", {})):
        status, _, told = client.send("POST", f"/api/{path}", json.dumps(words).encode())
        want(status in (400, 409), f"{path} {words}: answered {status} {told!r}")
    for name in ("2026-10-04", "nan", "[[]]", "{a = 1}", "'" + "\u2028" * 24 + "'"):
        # Invalid tables, or ones with odd names, are for the program to refuse.
        tables = content(EXAMPLES, "tabelas.toml").replace(b'"ANA"', name.encode())
        told = client.ask("comeca", tabelas=encoded(tables), rol=encoded(content(EXAMPLES, "rol.txt")), zona=1, secao=42)
        want(told["carga"]["numero"] in (0, 3), f"tables with the name {name}: {told['carga']}")
    client.ask("comeca", exemplo="dia")
    told = client.press("M FOO")
    want(told["mesario"]["numero"] == 4 and told["mesario"]["linhas"] == ["ERRO LINHA 1"], f"a press outside the form: {told['mesario']}")


def certificates(port):
    """A certificate belongs to the totals of its session, and a file given instead of it is bounded."""
    one, other = Client(port), Client(port)
    for client in (one, other):
        told = client.ask("totais", exemplo="federacao")["certificados"]
        want([it["arquivo"] for it in told] == ["cargo-13-1.cer"], f"certificates: {told}")
    want(one.file("cargo-13-1.cer") == told[0]["texto"], "another certificate is sent")
    for data, lines in ((b"", ["ERRO CERTIFICADO LINHA 1"]), (bytes(1_048_576), ["ERRO CERTIFICADO LINHA 1"]), (told[0]["texto"].encode(), ["CERTIFICADO VALIDO 13"])):
        found = one.ask("verifica", certificado="cargo-13-1.cer", base64=encoded(data))["resposta"]
        want(found["linhas"] == lines, f"a certificate of {len(data)} bytes: {found}")
    for text, status in ((encoded(bytes(1_048_577)), 413), ("?", 400), ("é", 400), ("\ud800", 400), ("A" * 1_400_000, 413), (None, 400), (1, 400), (["A"], 400)):
        words = {"certificado": "cargo-13-1.cer", "base64": text}
        want_refused(one, f"a certificate {str(text)[:10]}", [status], path="/api/verifica", body=json.dumps(words).encode())
    want_refused(one, "the file that was given", [404], way="GET", path="/arquivo/dado.cer", body=None)
    one.ask("totais", exemplo="dia")
    want_refused(one, "a certificate of other totals", [409], path="/api/verifica", body=b'{"certificado": "cargo-13-1.cer"}')
    want(one.file("cargo-13-1.cer") is None and other.file("cargo-13-1.cer"), "a certificate is of another session")


def sizes(port):
    """Requests that are too large, or have no length."""
    client = Client(port)
    want_refused(client, "a long press", [413], body=b" " * 5000)
    want_refused(client, "large totals", [413], path="/api/totais", body=bytes(33_554_433))
    want_refused(client, "a length that is never sent", [413], body=b"", Content_Length="99999999999999")
    want_refused(client, "no length", [411], body=b"", Content_Length=None)
    want_refused(client, "a length below zero", [411], body=b"", Content_Length="-1")
    want_refused(client, "chunks", [411], body=b"0\r\n\r\n", Transfer_Encoding="chunked", Content_Length=None)
    large = encoded(bytes(4_194_305))
    words = {TABLES: large, "rol": "", "zona": 1, "secao": 42}
    want_refused(client, "large tables", [413], path="/api/comeca", body=json.dumps(words).encode())
    words = {TABLES: "", "rol": encoded(bytes(16_385)), "zona": 1, "secao": 42}
    want_refused(client, "a large roll", [413], path="/api/comeca", body=json.dumps(words).encode())
    words = {TABLES: "", "boletins": [{"nome": "a", "base64": encoded(bytes(1_048_577))}]}
    want_refused(client, "a large report", [413], path="/api/totais", body=json.dumps(words).encode())
    words = {TABLES: "", "boletins": [{"nome": "a", "base64": ""}] * 4097}
    want_refused(client, "too many reports", [413], path="/api/totais", body=json.dumps(words).encode())
    words = {TABLES: "", "boletins": ["a"]}
    want_refused(client, "a report that isn't an object", [400], path="/api/totais", body=json.dumps(words).encode())


def sessions(port):
    """Two browsers have two sessions, and a name in a list is not the name of a file."""
    one, other = Client(port), Client(port)
    one.ask("comeca", exemplo="dia")
    other.ask("comeca", exemplo="dia")
    one.press("M ABRE 20261004080000")
    lines = [it.press("M TITULO 010000000001")["mesario"]["linhas"] for it in (one, other)]
    want(lines == [["ELEITOR 010000000001"], ["RECUSA 1"]], f"two sessions are one: {lines}")
    told = one.ask("totais", boletins=[{"nome": "../../../etc/passwd", "base64": ""}, {"nome": "$(ls)\n;", "base64": "AA=="}, {"nome": "\ud800", "base64": ""}])
    want(told["totaliza"]["linhas"][:3] == [f"{number} PARTE FORMA 1" for number in (1, 2, 3)], f"files of no report: {told['totaliza']}")


def tried(port):
    for part in (strangers, forms, certificates, sizes, sessions):
        part(port)
        yield part.__doc__
