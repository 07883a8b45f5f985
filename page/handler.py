"""The answers of the page's server. It serves only browsers of this machine: it refuses another host name, requests from another page,
and requests that are too large or of another form."""

import base64
import contextlib
import hashlib
import http.cookies
import http.server
import json
import os
import re
import socket
import time

from programs import Refused, content
from session import Session
from visible import visible_in

STATIC = os.path.join(os.path.dirname(os.path.abspath(__file__)), "static")
KINDS = {".html": "text/html", ".css": "text/css", ".js": "text/javascript", ".svg": "image/svg+xml"}
# The files of the page, by the names under which they are requested.
FILES = {f"/{name}": name for name in sorted(os.listdir(STATIC)) if os.path.splitext(name)[1] in KINDS} | {"/": "index.html"}
# The notice of each view if the program is compiled without a proof.
UNPROVED = "<p role=\"note\" class=\"unproved\"><strong>Programa sem prova.</strong> Foi compilado das mesmas fontes, e nada dele está provado.</p>\n".encode()
# What may be read from a session, and what may be requested, with the maximum bytes of a request.
READ = {"/api/estado": Session.state, "/api/eleicao": Session.election}
SMALL, LARGE = 4_096, 33_554_432
ASKED = {
    "/api/comeca": (Session.begin, 8_388_608),
    "/api/tecla": (Session.press, SMALL),
    "/api/arma": (Session.arm, SMALL),
    "/api/desarma": (Session.disarm, SMALL),
    "/api/desliga": (Session.switch_off, SMALL),
    "/api/liga": (Session.switch_on, SMALL),
    "/api/troca": (Session.exchange, SMALL),
    "/api/repoe": (Session.reload, SMALL),
    "/api/confere": (Session.check, SMALL),
    "/api/reconta": (Session.recount, SMALL),
    "/api/totais": (Session.totals, LARGE),
    "/api/verifica": (Session.verify, 1_400_000),
}
RESULTS, PAPER = "/arquivo/", "/papel"
# For a refused request: how many more bytes are read, and for how many seconds.
MOST_LEFT, LONGEST_LEFT = 67_108_864, 10
HEADERS = {
    "Cache-Control": "no-store",
    "Content-Security-Policy": "default-src 'none'; script-src 'self'; style-src 'self'; img-src 'self' data:; connect-src 'self'; frame-src 'self'; "
    "base-uri 'none'; form-action 'none'; frame-ancestors 'none'",
    "Cross-Origin-Opener-Policy": "same-origin",
    "Cross-Origin-Resource-Policy": "same-origin",
    "Referrer-Policy": "no-referrer",
    "X-Content-Type-Options": "nosniff",
}


def paper_policy(page):
    """The content policy of a report's paper: it has only its own styles, and may be framed only by this page."""
    style = re.search(rb"<style>(.*?)</style>", page, re.S)[1]
    own = base64.b64encode(hashlib.sha256(style).digest()).decode()
    return f"default-src 'none'; style-src 'sha256-{own}'; base-uri 'none'; form-action 'none'; frame-ancestors 'self'"


class Handler(http.server.BaseHTTPRequestHandler):
    server_version, sys_version = "urna", ""
    protocol_version = "HTTP/1.1"
    # A browser that sends nothing for this many seconds is disconnected.
    timeout = 60

    def log_message(self, *words):
        """Logs nothing, so that the times of presses aren't recorded."""

    # ---- the sender

    def hosts(self):
        port = self.server.server_address[1]
        return [f"127.0.0.1:{port}", f"localhost:{port}"]

    def want_own(self, must_have_origin):
        """Whether the request was sent to this machine's own name, and by this page."""
        hosts, found = self.headers.get_all("Host") or [], self.headers.get_all("Origin") or []
        if len(hosts) != 1 or hosts[0] not in self.hosts():
            raise Refused(403, "outro nome de máquina")
        if (found or must_have_origin) and found != [f"http://{hosts[0]}"]:
            raise Refused(403, "outra origem")
        if self.headers.get("Sec-Fetch-Site", "none") not in ("none", "same-origin"):
            raise Refused(403, "outra origem")

    def cookie_name(self):
        return f"urna-{self.server.server_address[1]}"

    def session(self):
        """The session of this browser, if it has one."""
        try:
            cookies = http.cookies.SimpleCookie(self.headers.get("Cookie", ""))
        except http.cookies.CookieError:
            return None
        cookie = cookies.get(self.cookie_name())
        return self.server.sessions.of(cookie.value) if cookie else None

    # ---- the request

    def asked(self, most):
        """The object of a request."""
        if self.headers.get("Content-Type", "").split(";")[0].strip() != "application/json":
            raise Refused(415, "o pedido não é JSON")
        length = self.headers.get_all("Content-Length") or []
        if self.headers.get("Transfer-Encoding") or len(length) != 1 or not (length[0].isascii() and length[0].isdigit()):
            raise Refused(411, "o pedido não diz o seu tamanho")
        if len(length[0]) > 12 or int(length[0]) > most:
            raise Refused(413, "o pedido é grande demais")
        try:
            asked = json.loads(self.rfile.read(int(length[0])))
        except (ValueError, RecursionError):
            raise Refused(400, "o pedido não é JSON")
        if not isinstance(asked, dict):
            raise Refused(400, "o pedido não é um objeto")
        return asked

    def done(self, action, *words):
        """The response of a session."""
        session = self.session()
        if not session:
            raise Refused(401, "sem sessão: recarregar a página")
        with session.lock:
            session.open()
            return action(session, *words)

    def do_GET(self):
        self.answer(self.got)

    def do_POST(self):
        self.answer(self.posted)

    def got(self):
        self.want_own(False)
        if self.path in READ:
            return self.send_object(200, self.done(READ[self.path]))
        if self.path == PAPER:
            data = self.done(Session.paper)
            return self.send(200, "text/html; charset=utf-8", data, {"Content-Security-Policy": paper_policy(data)})
        if self.path.startswith(RESULTS):
            name = self.path.removeprefix(RESULTS)
            data = self.done(Session.result, name)
            return self.send(200, "application/octet-stream", data, {"Content-Disposition": f'attachment; filename="{name}"'})
        if self.path not in FILES:
            raise Refused(404, "não há esta página")
        name = FILES[self.path]
        data = content(STATIC, name)
        if name == "index.html" and not self.server.is_proved:
            data = data.replace(b"<main", UNPROVED + b"<main", 1)
        return self.send(200, f"{KINDS[os.path.splitext(name)[1]]}; charset=utf-8", data, self.welcome())

    def welcome(self):
        """A browser without a session gets one with the page itself."""
        if self.path != "/" or self.session():
            return {}
        return {"Set-Cookie": f"{self.cookie_name()}={self.server.sessions.new()}; Path=/; HttpOnly; SameSite=Strict"}

    def posted(self):
        self.want_own(True)
        if self.path not in ASKED:
            raise Refused(404, "não há este pedido")
        action, most = ASKED[self.path]
        asked = self.asked(most)
        return self.send_object(200, self.done(action, asked))

    # ---- responses

    def answer(self, way):
        try:
            way()
        except Refused as refused:
            # The unread rest of the request must not be read as another request.
            self.close_connection = True
            self.send_object(refused.status, {"erro": refused.why})
            self.let_finish()
        except ConnectionError:
            self.close_connection = True
        except OSError:
            self.close_connection = True
            self.send_object(500, {"erro": "um arquivo da sessão não pôde ser lido ou gravado"})

    def let_finish(self):
        """Reads the rest of a refused request for a while: if it were cut off, its response would be lost too."""
        left, until = MOST_LEFT, time.monotonic() + LONGEST_LEFT
        with contextlib.suppress(OSError):
            self.connection.shutdown(socket.SHUT_WR)
            self.connection.settimeout(1)
            while left > 0 and time.monotonic() < until and (piece := self.rfile.read1(65_536)):
                left -= len(piece)

    def send_object(self, status, told):
        """Sends an object; in its texts, also names of the tables, each invisible character is replaced by its number."""
        self.send(status, "application/json; charset=utf-8", json.dumps(visible_in(told)).encode(), {})

    def send(self, status, kind, data, more):
        self.send_response(status)
        for name, value in {**HEADERS, **more, "Content-Type": kind, "Content-Length": str(len(data))}.items():
            self.send_header(name, value)
        if self.close_connection:
            self.send_header("Connection", "close")
        self.end_headers()
        self.wfile.write(data)


class Server(http.server.ThreadingHTTPServer):
    """Listens only on this machine's loopback address."""

    daemon_threads = True

    def __init__(self, port, sessions, is_proved):
        super().__init__(("127.0.0.1", port), Handler)
        self.sessions, self.is_proved = sessions, is_proved

    def handle_error(self, request, client_address):
        """A browser that went away in the middle of a response doesn't affect the others."""
