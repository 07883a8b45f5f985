"""Requests to the page's server as a browser sends them, and as no browser does."""

import http.client
import json


class Client:
    """A client that shows nothing, with a session of its own."""

    def __init__(self, port):
        self.port, self.cookie = port, ""
        _, headers, _ = self.send("GET", "/")
        self.cookie = headers["Set-Cookie"].split(";")[0]

    def send(self, way, path, body=None, **changed):
        """A request. The changed headers replace the usual ones, and one that is None is left out. Returns the status, the headers and
        the bytes."""
        usual = {"Host": f"127.0.0.1:{self.port}", "Origin": f"http://127.0.0.1:{self.port}", "Content-Type": "application/json", "Cookie": self.cookie}
        usual["Content-Length"] = str(len(body or b""))
        headers = {**usual, **{name.replace("_", "-"): value for name, value in changed.items()}}
        connection = http.client.HTTPConnection("127.0.0.1", self.port, timeout=60)
        try:
            connection.putrequest(way, path, skip_host=True, skip_accept_encoding=True)
            for name, value in headers.items():
                if value is not None:
                    connection.putheader(name, value)
            connection.endheaders(body)
            answer = connection.getresponse()
            return answer.status, answer.headers, answer.read()
        finally:
            connection.close()

    def ask(self, what, **words):
        """What the session answers."""
        status, _, told = self.send("POST", f"/api/{what}", json.dumps(words).encode())
        told = json.loads(told)
        if status != 200:
            raise AssertionError(f"{what} {words}: {status} {told}")
        return told

    def press(self, *lines):
        for line in lines:
            told = self.ask("tecla", tecla=line)
        return told

    def file(self, name):
        status, _, data = self.send("GET", f"/arquivo/{name}")
        return data.decode() if status == 200 else None


def fields(report):
    """The fields of the text of a report, as keys and values, of one office after the other."""
    found = [{}]
    for it in report.split():
        key, _, value = it.partition(":")
        if key == "CARG":
            found.append({})
        found[-1][key] = value
    return found
