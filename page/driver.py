"""A browser without a window, driven by WebDriver over plain HTTP: Chromium and its driver, from the system's packages."""

import base64
import contextlib
import http.client
import json
import os
import shutil
import signal
import socket
import subprocess
import time

BROWSERS, DRIVERS = ("chromium", "chromium-browser", "google-chrome"), ("chromedriver",)
# The key of an element in WebDriver.
ELEMENT = "element-6066-11e4-a52e-4f735466cecf"
LONGEST = 60


def there():
    """The browser and its driver, if both are installed."""
    found = [next(filter(None, map(shutil.which, names)), None) for names in (BROWSERS, DRIVERS)]
    return found if all(found) else None


def free_port():
    with socket.socket() as tried:
        tried.bind(("127.0.0.1", 0))
        return tried.getsockname()[1]


class Failed(Exception):
    pass


class Driver:
    """The process of the driver, and the browsers that it starts."""

    def __init__(self, folder):
        browser, driver = there()
        self.browser, self.folder, self.port, self.browsers = browser, folder, free_port(), []
        streams = {"stdin": subprocess.DEVNULL, "stdout": subprocess.DEVNULL, "stderr": subprocess.DEVNULL}
        self.process = subprocess.Popen([driver, f"--port={self.port}"], start_new_session=True, **streams)
        until = time.monotonic() + LONGEST
        while not self.is_ready():
            if time.monotonic() > until or self.process.poll() is not None:
                raise Failed("the driver of the browser does not start")
            time.sleep(0.05)

    def is_ready(self):
        try:
            return self.ask("GET", "/status")["ready"]
        except OSError:
            return False

    def ask(self, way, path, words=None):
        connection = http.client.HTTPConnection("127.0.0.1", self.port, timeout=120)
        try:
            connection.request(way, path, None if words is None else json.dumps(words), {"Content-Type": "application/json"})
            told = json.loads(connection.getresponse().read())["value"]
        finally:
            connection.close()
        if isinstance(told, dict) and "error" in told:
            raise Failed(f"{way} {path.split('/')[-1]}: {told['error']}: {told['message'].splitlines()[0]}")
        return told

    def new(self, width=1280, height=1000):
        """A browser with a profile of its own."""
        profile = os.path.join(self.folder, f"profile-{len(self.browsers)}")
        words = ["--headless=new", "--disable-gpu", "--disable-dev-shm-usage", "--no-first-run", "--hide-scrollbars"]
        words += [f"--user-data-dir={profile}", f"--window-size={width},{height}"]
        # Its own sandbox refuses the user of a container.
        words += ["--no-sandbox"] if os.geteuid() == 0 else []
        options = {"binary": self.browser, "args": words}
        asked = {"capabilities": {"alwaysMatch": {"browserName": "chrome", "goog:chromeOptions": options, "goog:loggingPrefs": {"browser": "ALL"}}}}
        self.browsers.append(Browser(self, self.ask("POST", "/session", asked)["sessionId"], width))
        return self.browsers[-1]

    def stop(self):
        """Ends the browsers, the driver, and what else it started."""
        for it in self.browsers:
            with contextlib.suppress(Failed, OSError):
                it.close()
        with contextlib.suppress(ProcessLookupError):
            os.killpg(self.process.pid, signal.SIGKILL)
        self.process.wait(timeout=LONGEST)


class Browser:
    def __init__(self, driver, session, width):
        self.driver, self.session, self.width = driver, f"/session/{session}", width

    def ask(self, way, path, words=None):
        return self.driver.ask(way, self.session + path, words)

    def go(self, address):
        self.ask("POST", "/url", {"url": address})

    def run(self, script, *words):
        return self.ask("POST", "/execute/sync", {"script": script, "args": list(words)})

    def find(self, selector):
        return self.ask("POST", "/element", {"using": "css selector", "value": selector})[ELEMENT]

    def click(self, selector):
        self.ask("POST", f"/element/{self.find(selector)}/click", {})

    def give(self, selector, text):
        """Types into a field; into a field for files, the path of one."""
        self.ask("POST", f"/element/{self.find(selector)}/value", {"text": text})

    def clear(self, selector):
        self.ask("POST", f"/element/{self.find(selector)}/clear", {})

    def accept(self):
        """Accepts the question that the page asks. Returns it."""
        until = time.monotonic() + LONGEST
        while True:
            try:
                asked = self.ask("GET", "/alert/text")
                self.ask("POST", "/alert/accept", {})
                return asked
            except Failed:
                if time.monotonic() > until:
                    raise
                time.sleep(0.02)

    def press(self, *keys):
        """Keys of the keyboard, each down and up."""
        actions = [{"type": kind, "value": key} for key in keys for kind in ("keyDown", "keyUp")]
        self.ask("POST", "/actions", {"actions": [{"type": "key", "id": "keyboard", "actions": actions}]})

    def text(self, selector):
        return self.run("return document.querySelector(arguments[0])?.innerText ?? ''", selector)

    def wait(self, selector, holds, what):
        """Waits until a text is as wanted. Returns it."""
        until = time.monotonic() + LONGEST
        while not holds(text := self.text(selector)):
            if time.monotonic() > until:
                raise Failed(f"{what}: {selector} has {text[:300]!r}")
            time.sleep(0.02)
        return text

    def picture(self, path, width=None):
        """A picture of the whole page, also below the window."""
        width = width or self.width
        metrics = {"width": width, "height": 900, "deviceScaleFactor": 1, "mobile": width < 700}
        self.command("Emulation.setDeviceMetricsOverride", metrics)
        metrics["height"] = self.run("return Math.ceil(document.documentElement.scrollHeight)")
        self.command("Emulation.setDeviceMetricsOverride", metrics)
        found = self.command("Page.captureScreenshot", {"format": "png"})["data"]
        wide = self.run("return document.documentElement.scrollWidth")
        self.command("Emulation.clearDeviceMetricsOverride", {})
        with open(path, "wb") as file:
            file.write(base64.b64decode(found))
        return wide

    def command(self, name, words):
        return self.ask("POST", "/goog/cdp/execute", {"cmd": name, "params": words})

    def controls(self):
        """What a screen reader gets for all elements that take the keyboard, except the page itself."""
        nodes = self.command("Accessibility.getFullAXTree", {})["nodes"]
        focusable = [it for it in nodes if any(one["name"] == "focusable" and one["value"]["value"] for one in it.get("properties", []))]
        return [it for it in focusable if not it["ignored"] and it["role"]["value"] not in ("RootWebArea", "main")]

    def log(self):
        """What the browser complained about."""
        return [it["message"] for it in self.ask("POST", "/se/log", {"type": "browser"}) if it["level"] == "SEVERE"]

    def close(self):
        self.driver.ask("DELETE", self.session)
