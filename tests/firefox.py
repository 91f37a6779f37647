"""Drives a headless Firefox by WebDriver BiDi, over the WebSocket of Debian's python3-websocket.

https://w3c.github.io/webdriver-bidi explains its methods. The driver has the calls of browser.Browser that most tests
need. Debian has no geckodriver, so Selenium cannot drive Firefox.
"""
import json
import os
import re
import shutil
import subprocess
import tempfile
import threading

# it also lets Python look among Debian's packages
from tests import browser
from tests.needed import program_of

try:
    import websocket
except ImportError:
    websocket = None

PREFERENCES = {"ui.prefersReducedMotion": 1, "browser.shell.checkDefaultBrowser": False}


def value_of(remote):
    """A value as Python has it."""
    kind, value = remote["type"], remote.get("value")
    if kind in ("array", "set", "nodelist", "htmlcollection"):
        return [value_of(it) for it in value or []]
    if kind in ("object", "map"):
        return {key if isinstance(key, str) else value_of(key): value_of(it) for key, it in value or []}
    return value if kind in ("string", "number", "boolean") else None


class Browser(browser.Driven):
    def __init__(self, width=1280, height=900):
        self.folder = tempfile.mkdtemp(prefix="rdsrt-page-")
        self.number, self.events = 0, []
        with open(os.path.join(self.folder, "user.js"), "w", encoding="utf-8") as prefs:
            prefs.writelines(f"user_pref({json.dumps(name)}, {json.dumps(value)});\n"
                             for name, value in PREFERENCES.items())
        words = [program_of("firefox-esr"), "--headless", "--remote-debugging-port", "0", "--profile", self.folder]
        self.process = subprocess.Popen(words, stdout=subprocess.DEVNULL, stderr=subprocess.PIPE)
        host, port = self.address()
        # Firefox refuses a client that names an origin
        self.socket = websocket.create_connection(f"ws://{host}:{port}/session", timeout=browser.SECONDS,
                                                  suppress_origin=True, skip_utf8_validation=True,
                                                  http_no_proxy=[host])
        # a full pipe would stop the browser
        threading.Thread(target=self.process.stderr.read, daemon=True).start()
        self.ask("session.new", capabilities={})
        self.context = self.ask("browsingContext.getTree")["contexts"][0]["context"]
        self.ask("session.subscribe", events=["log.entryAdded", "network.beforeRequestSent"])
        self.size(width, height)

    def address(self):
        """Where the browser listens, which it says on its standard error."""
        for line in self.process.stderr:
            told = re.search(rb"listening on ws://([\d.]+):(\d+)", line)
            if told:
                return told[1].decode(), int(told[2])
        raise EOFError("the browser ended")

    def ask(self, method, **params):
        """The answer of a method; what the browser tells meanwhile is kept in `events`."""
        self.number += 1
        self.socket.send(json.dumps({"id": self.number, "method": method, "params": params}))
        while True:
            text = self.socket.recv()
            if not text:
                raise EOFError("the browser ended")
            got = json.loads(text)
            if got.get("id") != self.number:
                self.events.append(got)
            elif got["type"] == "error":
                raise RuntimeError(f"{method}: {got['error']}: {got['message']}")
            else:
                return got["result"]

    def size(self, width, height):
        self.ask("browsingContext.setViewport", context=self.context, viewport={"width": width, "height": height})

    def before_load(self, script):
        """Runs the script before those of each page that is loaded from now on; gives what takes it away again."""
        number = self.ask("script.addPreloadScript", functionDeclaration=f"() => {{ {script} }}")["script"]
        return lambda: self.ask("script.removePreloadScript", script=number)

    def go(self, url):
        self.ask("browsingContext.navigate", context=self.context, url="about:blank", wait="complete")
        self.ask("browsingContext.navigate", context=self.context, url=url, wait="complete")

    def run(self, text):
        got = self.ask("script.evaluate", expression=text, target={"context": self.context}, awaitPromise=True,
                       userActivation=True, serializationOptions={"maxObjectDepth": 99})
        if got["type"] == "exception":
            raise RuntimeError(got["exceptionDetails"]["text"])
        return value_of(got["result"])

    def act(self, kind, actions):
        self.ask("input.performActions", context=self.context, actions=[{"type": kind, "id": kind, "actions": actions}])

    def complaints(self):
        """What the browser's console has of errors and warnings."""
        return [it["text"] for it in self.told("log.entryAdded") if it["level"] in ("error", "warn")]

    def fetched(self):
        """The addresses that were asked for."""
        return [it["request"]["url"] for it in self.told("network.beforeRequestSent")]

    def close(self):
        try:
            self.ask("browser.close")
        except (OSError, EOFError, RuntimeError, websocket.WebSocketException):
            self.process.kill()
        self.socket.shutdown()
        try:
            self.process.wait(browser.SECONDS)
        except subprocess.TimeoutExpired:
            self.process.kill()
        shutil.rmtree(self.folder, ignore_errors=True)
