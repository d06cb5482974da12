"""A browser without a window, driven by the WebDriver protocol (W3C) of chromedriver."""
import base64
import json
import subprocess
import time
import urllib.error
import urllib.request

ELEMENT = "element-6066-11e4-a52e-4f735466cecf"
KEYS = {"enter": "\ue007", "tab": "\ue004", "escape": "\ue00c", "down": "\ue015", "space": " "}


class Browser:
    def __init__(self, port, width=1280, height=1000):
        self.driver = subprocess.Popen(["chromedriver", f"--port={port}", "--silent"],
                                       stdout=subprocess.DEVNULL, stderr=subprocess.DEVNULL)
        self.at = f"http://127.0.0.1:{port}"
        self.session = ""
        words = ["--headless=new", "--no-sandbox", "--disable-gpu", "--hide-scrollbars",
                 "--lang=en", f"--window-size={width},{height}"]
        wanted = {"browserName": "chrome", "goog:chromeOptions": {"args": words}}
        self.until(lambda: self.ask("GET", "/status")["ready"])
        made = self.ask("POST", "/session", {"capabilities": {"alwaysMatch": wanted}})
        self.session = f"/session/{made['sessionId']}"

    def ask(self, method, path, body=None):
        data = None if body is None else json.dumps(body).encode()
        request = urllib.request.Request(self.at + path, data, {"Content-Type": "application/json"},
                                         method=method)
        try:
            with urllib.request.urlopen(request, timeout=60) as reply:
                return json.load(reply)["value"]
        except urllib.error.HTTPError as error:
            raise RuntimeError(json.load(error)["value"]["message"]) from None

    def do(self, what, body=None):
        return self.ask("POST", self.session + what, body or {})

    def until(self, test, seconds=60):
        """Waits for a test to hold; what fails meanwhile is tried again."""
        end = time.monotonic() + seconds
        while True:
            try:
                if test():
                    return True
            except (OSError, LookupError, RuntimeError):
                pass
            if time.monotonic() > end:
                return False
            time.sleep(0.05)

    def open(self, address):
        self.do("/url", {"url": address})

    def run(self, script, *words):
        return self.do("/execute/sync", {"script": script, "args": list(words)})

    def find(self, selector):
        return self.do("/element", {"using": "css selector", "value": selector})[ELEMENT]

    def press(self, selector):
        self.run("document.querySelector(arguments[0]).scrollIntoView({ block: 'center' })",
                 selector)
        self.do(f"/element/{self.find(selector)}/click")

    def type(self, selector, text):
        """Puts a text in place of what a field has, key by key."""
        field = self.find(selector)
        self.do(f"/element/{field}/clear")
        self.do(f"/element/{field}/value", {"text": text})

    def keys(self, *names):
        """Presses keys on whatever has the focus."""
        actions = []
        for name in names:
            for key in [KEYS[name]] if name in KEYS else name:
                actions += [{"type": "keyDown", "value": key}, {"type": "keyUp", "value": key}]
        self.do("/actions", {"actions": [{"type": "key", "id": "keys", "actions": actions}]})

    def drag(self, selector, start, end):
        """Drags a mouse between two points of an element, given from its middle."""
        origin = {ELEMENT: self.find(selector)}
        move = lambda point: {"type": "pointerMove", "origin": origin, "duration": 50,
                              "x": point[0], "y": point[1]}
        actions = [move(start), {"type": "pointerDown", "button": 0}, move(end),
                   {"type": "pointerUp", "button": 0}]
        self.do("/actions", {"actions": [{"type": "pointer", "id": "mouse", "actions": actions}]})

    def texts(self, selector):
        return self.run("return [...document.querySelectorAll(arguments[0])]"
                        ".filter(e => e.checkVisibility()).map(e => e.innerText)", selector)

    def picture(self, path):
        data = self.ask("GET", self.session + "/screenshot")
        with open(path, "wb") as file:
            file.write(base64.b64decode(data))

    def told(self, command, **words):
        """A command of the DevTools protocol."""
        return self.do("/goog/cdp/execute", {"cmd": command, "params": words})

    def close(self):
        try:
            self.ask("DELETE", self.session)
        finally:
            self.driver.terminate()
            self.driver.wait()
