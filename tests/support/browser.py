"""A page in a headless Chromium, by the WebDriver protocol of `chromedriver`."""

import base64
import json
import pathlib
import re
import sys
import time
import urllib.error
import urllib.request

ELEMENT = "element-6066-11e4-a52e-4f735466cecf"  # the name of an element in the answers of the protocol
PATIENCE = 60  # seconds


class Browser:
    """A page that is shown, pressed and read."""

    def __init__(self, driver):
        """Opens a page by a `chromedriver --port=0` whose output is read here for its port."""
        port = next(found[1] for line in driver.stdout if (found := re.search(r"on port (\d+)\.$", line.strip())))
        options = {"args": ["--headless=new", "--no-sandbox", "--disable-gpu", "--window-size=1200,900"]}
        wanted = {"capabilities": {"alwaysMatch": {"browserName": "chrome", "goog:chromeOptions": options,
                                                   "goog:loggingPrefs": {"browser": "ALL"}}}}
        self.root = f"http://127.0.0.1:{port}"
        self.root += f"/session/{self.ask('POST', '/session', wanted)['sessionId']}"

    def ask(self, method, path, body=None):
        data = json.dumps(body or {}).encode() if method == "POST" else None
        asked = urllib.request.Request(self.root + path, data, {"Content-Type": "application/json"}, method=method)
        try:
            with urllib.request.urlopen(asked, timeout=60) as answer:
                return json.load(answer)["value"]
        except urllib.error.HTTPError as refused:
            sys.exit(f"panel: the browser refuses {path} {body}: {json.load(refused)['value']['message'].splitlines()[0]}")

    def open(self, address):
        self.ask("POST", "/url", {"url": address})

    def close(self):
        self.ask("DELETE", "")

    def run(self, script, *given):
        return self.ask("POST", "/execute/sync", {"script": script, "args": list(given)})

    def press(self, name, number=None):
        """Presses a button by what it does, and by its number."""
        selector = f'button[data-act="{name}"]' + ("" if number is None else f'[data-number="{number}"]')
        found = self.ask("POST", "/element", {"using": "css selector", "value": selector})
        self.ask("POST", f"/element/{found[ELEMENT]}/click")

    def choose(self, selector, value=None):
        """Sets a slider, or chooses a button of a group, as a hand would."""
        self.run("const it = document.querySelector(arguments[0]);"
                 "if (it.type === 'radio') it.click();"
                 "else { it.value = arguments[1]; it.dispatchEvent(new Event('input', {bubbles: true})); }", selector, value)

    def text(self, name):
        """What is shown in a part of the page; nothing where it isn't shown."""
        return self.run("const it = document.getElementById(arguments[0]);"
                        "return it.checkVisibility({ visibilityProperty: true }) ? it.textContent : ''", name)

    def wait(self, what, holds):
        """Waits until something holds."""
        until = time.monotonic() + PATIENCE
        while not holds():
            if time.monotonic() > until:
                sys.exit(f"panel: waited in vain for: {what}")
            time.sleep(0.1)

    def be_wide(self, width, height):
        """Gives the page a width and a height, as those of a telephone."""
        metrics = {"width": width, "height": height, "deviceScaleFactor": 1, "mobile": False}
        self.ask("POST", "/goog/cdp/execute", {"cmd": "Emulation.setDeviceMetricsOverride", "params": metrics})

    def said(self):
        """What the browser said of faults of the page."""
        return [entry["message"] for entry in self.ask("POST", "/se/log", {"type": "browser"})]

    def picture(self, path):
        pathlib.Path(path).write_bytes(base64.b64decode(self.ask("GET", "/screenshot")))
