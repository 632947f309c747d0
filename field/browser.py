"""Chromium without a window, led through its driver (W3C WebDriver) by Python's standard library: Debian's packages chromium and
chromium-driver."""

import base64
import json
import socket
import subprocess
import tempfile
import time
import urllib.error
import urllib.request

ELEMENT = "element-6066-11e4-a52e-4f735466cecf"

# Seconds that the driver may take to begin, and a command.
BEGIN, LIMIT = 30, 60


class Browser:
    """A browser, which ends with the `with` that it is used in."""

    def __init__(self, width=1280, height=860, is_dark=False):
        self.size, self.is_dark, self.session = (width, height), is_dark, None

    def __enter__(self):
        with socket.socket() as probe:
            probe.bind(("127.0.0.1", 0))
            port = probe.getsockname()[1]
        self.place = f"http://127.0.0.1:{port}"
        self.folder = tempfile.TemporaryDirectory(prefix="notifyd-browser-", ignore_cleanup_errors=True)
        self.driver = subprocess.Popen(["chromedriver", f"--port={port}"], stdout=subprocess.DEVNULL, stderr=subprocess.DEVNULL)
        try:
            self.begin()
        except BaseException:
            self.__exit__()
            raise
        return self

    def begin(self):
        until = time.monotonic() + BEGIN
        while True:
            try:
                self.call("GET", "/status")
                break
            except OSError:
                if time.monotonic() > until:
                    raise
                time.sleep(0.1)
        words = [
            "--headless=new", "--no-sandbox", "--disable-gpu", "--disable-dev-shm-usage", "--hide-scrollbars", "--force-device-scale-factor=1",
            f"--window-size={self.size[0]},{self.size[1]}", f"--user-data-dir={self.folder.name}", "--lang=en-GB",
        ]
        wanted = {"browserName": "chrome", "goog:chromeOptions": {"args": words}, "goog:loggingPrefs": {"browser": "ALL"}}
        told = self.call("POST", "/session", {"capabilities": {"alwaysMatch": wanted}})
        self.session = f"/session/{told['sessionId']}"
        self.devtools("Emulation.setEmulatedMedia", {"features": [{"name": "prefers-color-scheme", "value": "dark" if self.is_dark else "light"}]})
        self.resize(*self.size)

    def __exit__(self, *_):
        if self.session:
            try:
                self.call("DELETE", self.session)
            except OSError:
                pass
        self.driver.terminate()
        self.driver.wait()
        self.folder.cleanup()

    def call(self, method, path, told=None):
        octets = None if told is None else json.dumps(told).encode()
        asked = urllib.request.Request(self.place + path, octets, {"Content-Type": "application/json"}, method=method)
        try:
            with urllib.request.urlopen(asked, timeout=LIMIT) as answer:
                return json.load(answer)["value"]
        except urllib.error.HTTPError as error:
            raise AssertionError(f"the browser: {json.load(error)['value']['message'][:300]}") from None

    def devtools(self, command, words):
        return self.call("POST", f"{self.session}/goog/cdp/execute", {"cmd": command, "params": words})

    def resize(self, width, height):
        """The page is so wide and so high, below what a window can be too."""
        self.devtools("Emulation.setDeviceMetricsOverride", {"width": width, "height": height, "deviceScaleFactor": 1, "mobile": False})

    def open(self, place):
        self.call("POST", f"{self.session}/url", {"url": place})

    def run(self, script, *words):
        """What a script of the page returns."""
        return self.call("POST", f"{self.session}/execute/sync", {"script": script, "args": list(words)})

    def press(self, keys):
        """Presses these keys, where the focus is."""
        found = self.call("GET", f"{self.session}/element/active")
        self.call("POST", f"{self.session}/element/{found[ELEMENT]}/value", {"text": keys})

    def wait(self, script, seconds=10):
        """Waits until a script returns something, and answers that."""
        until = time.monotonic() + seconds
        while True:
            told = self.run(script)
            if told:
                return told
            if time.monotonic() > until:
                raise AssertionError(f"not within {seconds} seconds: {script}")
            time.sleep(0.05)

    def errors(self):
        """What the page's console complains of."""
        return [it["message"] for it in self.call("POST", f"{self.session}/se/log", {"type": "browser"}) if it["level"] == "SEVERE"]

    def picture(self, place):
        octets = base64.b64decode(self.call("GET", f"{self.session}/screenshot"))
        with open(place, "wb") as file:
            file.write(octets)
