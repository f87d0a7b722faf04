"""A browser that is driven by the WebDriver protocol: Debian's chromium with its driver, without a screen."""
import base64
import json
import os
import shutil
import socket
import subprocess
import time
import urllib.error
import urllib.request

ELEMENT = "element-6066-11e4-a52e-4f735466cecf"
PATIENCE = 120  # seconds, for machines with much else to do


def missing():
    """What is not there of what a browser test needs."""
    return [name for name in ("chromium", "chromedriver") if not shutil.which(name)]


class Browser:
    """A window of a fresh browser; downloads go to `folder`."""

    def __init__(self, folder, width=1280, height=900, dark=False):
        with socket.socket() as free:
            free.bind(("127.0.0.1", 0))
            self.port = free.getsockname()[1]
        self.process = subprocess.Popen(["chromedriver", f"--port={self.port}"], stdout=subprocess.DEVNULL, stderr=subprocess.DEVNULL)
        self.session = ""
        flags = ["--headless=new", "--no-sandbox", "--disable-gpu", "--disable-dev-shm-usage", f"--window-size={width},{height}", f"--user-data-dir={folder}/profile"]
        if dark:
            flags.append("--force-dark-mode")
        options = {"args": flags, "prefs": {"download.default_directory": str(folder), "download.prompt_for_download": False}}
        wanted = {"capabilities": {"alwaysMatch": {"browserName": "chrome", "goog:chromeOptions": options, "goog:loggingPrefs": {"browser": "ALL"}}}}
        self.session = "/" + self._first(wanted)["sessionId"]
        self.send("POST", "/timeouts", {"script": 1000 * PATIENCE})

    def _first(self, wanted):
        for _ in range(10 * PATIENCE):
            try:
                return self.send("POST", "", wanted)
            except (urllib.error.URLError, ConnectionError):
                time.sleep(0.1)
        raise RuntimeError("chromedriver does not start")

    def send(self, method, path, body=None):
        data = None if body is None else json.dumps(body).encode()
        request = urllib.request.Request(f"http://127.0.0.1:{self.port}/session{self.session}{path}", data, {"Content-Type": "application/json"}, method=method)
        try:
            with urllib.request.urlopen(request, timeout=PATIENCE) as answer:
                return json.load(answer)["value"]
        except urllib.error.HTTPError as error:
            raise RuntimeError(f"{method} {path}: {json.load(error)['value']['message'][:500]}") from None

    def open(self, url):
        self.send("POST", "/url", {"url": url})

    def run(self, script, *arguments):
        return self.send("POST", "/execute/sync", {"script": script, "args": list(arguments)})

    def find(self, selector):
        return self.send("POST", "/element", {"using": "css selector", "value": selector})[ELEMENT]

    def click(self, selector):
        self.send("POST", f"/element/{self.find(selector)}/click", {})

    def type(self, selector, text):
        """Into the element; for a file's input the file's path."""
        self.send("POST", f"/element/{self.find(selector)}/value", {"text": text})

    def fill(self, selector, text):
        """In place of what stood there, as a person does: all chosen, then typed."""
        self.type(selector, "\ue009a\ue000" + text)

    def keys(self, text):
        """To whatever has the focus."""
        actions = [{"type": kind, "value": key} for key in text for kind in ("keyDown", "keyUp")]
        self.send("POST", "/actions", {"actions": [{"type": "key", "id": "keys", "actions": actions}]})

    def text(self, selector):
        return self.run("return document.querySelector(arguments[0]).innerText", selector)

    def until(self, script, seconds=PATIENCE):
        """What a script gives as soon as that is true."""
        end = time.time() + seconds
        while time.time() < end:
            found = self.run(script)
            if found:
                return found
            time.sleep(0.05)
        raise RuntimeError(f"not true after {seconds} s: {script}")

    def picture(self, path, whole=True):
        """The page as PNG, as long as it is."""
        if whole:
            size = self.run("return [innerWidth, Math.ceil(document.documentElement.scrollHeight)]")
            self.send("POST", "/goog/cdp/execute", {"cmd": "Emulation.setDeviceMetricsOverride", "params": {"width": size[0], "height": size[1], "deviceScaleFactor": 1, "mobile": False}})
        with open(path, "wb") as file:
            file.write(base64.b64decode(self.send("GET", "/screenshot")))
        if whole:
            self.send("POST", "/goog/cdp/execute", {"cmd": "Emulation.clearDeviceMetricsOverride", "params": {}})

    def media(self, scheme):
        """Light or dark, as the reader has chosen."""
        features = [{"name": "prefers-color-scheme", "value": scheme}]
        self.send("POST", "/goog/cdp/execute", {"cmd": "Emulation.setEmulatedMedia", "params": {"features": features}})

    def pdf(self):
        return base64.b64decode(self.send("POST", "/print", {"background": True, "page": {"width": 21.0, "height": 29.7}}))

    def faults(self):
        """What the page has told the console."""
        return [one["message"] for one in self.send("POST", "/se/log", {"type": "browser"}) if one["level"] == "SEVERE"]

    def close(self):
        try:
            self.send("DELETE", "")
        finally:
            self.process.terminate()
            self.process.wait()
