"""A headless browser that tests drive, by the WebDriver protocol over HTTP."""

from __future__ import annotations

import base64
import json
import os
import shutil
import socket
import subprocess
import time
import urllib.error
import urllib.request
from typing import Any, Optional

DRIVER = shutil.which("chromedriver")
BROWSER = shutil.which("chromium")
MISSING = "" if DRIVER and BROWSER else "chromium-driver is not installed"

ELEMENT = "element-6066-11e4-a52e-4f735466cecf"
WORDS = ("--headless=new", "--no-sandbox", "--disable-gpu", "--disable-dev-shm-usage", "--no-first-run")
SECONDS = 20


class Failed(AssertionError):
    """The driver or the page did not do what was asked."""


def free_port() -> int:
    with socket.socket() as it:
        it.bind(("127.0.0.1", 0))
        port: int = it.getsockname()[1]
        return port


class Browser:
    """A browser with one window. Its downloads go into a folder."""

    def __init__(self, folder: str) -> None:
        self.folder, port = folder, free_port()
        self.at = f"http://127.0.0.1:{port}"
        environment = {**os.environ, "HOME": folder, "XDG_CONFIG_HOME": folder, "XDG_CACHE_HOME": folder}
        self.driver = subprocess.Popen(
            [str(DRIVER), f"--port={port}"], env=environment, stdout=subprocess.DEVNULL, stderr=subprocess.DEVNULL
        )
        self.session = ""
        self.wait_for_driver()
        options = {
            "binary": BROWSER,
            "args": [*WORDS, f"--user-data-dir={folder}/profile"],
        }
        wanted = {"goog:chromeOptions": options, "goog:loggingPrefs": {"browser": "ALL", "performance": "ALL"}}
        made = self.call("POST", "/session", {"capabilities": {"alwaysMatch": wanted}})
        self.session = f"/session/{made['sessionId']}"
        self.devtools("Browser.setDownloadBehavior", behavior="allow", downloadPath=folder)

    def wait_for_driver(self) -> None:
        last = time.monotonic() + SECONDS
        while time.monotonic() < last:
            try:
                if self.call("GET", "/status")["ready"]:
                    return
            except OSError:
                time.sleep(0.02)
        raise Failed("the driver does not answer")

    def close(self) -> None:
        try:
            self.call("DELETE", "")
        finally:
            self.driver.terminate()
            self.driver.wait()

    def call(self, method: str, path: str, body: Optional[dict[str, Any]] = None) -> Any:
        """What the driver answers."""
        data = json.dumps(body or {}).encode() if method == "POST" else None
        request = urllib.request.Request(self.at + self.session + path, data, method=method)
        request.add_header("Content-Type", "application/json")
        try:
            with urllib.request.urlopen(request, timeout=120) as answer:
                return json.load(answer)["value"]
        except urllib.error.HTTPError as error:
            raise Failed(json.load(error)["value"]["message"][:400]) from None

    def open(self, path: str) -> None:
        """Opens a file, and waits until its script says that it is ready."""
        self.call("POST", "/url", {"url": "file://" + path})
        self.wait("document.body && document.body.dataset.ready === 'yes'")

    def script(self, text: str, *words: Any) -> Any:
        return self.call("POST", "/execute/sync", {"script": text, "args": words})

    def value(self, text: str) -> Any:
        return self.script(f"return {text}")

    def wait(self, text: str) -> None:
        """Waits until something holds in the page."""
        last = time.monotonic() + SECONDS
        while time.monotonic() < last:
            if self.value(text):
                return
            time.sleep(0.005)
        raise Failed(f"waited in vain: {text}; said: {self.value('document.body.innerText.slice(0, 300)')}")

    def idle(self) -> None:
        self.wait("!game.busy")

    def find(self, selector: str) -> str:
        found: str = self.call("POST", "/element", {"using": "css selector", "value": selector})[ELEMENT]
        return found

    def click(self, selector: str) -> None:
        """Clicks an element as a mouse does."""
        self.call("POST", f"/element/{self.find(selector)}/click")

    def type(self, text: str, selector: str = "") -> None:
        """Types into an element, or where the focus is."""
        if selector:
            self.call("POST", f"/element/{self.find(selector)}/value", {"text": text})
            return
        keys = [{"type": kind, "value": letter} for letter in text for kind in ("keyDown", "keyUp")]
        self.call("POST", "/actions", {"actions": [{"type": "key", "id": "keys", "actions": keys}]})

    def text(self, selector: str) -> str:
        found: str = self.script("return document.querySelector(arguments[0]).innerText", selector)
        return found

    def devtools(self, command: str, **words: Any) -> Any:
        return self.call("POST", "/goog/cdp/execute", {"cmd": command, "params": words})

    def size(self, width: int, height: int) -> None:
        sizes = {"width": width, "height": height, "deviceScaleFactor": 1, "mobile": False}
        self.devtools("Emulation.setDeviceMetricsOverride", **sizes)

    def prefer(self, **features: str) -> None:
        """What the reader prefers, such as prefers_color_scheme="dark"."""
        wanted = [{"name": name.replace("_", "-"), "value": value} for name, value in features.items()]
        self.devtools("Emulation.setEmulatedMedia", features=wanted)

    def picture(self, path: str) -> None:
        with open(path, "wb") as file:
            file.write(base64.b64decode(self.call("GET", "/screenshot")))

    def tree(self) -> list[tuple[str, str]]:
        """The role and the name of all that a screen reader is handed."""
        nodes = self.devtools("Accessibility.getFullAXTree")["nodes"]
        kept = (node for node in nodes if not node.get("ignored"))
        return [(node["role"]["value"], node.get("name", {}).get("value", "")) for node in kept]

    def log(self, kind: str) -> list[dict[str, Any]]:
        found: list[dict[str, Any]] = self.call("POST", "/se/log", {"type": kind})
        return found

    def downloaded(self, selector: str, name: str) -> bytes:
        """The bytes of the file that a click downloads."""
        path = os.path.join(self.folder, name)
        if os.path.exists(path):
            os.remove(path)
        self.click(selector)
        last = time.monotonic() + SECONDS
        while time.monotonic() < last:
            if os.path.exists(path) and not os.path.exists(path + ".crdownload"):
                with open(path, "rb") as file:
                    return file.read()
            time.sleep(0.02)
        raise Failed(f"nothing was downloaded as {name}")
