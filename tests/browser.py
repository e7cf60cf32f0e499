"""Chromium without a window, driven by the DevTools protocol over a pipe: JSON texts, each with a zero byte after it."""

from __future__ import annotations

import base64
import json
import os
import shutil
import subprocess
import tempfile
from typing import Any, Optional

NAMES = ("chromium-headless-shell", "chromium", "chromium-browser", "google-chrome")
Event = dict[str, Any]


def installed() -> Optional[str]:
    """The browser's path: CHROMIUM, or the first of the usual names."""
    return os.environ.get("CHROMIUM") or next((path for name in NAMES if (path := shutil.which(name))), None)


def started() -> Optional[Browser]:
    """A browser, where one is installed and starts."""
    path = installed()
    try:
        return Browser(path) if path else None
    except (EOFError, OSError):
        return None


class Browser:
    """A browser with one page; it keeps what the page wrote to the console, threw and requested."""

    def __init__(self, path: str) -> None:
        self.profile = tempfile.TemporaryDirectory(ignore_cleanup_errors=True)
        read_in, self.write = os.pipe()
        read_out, write_out = os.pipe()
        words = [
            path,
            "--headless",
            "--remote-debugging-pipe",
            "--disable-gpu",
            "--no-first-run",
            "--disable-extensions",
            "--disable-background-networking",
            "--disable-component-update",
            "--disable-dev-shm-usage",
            "--hide-scrollbars",
            f"--user-data-dir={self.profile.name}",
        ]
        words += ["--no-sandbox"] if os.geteuid() == 0 else []
        self.process = subprocess.Popen(
            ["bash", "-c", f'exec "$0" "$@" 3<&{read_in} 4>&{write_out}', *words],
            pass_fds=(read_in, write_out),
            stdin=subprocess.DEVNULL,
            stdout=subprocess.DEVNULL,
            stderr=subprocess.DEVNULL,
        )
        os.close(read_in)
        os.close(write_out)
        self.messages = os.fdopen(read_out, "rb")
        self.left = b""
        self.number = 0
        self.session: Optional[str] = None
        self.events: list[Event] = []
        target = self.call("Target.createTarget", url="about:blank")["targetId"]
        self.session = self.call("Target.attachToTarget", targetId=target, flatten=True)["sessionId"]
        for domain in ("Page", "Runtime", "Log", "Network"):
            self.call(f"{domain}.enable")

    def message(self) -> Event:
        """The next message of the browser."""
        while b"\0" not in self.left:
            piece = self.messages.read1(1 << 20)
            if not piece:
                raise EOFError("the browser ended")
            self.left += piece
        text, _, self.left = self.left.partition(b"\0")
        return json.loads(text)

    def call(self, method: str, **parameters: object) -> Event:
        """What a command of the protocol answers; events that come before are kept."""
        self.number += 1
        command = {"id": self.number, "method": method, "params": parameters}
        if self.session:
            command["sessionId"] = self.session
        text = memoryview(json.dumps(command).encode() + b"\0")
        while text:
            text = text[os.write(self.write, text) :]
        while True:
            it = self.message()
            if it.get("id") == self.number:
                if "error" in it:
                    raise RuntimeError(f"{method}: {it['error']['message']}")
                return it["result"]
            self.events.append(it)

    def run(self, script: str) -> Any:
        """The value of an expression of JavaScript in the page, waited for where it is a promise."""
        done = self.call("Runtime.evaluate", expression=script, returnByValue=True, awaitPromise=True)
        if "exceptionDetails" in done:
            raise RuntimeError(done["exceptionDetails"].get("exception", {}).get("description", done["exceptionDetails"]["text"]))
        return done["result"].get("value")

    def open(self, url: str) -> None:
        """Opens a page, and waits until it is whole. What an earlier page wrote and requested is forgotten."""
        self.call("Page.navigate", url="about:blank")
        self.events.clear()
        self.call("Page.navigate", url=url)
        self.run("new Promise((done) => (document.readyState === 'complete' ? done() : addEventListener('load', () => done())))")

    def key(self, key: str) -> None:
        """Presses a key: a letter, or one with a name."""
        codes = {"Tab": 9, "Enter": 13, "ArrowLeft": 37, "ArrowRight": 39}
        text = {"text": "\r" if key == "Enter" else key} if len(key) == 1 or key == "Enter" else {}
        self.call("Input.dispatchKeyEvent", type="keyDown", key=key, windowsVirtualKeyCode=codes.get(key, ord(key[0])), **text)
        self.call("Input.dispatchKeyEvent", type="keyUp", key=key, windowsVirtualKeyCode=codes.get(key, ord(key[0])))

    def size(self, width: int, height: int) -> None:
        self.call("Emulation.setDeviceMetricsOverride", width=width, height=height, deviceScaleFactor=1, mobile=False)

    def dark(self, is_dark: bool) -> None:
        """What prefers-color-scheme answers."""
        value = "dark" if is_dark else "light"
        self.call("Emulation.setEmulatedMedia", features=[{"name": "prefers-color-scheme", "value": value}])

    def screenshot(self, path: str, what: str) -> None:
        """Writes a picture of the element that a selector names."""
        box = self.run(
            f"(() => {{ const {{ x, y, width, height }} = document.querySelector({json.dumps(what)}).getBoundingClientRect(); "
            "return { x, y, width, height, scale: 1 }; })()"
        )
        done = self.call("Page.captureScreenshot", format="png", clip=box)
        with open(path, "wb") as file:
            file.write(base64.b64decode(done["data"]))

    def said(self) -> list[str]:
        """What the page wrote to the console and threw, and what the browser logged of it."""
        self.run("0")
        found = []
        for it in self.events:
            parameters = it.get("params", {})
            if it["method"] == "Runtime.consoleAPICalled":
                found.append(" ".join(str(argument.get("value")) for argument in parameters["args"]))
            elif it["method"] == "Runtime.exceptionThrown":
                found.append(str(parameters["exceptionDetails"].get("exception", {}).get("description")))
            elif it["method"] == "Log.entryAdded":
                found.append(parameters["entry"]["text"])
        return found

    def requested(self) -> list[str]:
        """The addresses that were requested, the page's own first."""
        return [it["params"]["request"]["url"] for it in self.events if it["method"] == "Network.requestWillBeSent"]

    def close(self) -> None:
        os.close(self.write)
        self.messages.close()
        self.process.kill()
        self.process.wait()
        self.profile.cleanup()
