"""A headless Firefox that is driven by its own protocol, Marionette, without a driver beside it."""

from __future__ import annotations

import base64
import json
import shutil
import socket
import subprocess
import tempfile
import time
from pathlib import Path

FIREFOX = shutil.which("firefox-esr") or shutil.which("firefox")
IS_MISSING = FIREFOX is None
MISSING = "firefox-esr is missing"

PREFERENCES = """\
user_pref("marionette.port", 0);
user_pref("browser.shell.checkDefaultBrowser", false);
user_pref("datareporting.policy.dataSubmissionEnabled", false);
user_pref("toolkit.telemetry.reportingpolicy.firstRun", false);
user_pref("browser.aboutwelcome.enabled", false);
user_pref("app.update.enabled", false);
user_pref("network.captive-portal-service.enabled", false);
user_pref("network.connectivity-service.enabled", false);
"""
START_SECONDS = 60


def awaited(is_so, words, seconds):
    """Waits until something is so, and gives it. `AssertionError` where it does not come."""
    end = time.monotonic() + seconds
    while not (found := is_so()):
        if time.monotonic() > end:
            raise AssertionError(f"it did not come: {words}")
        time.sleep(0.05)
    return found


class Firefox:
    """A browser with one window, in a profile of its own."""

    def __init__(self, width=1280, height=720):
        self.folder = tempfile.TemporaryDirectory()
        profile = Path(self.folder.name)
        (profile / "user.js").write_text(PREFERENCES)
        words = [FIREFOX, "--headless", "--marionette", "--no-remote", "--profile", str(profile), f"--width={width}", f"--height={height}"]
        self.process = subprocess.Popen(words, stdout=subprocess.DEVNULL, stderr=subprocess.DEVNULL)
        self.number = 0
        self.connection = socket.create_connection(("127.0.0.1", self.port(profile / "MarionetteActivePort")), timeout=60)
        self.file = self.connection.makefile("rb")
        self.message()
        self.command("WebDriver:NewSession", capabilities={"alwaysMatch": {"acceptInsecureCerts": False}})

    def port(self, file):
        """The port at which it listens, once it does."""
        end = time.monotonic() + START_SECONDS
        while not (file.exists() and file.read_text().strip()):
            if time.monotonic() > end or self.process.poll() is not None:
                raise AssertionError("Firefox does not come")
            time.sleep(0.05)
        return int(file.read_text())

    def message(self):
        """The next message: its length, a colon, and JSON."""
        length = b""
        while not length.endswith(b":"):
            length += self.file.read(1)
        return json.loads(self.file.read(int(length[:-1])))

    def command(self, name, **words):
        """What a command gives. `AssertionError` where it fails."""
        self.number += 1
        text = json.dumps([0, self.number, name, words]).encode()
        self.connection.sendall(b"%d:%s" % (len(text), text))
        _, _, error, value = self.message()
        if error:
            raise AssertionError(f"{name}: {error['message']}")
        return value.get("value") if isinstance(value, dict) else value

    def open(self, address):
        self.command("WebDriver:Navigate", url=address)

    def script(self, text, *words):
        return self.command("WebDriver:ExecuteScript", script=text, args=list(words))

    def until(self, text, *words, seconds=20):
        """Waits until what a script gives is true, and gives it."""
        return awaited(lambda: self.script(f"return {text}", *words), text, seconds)

    def element(self, selector):
        return next(iter(self.command("WebDriver:FindElement", using="css selector", value=selector).values()))

    def click(self, selector):
        self.command("WebDriver:ElementClick", id=self.element(selector))

    def type(self, selector, text):
        self.command("WebDriver:ElementSendKeys", id=self.element(selector), text=text)

    def keys(self, *keys):
        """Presses keys at once, where the focus is."""
        presses = [{"type": "keyDown", "value": key} for key in keys] + [{"type": "keyUp", "value": key} for key in reversed(keys)]
        self.command("WebDriver:PerformActions", actions=[{"type": "key", "id": "keys", "actions": presses}])

    def point(self, x, y):
        """Clicks a pixel of the page."""
        clicks = [{"type": "pointerMove", "x": x, "y": y}, {"type": "pointerDown", "button": 0}, {"type": "pointerUp", "button": 0}]
        self.command("WebDriver:PerformActions", actions=[{"type": "pointer", "id": "mouse", "actions": clicks}])

    def picture(self):
        return base64.b64decode(self.command("WebDriver:TakeScreenshot", full=False))

    def pdf(self):
        """What the browser prints, in base 64."""
        return self.command("WebDriver:Print", orientation="landscape")

    def close(self):
        self.connection.close()
        self.process.terminate()
        self.process.wait(30)
        self.folder.cleanup()
