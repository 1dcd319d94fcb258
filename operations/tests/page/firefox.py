"""Drive headless Firefox by Marionette, its own protocol: Debian has no WebDriver for it.

A command is `LENGTH:[0, NUMBER, NAME, FIELDS]` on a connection of loopback, and its response
`LENGTH:[1, NUMBER, FAULT, VALUE]`
(https://firefox-source-docs.mozilla.org/testing/marionette/Protocol.html).
"""
import contextlib
import json
import pathlib
import shutil
import socket
import subprocess
import time
from typing import Any

from operations.tests.page.browser import SECONDS, WIDE, Asking
from tests.program import Differs
from tests.served_source import free_port

# Settings of a new profile: no downloads, no questions, no first page.
PREFERENCES = {
    "app.update.enabled": False, "browser.shell.checkDefaultBrowser": False, "browser.startup.page": 0,
    "datareporting.policy.dataSubmissionEnabled": False, "network.captive-portal-service.enabled": False,
    "network.connectivity-service.enabled": False, "toolkit.telemetry.enabled": False,
    "network.proxy.type": 0,
    "browser.safebrowsing.malware.enabled": False, "browser.safebrowsing.phishing.enabled": False,
    "extensions.update.enabled": False, "services.settings.server": "data:,",
    "accessibility.force_disabled": -1,
    "network.http.speculative-parallel-limit": 0, "browser.aboutwelcome.enabled": False,
    "layout.css.prefers-color-scheme.content-override": 1, "browser.zoom.siteSpecific": False,
}
# Seconds for a browser to start, which may take minutes on a busy machine.
PATIENT = 240
KEYS = {"Tab": "\ue004", "Enter": "\ue007", "Escape": "\ue00c", "ArrowDown": "\ue015", "ArrowUp": "\ue013",
        "Home": "\ue011", "End": "\ue010",
        "PageDown": "\ue00f"}
ELEMENT = "element-6066-11e4-a52e-4f735466cecf"


class Firefox(Asking):
    """Firefox, which opens one page after another."""

    def __init__(self, room: str) -> None:
        self.patience, self.number, self.port = SECONDS, 0, free_port()
        profile = pathlib.Path(room, "firefox")
        profile.mkdir()
        preferences = PREFERENCES | {"marionette.port": self.port}
        lines = "".join(f"user_pref({json.dumps(key)}, {json.dumps(value)});\n" for key,
                        value in preferences.items())
        profile.joinpath("user.js").write_text(lines)
        words = [shutil.which("firefox-esr"), "--marionette", "--remote-allow-system-access", "--headless",
                 "--no-remote", "--profile", str(profile), "about:blank"]
        self.process = subprocess.Popen([str(word) for word in words], stdout=subprocess.DEVNULL,
                                        stderr=subprocess.DEVNULL)
        try:
            self.connection = self.connected()
            self.read()
            self.tell("WebDriver:NewSession", acceptInsecureCerts=True, pageLoadStrategy="normal")
            self.tell("WebDriver:SetWindowRect", width=WIDE[0], height=WIDE[1] + 100)
        except BaseException:
            self.close()
            raise

    def connected(self) -> socket.socket:
        """Return the connection after the browser listens."""
        end = time.monotonic() + PATIENT
        while True:
            try:
                return socket.create_connection(("127.0.0.1", self.port), PATIENT)
            except OSError:
                if time.monotonic() > end or self.process.poll() is not None:
                    raise
                time.sleep(0.05)

    def read(self) -> Any:
        """Return the next message."""
        length = b""
        while not length.endswith(b":"):
            length += self.some(1)
        return json.loads(self.some(int(length[:-1])))

    def some(self, number: int) -> bytes:
        """Return this many bytes from the connection."""
        found = b""
        while len(found) < number:
            more = self.connection.recv(number - len(found))
            if not more:
                raise ConnectionError("Firefox has closed its connection")
            found += more
        return found

    def tell(self, command: str, **fields: Any) -> Any:
        """Send a command; return its value."""
        self.number += 1
        text = json.dumps([0, self.number, command, fields]).encode()
        self.connection.sendall(b"%d:%s" % (len(text), text))
        _, number, fault, value = self.read()
        if fault or number != self.number:
            raise Differs(f"Firefox, {command}: {str(fault)[:600]}")
        return value["value"] if isinstance(value, dict) and "value" in value else value

    def privileged(self, script: str, *arguments: Any) -> Any:
        """Return the value of a function's body in the browser's own context."""
        self.tell("Marionette:SetContext", value="chrome")
        try:
            return self.tell("WebDriver:ExecuteScript", script=script, args=list(arguments))
        finally:
            self.tell("Marionette:SetContext", value="content")

    def prefer(self, name: str, value: int) -> None:
        """Set a preference of the browser."""
        self.privileged("Services.prefs.setIntPref(arguments[0], arguments[1])", name, value)

    def size(self, width: int, height: int, scheme: str = "light", media: str = "") -> None:
        """Set the window's CSS pixels by the browser's zoom, and light or dark."""
        del height, media
        self.prefer("layout.css.prefers-color-scheme.content-override", int(scheme == "light"))
        self.privileged("gBrowser.selectedBrowser.fullZoom = arguments[0]", WIDE[0] / width)

    def still(self, is_still: bool) -> None:
        """Set whether the reader wants reduced motion."""
        self.prefer("ui.prefersReducedMotion", int(is_still))

    def open(self, address: str, size: tuple[int, int] = WIDE, scheme: str = "light") -> None:
        """Open a page."""
        self.size(*size, scheme)
        self.tell("WebDriver:Navigate", url=address)
        # (a page of another host starts without a zoom)
        self.size(*size, scheme)
        # (the zoom is a multiple of 1/60 of a pixel, so a window of 375 pixels has 384)
        self.until("return Math.abs(innerWidth / arguments[0] - 1) < 0.05", f"a window of {size[0]} pixels",
                   size[0])

    def forget(self) -> None:
        """Leave the page, and drop the history."""
        self.tell("WebDriver:Navigate", url="about:blank")
        self.privileged("gBrowser.selectedBrowser.purgeSessionHistory()")

    def run(self, script: str, *arguments: Any) -> Any:
        """Return the value of a function's body in the page."""
        return self.tell("WebDriver:ExecuteScript", script=script, args=list(arguments), sandbox=None)

    def press(self, key: str, text: str = "", code: int = 0, shift: bool = False) -> None:
        """Press a key."""
        del code, shift
        value = KEYS.get(key, text or key)
        actions = [{"type": "keyDown", "value": value}, {"type": "keyUp", "value": value}]
        self.tell("WebDriver:PerformActions", actions=[{"type": "key", "id": "keys", "actions": actions}])

    def hover(self, x: int, y: int) -> None:
        """Move the mouse to a place of the view, in CSS pixels."""
        move = {"type": "pointerMove", "x": x, "y": y}
        self.tell("WebDriver:PerformActions", actions=[{"type": "pointer", "id": "mouse", "actions": [move]}])

    def labels(self, selector: str) -> list[tuple[str, str, str]]:
        """Return the tags of all visible elements of a selector, with the roles and names that the browser computes."""
        found = []
        for element in self.tell("WebDriver:FindElements", using="css selector", value=selector):
            if self.run("return arguments[0].checkVisibility()", element):
                tag = self.tell("WebDriver:GetElementTagName", id=element[ELEMENT])
                role = self.tell("WebDriver:GetComputedRole", id=element[ELEMENT])
                found.append((tag, role, self.tell("WebDriver:GetComputedLabel", id=element[ELEMENT])))
        return found

    def close(self) -> None:
        """End the browser."""
        with contextlib.suppress(AttributeError, OSError, Differs, ValueError):
            self.tell("Marionette:Quit", flags=["eForceQuit"])
        with contextlib.suppress(subprocess.TimeoutExpired):
            self.process.wait(10)
        self.process.kill()
