"""Drive headless Chromium: open pages, and read their texts and faults. Every wait has a timeout."""
import base64
import contextlib
import json
import shutil
import time
from typing import Any

import pytest

pytest.importorskip("selenium.webdriver", reason="there is no python3-selenium here")

from selenium import webdriver
from selenium.common.exceptions import WebDriverException
from selenium.webdriver.chrome.service import Service
from selenium.webdriver.remote.remote_connection import RemoteConnection

from tests.program import Differs

# The timeout of a command to the driver, and of a wait for a page, in seconds.
SECONDS = 45
WIDE, NARROW = (1280, 900), (375, 812)
# A script that records from the start of a page: refusals of its policy, its faults, and texts of a source that ran.
NOTES = """
const look = () => {
  if (document.querySelector(".resources .row bdi")?.textContent) window.firstRow = performance.now();
  else requestAnimationFrame(look);
};
requestAnimationFrame(look);
window.refused = []; window.faults = []; window.ran = [];
document.addEventListener("securitypolicyviolation",
  (it) => window.refused.push(`${it.effectiveDirective} ${it.blockedURI}`));
addEventListener("error", (it) => window.faults.push(String(it.message)));
addEventListener("unhandledrejection", (it) => window.faults.push(String(it.reason)));
"""
OPTIONS = ["--headless=new", "--no-sandbox", "--disable-gpu", "--disable-dev-shm-usage", "--no-first-run",
           "--disable-extensions",
           "--hide-scrollbars", "--disable-background-networking", "--disable-component-update",
           "--no-proxy-server", "--force-device-scale-factor=1",
           "--ignore-certificate-errors", "--host-resolver-rules=MAP rebound.example 127.0.0.1"]


class Asking:
    """A browser whose pages run scripts of the tests."""

    patience: float = SECONDS
    # The longest wait for a page since the last reset.
    longest = 0.0

    def run(self, script: str, *arguments: Any) -> Any:
        """Return the value of a function's body in the page."""
        raise NotImplementedError

    def open(self, address: str, size: tuple[int, int] = WIDE, scheme: str = "light") -> None:
        """Open a page in a window of this many CSS pixels, in light or dark."""
        raise NotImplementedError

    def forget(self) -> None:
        """Leave the page, and drop the history. A browser keeps 50 entries, and first drops those without a user
        gesture, as the steps of tests.
        """
        raise NotImplementedError

    def press(self, key: str, text: str = "", code: int = 0, shift: bool = False) -> None:
        """Press a key."""
        raise NotImplementedError

    def hover(self, x: int, y: int) -> None:
        """Move the mouse to a place of the view, in CSS pixels."""
        raise NotImplementedError

    def point(self, selector: str) -> None:
        """Move the mouse onto the first element of a selector, and wait until its colours have changed."""
        script = """
            const it = document.querySelector(arguments[0]);
            it.scrollIntoView({ block: "center" });
            const box = it.getBoundingClientRect();
            return [Math.round(box.left + 20), Math.round(box.top + box.height / 2)];"""
        self.hover(*self.run(script, selector))
        self.until("return document.querySelector(arguments[0]).matches(':hover') && !document.getAnimations().length",
                   f"the mouse on {selector}", selector)

    def still(self, is_still: bool) -> None:
        """Set whether the reader wants reduced motion."""
        raise NotImplementedError

    def labels(self, selector: str) -> list[tuple[str, str, str]]:
        """Return the tags of all visible elements of a selector, with the roles and names that the browser computes."""
        raise NotImplementedError

    def close(self) -> None:
        """End the browser."""
        raise NotImplementedError

    def text(self, part: str) -> str:
        """Return the text of a part of the panel."""
        script = "return document.querySelector(`[data-part='${arguments[0]}']`)?.textContent ?? ''"
        return str(self.run(script, part)).strip()

    def until(self, script: str, what: str, *arguments: Any) -> Any:
        """Wait until a function's body returns a true value in the page."""
        begun = time.monotonic()
        while not (found := self.run(script, *arguments)):
            if time.monotonic() > begun + self.patience:
                shown = self.run("return document.body.innerText")[:400]
                raise Differs(f"{what}: not within {self.patience:.0f} seconds; the page says {shown!r}, "
                              f"{self.faults()}")
            time.sleep(0.02)
        self.longest = max(self.longest, time.monotonic() - begun)
        return found

    def equals(self, wanted: Any, script: str, *arguments: Any) -> None:
        """Wait until a function's body returns a value in the page."""
        value = json.dumps(wanted, ensure_ascii=False, separators=(",", ":"))
        same_value = f"return JSON.stringify((() => {{ {script} }})()) === arguments[arguments.length - 1]"
        self.until(same_value, f"the value {wanted!r} of {script}", *arguments, value)

    def state(self, word: str) -> None:
        """Wait until the state of the source has this word."""
        has_word = "return document.querySelector(`[data-part='state-word']`)?.textContent === arguments[0]"
        self.until(has_word, f"the state {word}", word)

    def click(self, part: str) -> None:
        """Click a part of the panel."""
        self.run("document.querySelector(`[data-part='${arguments[0]}']`).click()", part)

    def faults(self) -> dict[str, list[str]]:
        """Return the faults of the page's code, the refusals of its policy, and the texts of a source that ran."""
        script = "return {faults: window.faults ?? [], refused: window.refused ?? [], ran: window.ran ?? []}"
        found: dict[str, list[str]] = self.run(script)
        return found


class Browser(Asking):
    """Chromium, which opens one page after another."""

    def __init__(self, room: str, *more: str) -> None:
        options = webdriver.ChromeOptions()
        options.binary_location = shutil.which("chromium") or ""
        for option in [*OPTIONS, f"--user-data-dir={room}/chromium", *more]:
            options.add_argument(option)
        options.set_capability("goog:loggingPrefs", {"browser": "ALL"})
        RemoteConnection.set_timeout(SECONDS)
        self.driver = webdriver.Chrome(service=Service(shutil.which("chromedriver") or ""), options=options)
        self.patience = SECONDS
        self.driver.set_page_load_timeout(SECONDS)
        self.driver.set_script_timeout(SECONDS)
        self.tell("Page.addScriptToEvaluateOnNewDocument", source=NOTES)
        self.tell("Performance.enable", timeDomain="threadTicks")

    def tell(self, command: str, **words: Any) -> Any:
        """Send a command of the DevTools protocol."""
        return self.driver.execute_cdp_cmd(command, words)

    def size(self, width: int, height: int, scheme: str = "light", media: str = "") -> None:
        """Set the window's CSS pixels, light or dark, and screen or paper."""
        self.tell("Emulation.setDeviceMetricsOverride", width=width, height=height, deviceScaleFactor=1,
                  mobile=False)
        self.tell("Emulation.setEmulatedMedia", media=media,
                  features=[{"name": "prefers-color-scheme", "value": scheme}])

    def open(self, address: str, size: tuple[int, int] = WIDE, scheme: str = "light") -> None:
        """Open a page in a window of this many CSS pixels, in light or dark."""
        self.size(*size, scheme)
        self.driver.get(address)

    def forget(self) -> None:
        """Leave the page, and drop the history. A browser keeps 50 entries, and first drops those without a user
        gesture, as the steps of tests.
        """
        self.driver.get("about:blank")
        self.tell("Page.resetNavigationHistory")

    def run(self, script: str, *arguments: Any) -> Any:
        """Return the value of a function's body in the page."""
        return self.driver.execute_script(script, *arguments)

    def run_slowly(self, script: str, *arguments: Any) -> Any:
        """Return the value that a function's body later passes to its last argument."""
        return self.driver.execute_async_script(script, *arguments)

    def busy(self) -> float:
        """Return the processor milliseconds of the page's main thread since it was opened."""
        return 1_000 * self.metric("TaskDuration")

    def heap(self) -> float:
        """Return the bytes of the page's scripts after a garbage collection."""
        self.tell("HeapProfiler.collectGarbage")
        return self.metric("JSHeapUsedSize")

    def metric(self, name: str) -> float:
        """Return a measure of the page by its name."""
        return float(next(metric["value"] for metric in self.tell("Performance.getMetrics")["metrics"] if metric["name"]
                          == name))

    def press(self, key: str, text: str = "", code: int = 0, shift: bool = False) -> None:
        """Press a key."""
        words = {"key": key, "code": key, "windowsVirtualKeyCode": code, "modifiers": 8 if shift else 0}
        self.tell("Input.dispatchKeyEvent", type="keyDown", **words, **({"text": text} if text else {}))
        self.tell("Input.dispatchKeyEvent", type="keyUp", **words)

    def hover(self, x: int, y: int) -> None:
        """Move the mouse to a place of the view, in CSS pixels."""
        self.tell("Input.dispatchMouseEvent", type="mouseMoved", x=x, y=y)

    def still(self, is_still: bool) -> None:
        """Set whether the reader wants reduced motion."""
        value = "reduce" if is_still else "no-preference"
        self.tell("Emulation.setEmulatedMedia", media="",
                  features=[{"name": "prefers-reduced-motion", "value": value}])

    def labels(self, selector: str) -> list[tuple[str, str, str]]:
        """Return the tags of all visible elements of a selector, with the roles and names that the browser computes."""
        every = self.driver.find_elements("css selector", selector)
        found = [element for element in every if self.run("return arguments[0].checkVisibility()", element)]
        return [(element.tag_name, element.aria_role, element.accessible_name) for element in found]

    def picture(self) -> bytes:
        """Return a PNG of the view."""
        return base64.b64decode(self.tell("Page.captureScreenshot", format="png")["data"])

    def close(self) -> None:
        """End the browser."""
        with contextlib.suppress(WebDriverException, OSError):
            self.driver.quit()
