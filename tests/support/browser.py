"""Headless Chromium for tests that look at pages: what a person sees there, taps and types."""

import base64
import contextlib
import json
import os
import re
import shutil
import subprocess
import time
from pathlib import Path
from typing import Any, Callable, Dict, List, Optional

from geesefuton.processes import Children

# Keys by their names: the code that a browser knows, and the text that they type.
KEYS = {"Tab": (9, ""), "Enter": (13, "\r"), "Escape": (27, ""), "Space": (32, " "),
        "ArrowLeft": (37, ""), "ArrowUp": (38, ""), "ArrowRight": (39, ""), "ArrowDown": (40, "")}
SHIFT = 8  # as the protocol has it
MOST = 120.0  # seconds that a page may take to show something, on a busy machine
ENDING = 30.0  # seconds that Chromium may take to end, on a busy machine
FOCUSED = "document.activeElement.getAttribute('aria-label') || document.activeElement.innerText " \
    "|| document.activeElement.id"
# The middle of the first element of some kind that is seen and has a text; null if there is none.
FIND = """(() => {
  const says = each => each.getAttribute("aria-label") || each.innerText;
  const isUsable = each => !each.disabled && each.getAttribute("aria-disabled") !== "true"
    && each.offsetParent;
  const found = [...document.querySelectorAll(%s)].find(each => isUsable(each)
    && new RegExp(%s).test(says(each)));
  if (!found) return null;
  found.scrollIntoView({ block: "center" });
  const box = found.getBoundingClientRect(), x = box.x + box.width / 2, y = box.y + box.height / 2;
  const top = document.elementFromPoint(x, y);
  return top && (found.contains(top) || top.contains(found)) ? [x, y] : null;
})()"""


class BrowserError(Exception):
    """A page could not be looked at."""


def is_seen(is_there: Callable[[], bool], most: float) -> bool:
    """Waits until something is there, for so many seconds at most; whether it was."""
    until = time.monotonic() + most
    while not is_there():
        if time.monotonic() > until:
            return False
        time.sleep(0.05)
    return True


def wait_for(what: str, is_there: Callable[[], bool], most: float = MOST) -> None:
    """Waits until something is seen, for so many seconds at most.

    Raises:
        BrowserError: It is not.
    """
    if not is_seen(is_there, most):
        raise BrowserError(f"not seen: {what}")


class Browser:
    """Headless Chromium, told by the DevTools protocol what to do, over two pipes."""

    def __init__(self, children: Children) -> None:
        here, theirs = os.pipe(), os.pipe()
        file = shutil.which("chromium")
        assert file is not None
        # The protocol is spoken over the descriptors 3 and 4.
        words = ["sh", "-c", 'exec "$0" "$@" 3<&%d 4>&%d' % (here[0], theirs[1]), file,
                 "--headless", "--no-sandbox", "--disable-gpu", "--remote-debugging-pipe",
                 f"--user-data-dir={children.folder('browser')}", "about:blank"]
        self._process = children.start(words, pass_fds=(here[0], theirs[1]),
                                       stdin=subprocess.DEVNULL, stdout=subprocess.DEVNULL,
                                       stderr=subprocess.DEVNULL)
        os.close(here[0])
        os.close(theirs[1])
        self._to, self._from, self._rest, self._number = here[1], theirs[0], b"", 0

    def close(self) -> None:
        """Ends it. If it is killed, it leaves temporary files."""
        with contextlib.suppress(BrowserError, OSError, subprocess.TimeoutExpired):
            self.call("Browser.close")
            self._process.wait(ENDING)
        os.close(self._to)
        os.close(self._from)

    def call(self, method: str, session: Optional[str] = None, **words: Any) -> Dict[str, Any]:
        """Calls a method, and gives its result. Events in between are skipped."""
        self._number += 1
        message: Dict[str, Any] = {"id": self._number, "method": method, "params": words}
        if session is not None:
            message["sessionId"] = session
        os.write(self._to, json.dumps(message).encode() + b"\0")
        while True:
            answer = self._next()
            if answer.get("id") == self._number:
                if "error" in answer:
                    raise BrowserError(f"{method}: {answer['error'].get('message')}")
                result: Dict[str, Any] = answer["result"]
                return result

    def _next(self) -> Dict[str, Any]:
        while b"\0" not in self._rest:
            piece = os.read(self._from, 1 << 16)
            if not piece:
                raise BrowserError("Chromium has ended")
            self._rest += piece
        text, _, self._rest = self._rest.partition(b"\0")
        message: Dict[str, Any] = json.loads(text)
        return message


class Tab:
    """A page that a person looks at.

    Args:
        browser: Where it is opened.
        address: Its address.
        width, height: The size of the screen, in CSS pixels.
    """

    def __init__(self, browser: Browser, address: str, width: int = 390, height: int = 844) -> None:
        self._browser = browser
        # A context has links of its own, as a browser on another machine would.
        context = browser.call("Target.createBrowserContext")["browserContextId"]
        target = browser.call("Target.createTarget", url="about:blank", newWindow=True,
                              browserContextId=context)["targetId"]
        self._session: str = browser.call("Target.attachToTarget", targetId=target,
                                          flatten=True)["sessionId"]
        self.call("Emulation.setDeviceMetricsOverride", width=width, height=height,
                  deviceScaleFactor=1, mobile=width < 600)
        self.call("Page.navigate", url=address)

    def call(self, method: str, **words: Any) -> Dict[str, Any]:
        """Calls a method of this page."""
        return self._browser.call(method, self._session, **words)

    def value(self, code: str) -> Any:
        """The value of an expression in the page."""
        told = self.call("Runtime.evaluate", expression=code, returnByValue=True)
        return told["result"].get("value")

    def sees(self, pattern: str) -> bool:
        """Whether a text is on the page."""
        return re.search(pattern, self.value("document.body.innerText") or "") is not None

    def tap(self, kind: str, pattern: str) -> bool:
        """Taps what is seen and has a text; whether there was such a thing."""
        place = self.value(FIND % (json.dumps(kind), json.dumps(pattern)))
        if place is None:
            return False
        for event in ("mousePressed", "mouseReleased"):
            self.call("Input.dispatchMouseEvent", type=event, x=place[0], y=place[1],
                      button="left", clickCount=1)
        return True

    def press(self, *keys: str, shift: bool = False) -> None:
        """Presses keys, one after the other: of `KEYS`, or that type a letter or a digit."""
        for key in keys:
            code, text = KEYS.get(key, (ord(key[0].upper()), key))
            words: Dict[str, Any] = {"key": " " if key == "Space" else key, "code": key,
                                     "windowsVirtualKeyCode": code,
                                     "modifiers": SHIFT if shift else 0}
            self.call("Input.dispatchKeyEvent", type="keyDown" if text else "rawKeyDown",
                      **words, **({"text": text} if text else {}))
            self.call("Input.dispatchKeyEvent", type="keyUp", **words)

    def focused(self) -> str:
        """What has the focus."""
        return str(self.value(FOCUSED) or "")

    def reach(self, pattern: str, key: str = "Tab", shift: bool = False) -> None:
        """Goes on by a key until something has the focus.

        Raises:
            BrowserError: It never has.
        """
        for _ in range(40):
            if re.search(pattern, self.focused()):
                return
            self.press(key, shift=shift)
        raise BrowserError(f"the key {key} does not lead to {pattern}; it is at {self.focused()}")

    def nodes(self) -> List[Dict[str, str]]:
        """What a screen reader is given: the role, the name and the value of each thing."""
        tree = self.call("Accessibility.getFullAXTree")["nodes"]
        return [{kind: str(each.get(kind, {}).get("value", ""))
                 for kind in ("role", "name", "value")}
                for each in tree if not each.get("ignored")]

    def picture(self, file: Path) -> None:
        """Keeps what is seen, as PNG."""
        told = self.call("Page.captureScreenshot", format="png")
        file.write_bytes(base64.b64decode(told["data"]))

    def close(self) -> None:
        """Closes the page."""
        self.call("Page.close")
