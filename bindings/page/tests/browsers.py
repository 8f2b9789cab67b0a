"""Chromium and Firefox without a window, driven by what they offer themselves: the DevTools protocol over a pipe, and
Marionette over a socket (Mozilla's remote protocol). Each runs scripts in a page as it is."""

from __future__ import annotations

import base64
import fcntl
import json
import os
import shutil
import signal
import socket
import subprocess
import tempfile
import time
from collections.abc import Callable
from typing import Any


class Fault(Exception):
    """A script of a test failed, or the browser ended."""


def end(browser: subprocess.Popen[bytes]) -> None:
    """Ends a browser, which leads a session of its own, with its processes."""
    for kind, patience in ((signal.SIGTERM, 10), (signal.SIGKILL, None)):
        try:
            os.killpg(browser.pid, kind)
            browser.wait(patience)
            return
        except ProcessLookupError:
            return
        except subprocess.TimeoutExpired:
            continue


class Chromium:
    """Chromium. `width` and `height` are those of its window."""

    programs = ("chromium", "chromium-browser", "google-chrome")

    def __init__(self, program: str, width: int = 1240, height: int = 1100, flags: tuple[str, ...] = ()) -> None:
        self.folder = tempfile.mkdtemp()
        down, self.to = os.pipe()
        self.come, up = os.pipe()

        def place() -> None:
            # The browser reads descriptor 3 and writes descriptor 4. The copies are others than these, which would be
            # closed as it begins.
            one, other = fcntl.fcntl(down, fcntl.F_DUPFD, 5), fcntl.fcntl(up, fcntl.F_DUPFD, 5)
            os.dup2(one, 3)
            os.dup2(other, 4)

        words = [program, "--headless", "--no-sandbox", "--disable-gpu", "--remote-debugging-pipe", "--no-first-run",
            "--hide-scrollbars"]
        words += [f"--user-data-dir={self.folder}", f"--window-size={width},{height}", *flags, "about:blank"]
        self.ran = subprocess.Popen(words, preexec_fn=place, close_fds=False, stdout=subprocess.DEVNULL,
            stderr=subprocess.DEVNULL, start_new_session=True)
        os.close(down)
        os.close(up)
        self.left, self.number, self.session, self.events = b"", 0, "", list[dict[str, Any]]()
        self.is_held = False
        self.name = self.ask("Browser.getVersion")["product"]
        page = next(it for it in self.ask("Target.getTargets")["targetInfos"] if it["type"] == "page")
        self.attach(page["targetId"])

    def attach(self, target: str) -> None:
        """Goes to a page, which has the focus from then on, as one that a planner sees."""
        self.session = self.ask("Target.attachToTarget", targetId=target, flatten=True)["sessionId"]
        for domain in ("Page", "Runtime", "Log", "Network"):
            self.ask(f"{domain}.enable")
        self.ask("Emulation.setFocusEmulationEnabled", enabled=True)

    def ask(self, method: str, **words: object) -> Any:
        """The answer to a command."""
        self.number += 1
        said = {"id": self.number, "method": method, "params": words} | (
            {"sessionId": self.session} if self.session else {})
        data = json.dumps(said).encode() + b"\0"
        while data:
            data = data[os.write(self.to, data) :]
        while True:
            told = self.read()
            if told.get("id") == self.number:
                if "error" in told:
                    raise Fault(told["error"])
                return told["result"]
            self.take(told)

    def read(self) -> dict[str, Any]:
        while b"\0" not in self.left:
            more = os.read(self.come, 1 << 20)
            if not more:
                raise Fault("the browser has ended")
            self.left += more
        one, _, self.left = self.left.partition(b"\0")
        return dict(json.loads(one))

    def take(self, event: dict[str, Any]) -> None:
        """Keeps an event; a dialog, as that before a page is left, is agreed to."""
        self.events.append(event)
        if event.get("method") == "Page.javascriptDialogOpening":
            said = {"id": 0, "method": "Page.handleJavaScriptDialog", "params": {"accept": True},
                "sessionId": self.session}
            os.write(self.to, json.dumps(said).encode() + b"\0")

    def open(self, url: str) -> None:
        """Opens a page, or loads it anew where it is that one."""
        self.ask("Page.navigate", url=url)
        while not any(it.get("method") == "Page.loadEventFired" for it in self.events):
            self.take(self.read())
        self.events = [it for it in self.events if it.get("method") != "Page.loadEventFired"]

    def tab(self) -> str:
        """Goes to a new tab, and says in which one it was before."""
        before, self.session = self.session, ""
        target = self.ask("Target.createTarget", url="about:blank")["targetId"]
        self.attach(target)
        return before

    def go(self, tab: str) -> None:
        """Goes to a tab."""
        self.session = tab

    def run(self, script: str, limit: int = 0) -> Any:
        """The value of an async function's body. A limit in milliseconds ends a body that waits for nothing."""
        more = {"timeout": limit} if limit else {}
        told = self.ask("Runtime.evaluate", expression=f"(async () => {{{script}}})()", awaitPromise=True,
            returnByValue=True, userGesture=True, **more)
        if "exceptionDetails" in told:
            raise Fault(json.dumps(told["exceptionDetails"])[:2000])
        return told["result"].get("value")

    def key(self, key: str, modifiers: int = 0) -> None:
        """Presses a key, as a planner does; 2 is Control, 8 is Shift."""
        text = {"text": "\r" if key == "Enter" else key} if (len(key) == 1 or key == "Enter") and not modifiers else {}
        codes = {"Tab": 9, "Enter": 13, "ArrowUp": 38, "ArrowDown": 40, "ArrowLeft": 37, "ArrowRight": 39,
            "Backspace": 8, "Escape": 27, "PageUp": 33, "PageDown": 34}
        more = {"windowsVirtualKeyCode": codes.get(key, ord(key.upper()[0]))}
        self.ask("Input.dispatchKeyEvent", type="keyDown", key=key, modifiers=modifiers, **text, **more)
        self.ask("Input.dispatchKeyEvent", type="keyUp", key=key, modifiers=modifiers, **more)

    def point(self, does: str, x: float, y: float) -> None:
        """Moves the pointer to a place of the window, where it is then `Pressed` or `Released`, or only `Moved`."""
        self.is_held = does == "Pressed" or (does == "Moved" and self.is_held)
        for kind in dict.fromkeys(("Moved", does)):
            self.ask("Input.dispatchMouseEvent", type=f"mouse{kind}", x=x, y=y, clickCount=1,
                button="left" if self.is_held or kind != "Moved" else "none", buttons=int(self.is_held))

    def record(self) -> None:
        """Has the browser record the tasks of its threads."""
        self.ask("Tracing.start", transferMode="ReportEvents",
            traceConfig={"includedCategories": ["toplevel"], "traceBufferSizeInKb": 400000})

    def recorded(self) -> list[dict[str, Any]]:
        """The events that were recorded."""
        self.ask("Tracing.end")
        while not any(it.get("method") == "Tracing.tracingComplete" for it in self.events):
            self.take(self.read())
        found = [event for it in self.events if it.get("method") == "Tracing.dataCollected"
            for event in it["params"]["value"]]
        self.events = [it for it in self.events if not it.get("method", "").startswith("Tracing.")]
        return found

    def downloads(self, folder: str) -> None:
        """Has files that are saved go into a folder."""
        session, self.session = self.session, ""
        self.ask("Browser.setDownloadBehavior", behavior="allow", downloadPath=folder)
        self.session = session

    def faults(self) -> list[str]:
        """What the page told the console, or what it asked the network for, since the last time."""
        kinds = ("Log.entryAdded", "Runtime.exceptionThrown", "Runtime.consoleAPICalled")
        found = [json.dumps(it["params"])[:400] for it in self.events if it.get("method") in kinds]
        asked = (it["params"]["request"]["url"] for it in self.events
            if it.get("method") == "Network.requestWillBeSent")
        found += [f"asked for {url[:100]}" for url in asked if not url.startswith(("file:", "blob:", "data:"))]
        self.events = []
        return found

    def dialogs(self) -> list[str]:
        """The kinds of the dialogs that were shown, since faults were asked for."""
        return [it["params"]["type"] for it in self.events if it.get("method") == "Page.javascriptDialogOpening"]

    def picture(self, path: str, whole: bool = True) -> None:
        """Leaves a picture of the page, or of what is in the window."""
        if whole:
            # Rows that nobody sees are not painted, so the window gets the height of the page.
            size = self.ask("Page.getLayoutMetrics")["cssContentSize"]
            self.ask("Emulation.setDeviceMetricsOverride", width=size["width"], height=size["height"],
                deviceScaleFactor=1, mobile=False)
            self.run("await new Promise(done => setTimeout(done, 500));")
        with open(path, "wb") as file:
            file.write(base64.b64decode(self.ask("Page.captureScreenshot")["data"]))
        if whole:
            self.ask("Emulation.clearDeviceMetricsOverride")

    def printed(self, path: str) -> None:
        """Leaves the page as it is printed."""
        with open(path, "wb") as file:
            file.write(base64.b64decode(self.ask("Page.printToPDF", preferCSSPageSize=True, printBackground=True)[
                "data"]))

    def close(self) -> None:
        end(self.ran)
        shutil.rmtree(self.folder, ignore_errors=True)


class Firefox:
    """Firefox."""

    programs = ("firefox-esr", "firefox")

    def __init__(self, program: str, width: int = 1240, height: int = 1100) -> None:
        self.folder = tempfile.mkdtemp()
        with socket.socket() as free:
            free.bind(("127.0.0.1", 0))
            port = free.getsockname()[1]
        with open(f"{self.folder}/user.js", "w", encoding="utf-8") as file:
            file.write(f'user_pref("marionette.port", {port});\nuser_pref("remote.log.level", "Fatal");\n')
        env = {**os.environ, "HOME": self.folder, "MOZ_HEADLESS": "1", "MOZ_HEADLESS_WIDTH": str(width),
            "MOZ_HEADLESS_HEIGHT": str(height)}
        words = [program, "--headless", "--marionette", "--no-remote", "--profile", self.folder, "about:blank"]
        self.ran = subprocess.Popen(words, env=env, stdout=subprocess.DEVNULL, stderr=subprocess.DEVNULL,
            start_new_session=True)
        self.line = self.connect(port)
        self.left, self.number = b"", 0
        self.read()
        told = self.ask("WebDriver:NewSession", capabilities={"alwaysMatch": {"unhandledPromptBehavior": "accept"}})
        self.ask("WebDriver:SetTimeouts", script=600000, pageLoad=600000)
        self.name = f"Firefox/{told['capabilities']['browserVersion']}"

    def connect(self, port: int) -> socket.socket:
        for _ in range(900):
            try:
                return socket.create_connection(("127.0.0.1", port))
            except OSError:
                time.sleep(0.1)
        raise Fault("Firefox does not answer")

    def read(self) -> Any:
        while b":" not in self.left:
            self.left += self.more()
        size, _, self.left = self.left.partition(b":")
        while len(self.left) < int(size):
            self.left += self.more()
        one, self.left = self.left[: int(size)], self.left[int(size) :]
        return json.loads(one)

    def more(self) -> bytes:
        octets = self.line.recv(1 << 20)
        if not octets:
            raise Fault("the browser has ended")
        return octets

    def ask(self, name: str, **words: object) -> Any:
        self.number += 1
        data = json.dumps([0, self.number, name, words]).encode()
        self.line.sendall(str(len(data)).encode() + b":" + data)
        _, _, fault, answer = self.read()
        if fault:
            raise Fault(json.dumps(fault)[:2000])
        return answer

    def open(self, url: str) -> None:
        self.ask("WebDriver:Navigate", url=url)

    def tab(self) -> str:
        """Goes to a new tab, and says in which one it was before."""
        before = str(self.ask("WebDriver:GetWindowHandle")["value"])
        self.go(self.ask("WebDriver:NewWindow", type="tab")["handle"])
        return before

    def go(self, tab: str) -> None:
        """Goes to a tab."""
        self.ask("WebDriver:SwitchToWindow", handle=tab)

    def run(self, script: str) -> Any:
        made = "const done = arguments[arguments.length - 1], window = globalThis.wrappedJSObject ?? globalThis;"
        made += f"(async () => {{{script}}})().then(it => done([0, it]), fault => done([1, String(fault)]));"
        bad, value = self.ask("WebDriver:ExecuteAsyncScript", script=made, args=[], sandbox=None)["value"]
        if bad:
            raise Fault(value)
        return value

    def point(self, does: str, x: float, y: float) -> None:
        """Moves the pointer to a place of the window, where it is then `Pressed` or `Released`, or only `Moved`."""
        acts: list[dict[str, Any]] = [{"type": "pointerMove", "duration": 0, "x": round(x), "y": round(y)}]
        acts += [{"type": kind, "button": 0} for name, kind in (("Pressed", "pointerDown"), ("Released", "pointerUp"))
            if name == does]
        self.ask("WebDriver:PerformActions", actions=[{"type": "pointer", "id": "mouse", "actions": acts,
            "parameters": {"pointerType": "mouse"}}])

    def faults(self) -> list[str]:
        return []

    def printed(self, path: str) -> None:
        """Leaves the page as it is printed."""
        with open(path, "wb") as file:
            file.write(base64.b64decode(self.ask("WebDriver:Print", background=True)["value"]))

    def picture(self, path: str, whole: bool = True) -> None:
        with open(path, "wb") as file:
            file.write(base64.b64decode(self.ask("WebDriver:TakeScreenshot", full=whole)["value"]))

    def close(self) -> None:
        end(self.ran)
        shutil.rmtree(self.folder, ignore_errors=True)


Browser = Chromium | Firefox


def installed() -> dict[str, Callable[..., Browser]]:
    """The browsers that are installed."""
    found: dict[str, Callable[..., Browser]] = {}
    kinds: dict[str, type[Chromium] | type[Firefox]] = {"Chromium": Chromium, "Firefox": Firefox}
    for name, kind in kinds.items():
        program = next((path for it in kind.programs if (path := shutil.which(it))), None)
        if program:
            found[name] = lambda *words, kind=kind, program=program, **more: kind(program, *words, **more)
    return found
