"""The page in WebKit, whose engine is Safari's: most of what browser.py does in Chromium.

The browser is told what to do by WebDriver, on a screen of its own (Debian's packages webkit2gtk-driver and xvfb).
https://www.w3.org/TR/webdriver2/ has the commands and their parameters.
"""

import base64
import contextlib
import json
import os
import pathlib
import shutil
import socket
import subprocess
import time
import urllib.error
import urllib.request

from web import browser

TOOLS = ("WebKitWebDriver", "Xvfb")
ELEMENT = "element-6066-11e4-a52e-4f735466cecf"  # the key of a reference to an element, as the standard has it


def found() -> bool:
    """Whether what this needs is on this machine."""
    return all(map(shutil.which, TOOLS))


class Failed(Exception):
    """The browser refused a command, or a script of the test threw."""


def free_port() -> int:
    with socket.socket() as it:
        it.bind(("127.0.0.1", 0))
        return it.getsockname()[1]


class WebKit:
    """A browser with one page, as `chrome.Chrome` has it."""

    def __init__(self, width: int = 1280, height: int = 800):
        quiet = {"stdin": subprocess.DEVNULL, "stdout": subprocess.DEVNULL, "stderr": subprocess.DEVNULL}
        screen = ["Xvfb", "-displayfd", "1", "-screen", "0", f"{width}x{height + 200}x24", "-nolisten", "tcp"]
        self.processes = [subprocess.Popen(screen, **{**quiet, "stdout": subprocess.PIPE})]
        try:
            display = self.processes[0].stdout.readline().decode().strip()
            port = free_port()
            environment = {**os.environ, "DISPLAY": f":{display}", "GDK_BACKEND": "x11"}
            self.processes.append(subprocess.Popen([TOOLS[0], f"--port={port}"], env=environment, **quiet))
            self.place = f"http://127.0.0.1:{port}/session"
            self.begin(width, height)
        except BaseException:
            self.end_processes()
            raise

    def begin(self, width: int, height: int):
        """Starts the browser, once its driver listens."""
        end = time.monotonic() + 30
        while True:
            try:
                said = self.ask("", capabilities={})
                break
            except OSError:
                if time.monotonic() > end:
                    raise Failed("the driver of WebKit never listens") from None
                time.sleep(0.1)
        self.version = said["capabilities"]["browserVersion"]
        self.place += f"/{said['sessionId']}"
        self.ask("/timeouts", script=600_000)
        self.ask("/window/rect", x=0, y=0, width=width, height=height)

    def ask(self, path: str, how: str = "POST", **parameters):
        """What the browser answers to a command."""
        data = json.dumps(parameters).encode() if how == "POST" else None
        asked = urllib.request.Request(self.place + path, data, {"Content-Type": "application/json"}, method=how)
        try:
            with urllib.request.urlopen(asked, timeout=700) as answer:
                return json.load(answer)["value"]
        except urllib.error.HTTPError as fault:
            raise Failed(f"{path}: {fault.read().decode(errors='replace')[:600]}") from None

    def go(self, url: str):
        """Opens a page."""
        self.ask("/url", url=url)

    def js(self, script: str):
        """The value of an expression in the page; of a promise, what it is kept with."""
        ends = "value => done({ value }), fault => done({ fault: String(fault) })"
        body = f"const done = arguments[0]; (async () => ({script}))().then({ends});"
        said = self.ask("/execute/async", script=body, args=[])
        if "fault" in said:
            raise Failed(said["fault"])
        return said.get("value")

    def until(self, script: str, seconds: float = 120):
        """Waits until the value of a script is true."""
        end = time.monotonic() + seconds
        while time.monotonic() < end:
            with contextlib.suppress(Failed):
                if self.js(script):
                    return
            time.sleep(0.03)
        raise Failed(f"it never comes: {script}")

    def click(self, x: float, y: float):
        move = {"type": "pointerMove", "duration": 0, "x": round(x), "y": round(y), "origin": "viewport"}
        acts = [move, {"type": "pointerDown", "button": 0}, {"type": "pointerUp", "button": 0}]
        mouse = {"type": "pointer", "id": "mouse", "parameters": {"pointerType": "mouse"}, "actions": acts}
        self.ask("/actions", actions=[mouse])

    def choose_file(self, selector: str, path: pathlib.Path):
        """Gives a file to an input."""
        element = self.ask("/element", using="css selector", value=selector)[ELEMENT]
        self.ask(f"/element/{element}/value", text=str(path))

    def close(self):
        """Ends the browser."""
        with contextlib.suppress(Failed, OSError):
            self.ask("", "DELETE")
        self.end_processes()

    def end_processes(self):
        for process in reversed(self.processes):
            process.terminate()
            try:
                process.wait(10)
            except subprocess.TimeoutExpired:
                process.kill()
                process.wait()


# Keeps what the page saves, since the browser would ask where to put it.
KEEPS = """(() => {
    const make = URL.createObjectURL;
    let last = null;
    URL.createObjectURL = (blob) => make.call(URL, last = blob);
    HTMLAnchorElement.prototype.click = function () { window.kept = { name: this.download, blob: last }; };
})()"""
KEPT = """new Promise((done) => {
    const reader = new FileReader();
    reader.onload = () => done([window.kept.name, reader.result.split(',')[1]]);
    reader.readAsDataURL(window.kept.blob);
})"""


class Page(browser.Actions, WebKit):
    """The page in WebKit."""

    def __init__(self, path: pathlib.Path):
        super().__init__()
        try:
            self.visit(path)
            self.js(KEEPS)
        except BaseException:
            self.close()
            raise

    def saved(self, name: str, press: str) -> bytes:
        """What the page saves under this name when a button is pressed."""
        self.js("void (window.kept = null)")
        self.press(press)
        self.until("window.kept !== null")
        found, text = self.js(KEPT)
        if found != name:
            raise AssertionError(f"{found} was saved in place of {name}")
        return base64.b64decode(text)


def each_part(page: Page, checks: browser.Checks, program: browser.Program, room: pathlib.Path):
    browser.each_command(page, checks, program)
    browser.walks(page, checks, program)
    browser.through(page, checks, program)
    browser.certificates(page, checks)
    browser.kinds(page, checks, room)
    browser.samples(page, checks)
    browser.refusals(page, checks, room)


def tried(path: pathlib.Path, program: pathlib.Path | None, room: pathlib.Path) -> int:
    """Tries the page from disk; the number of checks that fail."""
    checks, told = browser.Checks(), browser.Program(program, room)
    page = Page(path)
    try:
        said = page.open(browser.MESHES / "eight.off")
        checks.expect("a mesh of a page from disk", said.startswith("Done: 4 cycles"), said + page.fault())
        if not checks.wrong:
            each_part(page, checks, told, room)
    finally:
        page.close()
    print(f"web: {checks.count} checks of the page in WebKit {page.version}, {checks.wrong} wrong")
    return checks.wrong
