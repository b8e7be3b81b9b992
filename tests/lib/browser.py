"""A headless Chromium, driven through a pipe by its DevTools protocol."""
import base64
import json
import os
import shutil
import subprocess
import tempfile

COMMAND = shutil.which("chromium")
CODES = {"Tab": 9, "Enter": 13, " ": 32, "Home": 36, "End": 35}
CODES |= {"ArrowLeft": 37, "ArrowUp": 38, "ArrowRight": 39, "ArrowDown": 40}


class Browser:
    """A Chromium with one page open. Its files are in a folder of its own, which is removed when it ends."""

    def __init__(self, width=1400, height=1000):
        self.folder = tempfile.TemporaryDirectory()
        (asked, self.to), (self.back, given) = os.pipe(), os.pipe()
        # Chromium reads from descriptor 3 and writes to descriptor 4: bash gives the ends of the pipes these numbers.
        shell = f'exec {COMMAND} "$@" 3<&{asked} 4>&{given}'
        options = ["--headless", "--no-sandbox", "--disable-gpu", "--hide-scrollbars", "--remote-debugging-pipe"]
        options += [f"--window-size={width},{height}", f"--user-data-dir={self.folder.name}", "about:blank"]
        quiet = {"stdin": subprocess.DEVNULL, "stdout": subprocess.DEVNULL, "stderr": subprocess.DEVNULL}
        self.process = subprocess.Popen(["bash", "-c", shell, "bash", *options], pass_fds=(asked, given), **quiet)
        os.close(asked)
        os.close(given)
        self.count, self.had, self.events, self.session = 0, b"", [], None
        page = next(it for it in self.ask("Target.getTargets")["targetInfos"] if it["type"] == "page")
        self.session = self.ask("Target.attachToTarget", targetId=page["targetId"], flatten=True)["sessionId"]
        for domain in ("Page", "Runtime", "Network"):
            self.ask(f"{domain}.enable")

    def __enter__(self):
        return self

    def __exit__(self, *_):
        self.process.terminate()
        self.process.wait()
        # (it may still be writing files that nobody reads any more)
        shutil.rmtree(self.folder.name, ignore_errors=True)
        self.folder.cleanup()

    def next(self):
        """The next message from it."""
        while b"\0" not in self.had:
            some = os.read(self.back, 1 << 20)
            if not some:
                raise OSError("Chromium has ended")
            self.had += some
        said, self.had = self.had.split(b"\0", 1)
        return json.loads(said)

    def ask(self, method, **given):
        """Has it do something, and returns the result. Other messages that come meanwhile are events."""
        self.count += 1
        asked = {"id": self.count, "method": method, "params": given}
        asked |= {"sessionId": self.session} if self.session else {}
        os.write(self.to, json.dumps(asked).encode() + b"\0")
        while (said := self.next()).get("id") != self.count:
            self.events.append(said)
        if "error" in said:
            raise OSError(f"{method}: {said['error']}")
        return said["result"]

    def open(self, path):
        """Opens a file, and waits until it is loaded. Earlier events are dropped."""
        self.events.clear()
        self.ask("Page.navigate", url=f"file://{path}")
        while not any(it["method"] == "Page.loadEventFired" for it in self.events):
            self.events.append(self.next())

    def happened(self, method):
        """The parameters of the events of this name."""
        return [it["params"] for it in self.events if it.get("method") == method]

    def value(self, expression):
        """The value of a JavaScript expression in the page."""
        said = self.ask("Runtime.evaluate", expression=expression, returnByValue=True, awaitPromise=True)
        if "exceptionDetails" in said:
            raise OSError(f"{expression[:80]}: {said['exceptionDetails']}")
        return said["result"].get("value")

    def press(self, *keys):
        """Presses keys, one after another: a letter or sign, or the name of another key."""
        for key in keys:
            text = {"Enter": "\r"}.get(key, key if len(key) == 1 else None)
            known = {"key": key, "windowsVirtualKeyCode": CODES.get(key, ord(key[0]))}
            known |= {"code": key} if len(key) > 1 else {}
            self.ask("Input.dispatchKeyEvent", type="keyDown", **known, **({"text": text} if text else {}))
            self.ask("Input.dispatchKeyEvent", type="keyUp", **known)

    def point(self, x, y, kind="mouseMoved", **more):
        """Moves the mouse to a point of the window, or has it do something else there."""
        self.ask("Input.dispatchMouseEvent", type=kind, x=x, y=y, **more)

    def shot(self, path):
        """Writes a screenshot, as PNG."""
        path.write_bytes(base64.b64decode(self.ask("Page.captureScreenshot", format="png")["data"]))

    def print(self, size):
        """Prints the page on sheets of this width and height, in inches. Returns the PDF."""
        width, height = size
        said = self.ask("Page.printToPDF", printBackground=True, paperWidth=width, paperHeight=height)
        return base64.b64decode(said["data"])

    def seconds(self):
        """The processor seconds that the processes of its pages have taken."""
        session, self.session = self.session, None
        processes = self.ask("SystemInfo.getProcessInfo")["processInfo"]
        self.session = session
        return sum(it["cpuTime"] for it in processes if it["type"] == "renderer")
