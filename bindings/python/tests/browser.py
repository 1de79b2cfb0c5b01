"""A headless Chromium, spoken to over a pipe by its own protocol: no network, and nothing to install but Debian's chromium."""
import base64
import json
import os
import select
import shutil
import subprocess
import tempfile

PATIENCE = 300  # seconds without a word after which the browser is taken to hang
PATH = shutil.which("chromium") or shutil.which("chromium-browser") or shutil.which("google-chrome")


class Browser:
    """One page of a browser. `wrong` has what the page threw or logged as an error."""

    def __init__(self, width=1200, height=760):
        self.folder = tempfile.TemporaryDirectory(ignore_cleanup_errors=True)
        to_read, self.write = os.pipe()
        self.read, to_write = os.pipe()
        words = [PATH, "--headless=new", "--no-sandbox", "--disable-gpu", "--disable-dev-shm-usage", "--remote-debugging-pipe", "--no-first-run"]
        words += [f"--user-data-dir={self.folder.name}", f"--window-size={width},{height}", "about:blank"]
        # the protocol's pipe is 3 to read and 4 to write: a shell puts them there, whatever numbers they have here
        shell = f'exec "$0" "$@" 3<&{to_read} 4>&{to_write}'
        self.process = subprocess.Popen(["bash", "-c", shell, *words], pass_fds=(to_read, to_write), stdout=subprocess.DEVNULL, stderr=subprocess.DEVNULL)
        os.close(to_read), os.close(to_write)
        self.left, self.number, self.session, self.wrong, self.seen = b"", 0, None, [], []
        target = self.ask("Target.createTarget", url="about:blank")["targetId"]
        self.session = self.ask("Target.attachToTarget", targetId=target, flatten=True)["sessionId"]
        for domain in ("Page", "Runtime", "Log"):
            self.ask(f"{domain}.enable")
        self.ask("Emulation.setDeviceMetricsOverride", width=width, height=height, deviceScaleFactor=1, mobile=False)

    def ask(self, method, **words):
        self.number += 1
        message = {"id": self.number, "method": method, "params": words}
        if self.session:
            message["sessionId"] = self.session
        os.write(self.write, json.dumps(message).encode() + b"\0")
        while True:
            told = self.next()
            if told.get("id") == self.number:
                if "error" in told:
                    raise RuntimeError(f"{method}: {told['error']}")
                return told["result"]

    def next(self):
        while b"\0" not in self.left:
            if not select.select([self.read], [], [], PATIENCE)[0]:
                self.process.kill()
                raise RuntimeError("the browser does not answer")
            some = os.read(self.read, 1 << 20)
            if not some:
                raise RuntimeError("the browser has gone")
            self.left += some
        message, self.left = self.left.split(b"\0", 1)
        told = json.loads(message)
        self.seen.append(told.get("method"))
        if told.get("method") == "Runtime.exceptionThrown":
            self.wrong.append(told["params"]["exceptionDetails"])
        if told.get("method") == "Log.entryAdded" and told["params"]["entry"]["level"] == "error":
            self.wrong.append(told["params"]["entry"])
        return told

    def open(self, path):
        """Loads a file, and waits till the page says that it is ready, or that it is in trouble."""
        self.seen.clear()
        self.ask("Page.navigate", url=f"file://{os.path.abspath(path)}")
        while "Page.loadEventFired" not in self.seen:
            self.next()
        self.drawn()

    def drawn(self):
        """Waits till the page has drawn what it has to, or says that it is in trouble."""
        done = "(drawing > 0 && +document.body.dataset.drawn === drawing) || element('trouble').textContent"
        self.value(f"new Promise((done) => {{ const look = () => {done} ? done() : setTimeout(look, 20); look(); }})")

    def value(self, expression):
        """What an expression is in the page; of a promise, what it comes to."""
        result = self.ask("Runtime.evaluate", expression=expression, awaitPromise=True, returnByValue=True)
        if "exceptionDetails" in result:
            raise RuntimeError(f"{expression}: {result['exceptionDetails']}")
        return result["result"].get("value")

    def mouse(self, kind, x, y, **words):
        self.ask("Input.dispatchMouseEvent", type=kind, x=x, y=y, **words)

    def click(self, x, y):
        self.mouse("mouseMoved", x, y)
        self.mouse("mousePressed", x, y, button="left", clickCount=1)
        self.mouse("mouseReleased", x, y, button="left", clickCount=1)

    def screenshot(self, path):
        with open(path, "wb") as out:
            out.write(base64.b64decode(self.ask("Page.captureScreenshot", format="png")["data"]))

    def close(self):
        try:
            self.session = None
            self.ask("Browser.close")
        except (RuntimeError, OSError):
            self.process.kill()
        self.process.wait(20)
        os.close(self.read), os.close(self.write)
        self.folder.cleanup()
