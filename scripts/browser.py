"""A headless Chromium, driven by its DevTools protocol over a pipe. It installs nothing. Without a Chromium, `find` returns None."""
import base64, json, os, select, shutil, subprocess, tempfile, time

NAMES = ("chromium", "chromium-browser", "google-chrome", "google-chrome-stable", "chrome")

# What the browser is started with: no window, no network services of its own, a light page of a fixed size.
FLAGS = ["--headless=new", "--remote-debugging-pipe", "--disable-gpu", "--hide-scrollbars", "--no-first-run",
         "--disable-background-networking", "--disable-component-update", "--disable-sync", "--mute-audio",
         "--force-color-profile=srgb"]

# The seconds in which the browser must answer a command, and those in which it must end.
PATIENCE, ENDING = 60, 10

# Keys by the names that the protocol has for them.
KEYS = {"Enter": ("\r", 13), "Escape": ("", 27), "Home": ("", 36), "End": ("", 35), "ArrowLeft": ("", 37), "ArrowRight": ("", 39)}


class Fault(Exception):
    """The browser refused a command, ended, or didn't answer in time."""


def find():
    """The path of a Chromium, or None."""
    return next((path for path in map(shutil.which, NAMES) if path), None)


class Browser:
    """One page of a Chromium, 1400 by 800 pixels unless other sizes are given."""

    def __init__(self, program, width=1400, height=800):
        self.profile = tempfile.mkdtemp(prefix="timeline.")
        their_in, self.ours_out = os.pipe()
        self.ours_in, their_out = os.pipe()

        def put_pipes():
            # The browser reads commands from file descriptor 3, and writes its answers to file descriptor 4.
            theirs = os.dup(their_in), os.dup(their_out)
            os.dup2(theirs[0], 3)
            os.dup2(theirs[1], 4)

        flags = FLAGS + ["--user-data-dir=" + self.profile, "--window-size=%d,%d" % (width, height)]
        flags += ["--no-sandbox"] if os.geteuid() == 0 else []
        self.process = subprocess.Popen([program] + flags + ["about:blank"], stdin=subprocess.DEVNULL, stdout=subprocess.DEVNULL,
                                        stderr=subprocess.DEVNULL, close_fds=False, preexec_fn=put_pipes)
        os.close(their_in)
        os.close(their_out)
        self.waiting, self.count, self.session, self.faults = b"", 0, None, []
        try:
            self.attach(width, height)
        except BaseException:
            self.end()
            raise

    def attach(self, width, height):
        """Opens the page, and turns on what is heard of it."""
        target = self.ask("Target.createTarget", url="about:blank")["targetId"]
        self.session = self.ask("Target.attachToTarget", targetId=target, flatten=True)["sessionId"]
        for domain in ("Page", "Runtime", "Network", "DOM", "Log"):
            self.ask(domain + ".enable")
        self.size(width, height)

    def size(self, width, height):
        self.ask("Emulation.setDeviceMetricsOverride", width=width, height=height, deviceScaleFactor=1, mobile=False)

    def ask(self, method, **words):
        """Sends a command, and returns its result."""
        self.count += 1
        command = {"id": self.count, "method": method, "params": words}
        if self.session:
            command["sessionId"] = self.session
        whole = json.dumps(command).encode() + b"\0"
        try:
            while whole:
                whole = whole[os.write(self.ours_out, whole):]
        except BrokenPipeError:
            raise Fault("the browser ended before %s" % method)
        until = time.monotonic() + PATIENCE
        while True:
            answer = self.next_answer(until, method)
            if answer.get("id") == self.count:
                if "error" in answer:
                    raise Fault("%s: %s" % (method, answer["error"]["message"]))
                return answer["result"]
            self.hear(answer)

    def next_answer(self, until, method):
        while b"\0" not in self.waiting:
            ready, _, _ = select.select([self.ours_in], [], [], max(0, until - time.monotonic()))
            read = os.read(self.ours_in, 1 << 20) if ready else b""
            if not read:
                raise Fault("the browser doesn't answer %s" % method)
            self.waiting += read
        answer, self.waiting = self.waiting.split(b"\0", 1)
        return json.loads(answer)

    def hear(self, event):
        """Records what a page must never do: throw, write faults to its console, or ask a network."""
        words = event.get("params", {})
        if event.get("method") == "Runtime.exceptionThrown":
            details = words["exceptionDetails"]
            self.faults.append("exception: " + details.get("exception", {}).get("description", details["text"]))
        if event.get("method") == "Log.entryAdded" and words["entry"]["level"] == "error":
            self.faults.append("log: " + words["entry"]["text"])
        if event.get("method") == "Network.requestWillBeSent" and not words["request"]["url"].startswith(("file:", "data:", "about:")):
            self.faults.append("a request to " + words["request"]["url"])

    def see(self, script):
        """The value of an expression in the page."""
        answer = self.ask("Runtime.evaluate", expression=script, returnByValue=True, awaitPromise=True)
        if "exceptionDetails" in answer:
            details = answer["exceptionDetails"]
            raise Fault("%s: %s" % (script[:80], details.get("exception", {}).get("description", details["text"])))
        return answer["result"].get("value")

    def open(self, path, most=60):
        """Opens a file, and returns the seconds until it has been loaded and painted."""
        began = time.monotonic()
        self.ask("Page.navigate", url="file://" + os.path.abspath(path))
        while self.see("document.readyState") != "complete" and time.monotonic() - began < most:
            time.sleep(0.01)
        self.see("new Promise((done) => requestAnimationFrame(() => requestAnimationFrame(done)))")
        return time.monotonic() - began

    def mouse(self, kind, x, y, **words):
        self.ask("Input.dispatchMouseEvent", type=kind, x=x, y=y, **words)

    def click(self, x, y):
        self.mouse("mouseMoved", x, y)
        self.mouse("mousePressed", x, y, button="left", buttons=1, clickCount=1)
        self.mouse("mouseReleased", x, y, button="left", clickCount=1)

    def key(self, name, shift=False):
        """Presses a key: a character, or a name of KEYS."""
        text, code = KEYS.get(name, (name, ord(name.upper()) if len(name) == 1 else 0))
        words = {"key": name, "windowsVirtualKeyCode": code, "modifiers": 8 if shift else 0}
        self.ask("Input.dispatchKeyEvent", type="keyDown" if text else "rawKeyDown", **dict(words, **({"text": text} if text else {})))
        self.ask("Input.dispatchKeyEvent", type="keyUp", **words)

    def drop(self, paths, x=500, y=400):
        """Drops files on the page."""
        data = {"items": [], "files": [os.path.abspath(path) for path in paths], "dragOperationsMask": 1}
        for kind in ("dragEnter", "dragOver", "drop"):
            self.ask("Input.dispatchDragEvent", type=kind, x=x, y=y, data=data)

    def picture(self, path):
        with open(path, "wb") as file:
            file.write(base64.b64decode(self.ask("Page.captureScreenshot", format="png")["data"]))

    def dark(self, is_dark):
        self.ask("Emulation.setEmulatedMedia", features=[{"name": "prefers-color-scheme", "value": "dark" if is_dark else "light"}])

    def close(self):
        """Asks the browser to end, and kills it if it doesn't."""
        try:
            self.session = None
            self.ask("Browser.close")
            self.process.wait(ENDING)
        except (Fault, OSError, subprocess.TimeoutExpired):
            pass
        self.end()

    def end(self):
        """Kills the browser if it still runs, and removes its profile."""
        self.process.kill()
        self.process.wait()
        os.close(self.ours_in)
        os.close(self.ours_out)
        shutil.rmtree(self.profile, ignore_errors=True)
