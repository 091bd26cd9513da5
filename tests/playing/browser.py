"""A headless Chromium, driven by its own protocol over two pipes: the standard library alone, and no port."""
import base64
import json
import os
import select
import shutil
import subprocess
import tempfile
import time

NAMES = (os.environ.get("CHROMIUM"), "chromium", "chromium-browser", "google-chrome")


def found():
    """The browser's program, if there is one."""
    return next((path for path in map(shutil.which, filter(None, NAMES)) if path), None)


class Browser:
    def __init__(self, width=1280, height=720):
        self.folder = tempfile.mkdtemp(prefix="playing")
        mine, theirs = os.pipe(), os.pipe()
        flags = ["--headless=new", "--no-sandbox", "--disable-gpu", "--no-first-run", f"--user-data-dir={self.folder}", "--remote-debugging-pipe",
                 "--disable-features=IsolateSandboxedIframes", "--host-resolver-rules=MAP * ~NOTFOUND, EXCLUDE 127.0.0.1, EXCLUDE localhost"]

        def connect():
            os.dup2(mine[0], 3)
            os.dup2(theirs[1], 4)

        # descriptors 3 and 4 of the browser are the ends of the pipes
        for it in (*mine, *theirs):
            os.set_inheritable(it, True)
        moved = [os.dup(it) for it in (mine[0], theirs[1])]
        while min(moved) < 5:
            moved = [os.dup(it) for it in moved]
        mine, theirs = (moved[0], mine[1]), (theirs[0], moved[1])
        self.process = subprocess.Popen([found(), *flags], preexec_fn=connect, pass_fds=(3, 4), stderr=subprocess.DEVNULL, stdout=subprocess.DEVNULL)
        os.close(mine[0])
        os.close(theirs[1])
        self.out, self.read, self.rest, self.number, self.events = mine[1], theirs[0], b"", 0, []
        target = self.ask("Target.createTarget", url="about:blank")["targetId"]
        self.session = self.ask("Target.attachToTarget", targetId=target, flatten=True)["sessionId"]
        self.worlds = {}
        for it in ("Page", "Runtime", "Log"):
            self.call(it + ".enable")
        self.size(width, height)

    def take(self, seconds):
        until = time.monotonic() + seconds
        while b"\0" not in self.rest:
            if not select.select([self.read], [], [], max(0, until - time.monotonic()))[0]:
                raise TimeoutError("the browser doesn't answer")
            got = os.read(self.read, 1 << 20)
            if not got:
                raise EOFError("the browser is gone")
            self.rest += got
        one, _, self.rest = self.rest.partition(b"\0")
        return json.loads(one)

    def ask(self, method, session=None, **params):
        self.number += 1
        told = {"id": self.number, "method": method, "params": params, **({"sessionId": session} if session else {})}
        os.write(self.out, json.dumps(told).encode() + b"\0")
        while True:
            got = self.take(20)
            if got.get("id") == self.number:
                if "error" in got:
                    raise RuntimeError(f"{method}: {got['error']}")
                return got["result"]
            self.note(got)

    def note(self, got):
        if got.get("method") == "Runtime.executionContextCreated":
            world = got["params"]["context"]
            self.worlds[world["id"]] = world["auxData"]["frameId"]
        elif got.get("method") == "Runtime.executionContextDestroyed":
            self.worlds.pop(got["params"]["executionContextId"], None)
        elif got.get("method") == "Runtime.executionContextsCleared":
            self.worlds.clear()
        elif got.get("method") in ("Runtime.exceptionThrown", "Log.entryAdded"):
            self.events.append(json.dumps(got["params"])[:400])

    def call(self, method, **params):
        return self.ask(method, self.session, **params)

    def size(self, width, height, dark=False, touch=False):
        self.call("Emulation.setDeviceMetricsOverride", width=width, height=height, deviceScaleFactor=1, mobile=touch)
        self.call("Emulation.setTouchEmulationEnabled", enabled=touch)
        self.call("Emulation.setEmulatedMedia", features=[{"name": "prefers-color-scheme", "value": "dark" if dark else "light"}])

    def open(self, url):
        self.call("Page.navigate", url=url)
        self.until("document.readyState === 'complete'")

    def run(self, script, frame=None):
        """What an expression gives, in the page or in the frame of this number within it."""
        world = {}
        if frame is not None:
            inner = [it["frame"]["id"] for it in self.call("Page.getFrameTree")["frameTree"].get("childFrames", [])]
            world = {"contextId": next(k for k, v in reversed(self.worlds.items()) if v == inner[frame])}
        got = self.call("Runtime.evaluate", expression=script, returnByValue=True, awaitPromise=True, **world)
        if "exceptionDetails" in got:
            raise RuntimeError(json.dumps(got["exceptionDetails"])[:600] + "\n" + script)
        return got["result"].get("value")

    def until(self, script, frame=None, seconds=10):
        """Waits until an expression holds."""
        end, last = time.monotonic() + seconds, None
        while time.monotonic() < end:
            try:
                got = self.run(f"Boolean({script})", frame)
                if got:
                    return
            except (RuntimeError, StopIteration, IndexError) as fault:
                last = fault
            time.sleep(0.05)
        raise TimeoutError(f"it doesn't come to hold: {script} {last or ''}")

    def key(self, key, code=None, text=None):
        names = {"key": key, "code": code or key, **({"text": text} if text else {})}
        codes = {"Enter": 13, "Tab": 9, "Escape": 27, " ": 32}
        if key in codes:
            names["windowsVirtualKeyCode"] = codes[key]
        self.call("Input.dispatchKeyEvent", type="keyDown", **names)
        self.call("Input.dispatchKeyEvent", type="keyUp", **{k: v for k, v in names.items() if k != "text"})

    def picture(self, path):
        with open(path, "wb") as file:
            file.write(base64.b64decode(self.call("Page.captureScreenshot", format="png")["data"]))

    def close(self):
        self.process.kill()
        self.process.wait()
        os.close(self.out)
        os.close(self.read)
        shutil.rmtree(self.folder, ignore_errors=True)
