"""A headless Firefox, driven by Marionette, its own protocol: the standard library alone, and a port of this machine."""
import base64
import json
import os
import shutil
import socket
import subprocess
import tempfile
import time
from pathlib import Path

NAMES = (os.environ.get("FIREFOX"), "firefox-esr", "firefox")


def found():
    """The browser's program, if there is one."""
    return next((path for path in map(shutil.which, filter(None, NAMES)) if path), None)


def free_port():
    with socket.socket() as it:
        it.bind(("127.0.0.1", 0))
        return it.getsockname()[1]


class Firefox:
    def __init__(self, width=1280, height=720):
        self.folder, self.events, port = tempfile.mkdtemp(prefix="playing"), [], free_port()
        settings = {"marionette.port": port, "datareporting.policy.dataSubmissionEnabled": False, "network.proxy.type": 1,
                    "network.proxy.http": "127.0.0.1", "network.proxy.http_port": 9, "network.proxy.ssl": "127.0.0.1", "network.proxy.ssl_port": 9,
                    "app.update.enabled": False, "browser.shell.checkDefaultBrowser": False}
        lines = (f"user_pref({json.dumps(name)}, {json.dumps(value)});\n" for name, value in settings.items())
        Path(self.folder, "user.js").write_text("".join(lines))
        flags = ["--headless", "--no-remote", "--marionette", "--profile", self.folder, f"--width={width}", f"--height={height}"]
        self.process = subprocess.Popen([found(), *flags], stdout=subprocess.DEVNULL, stderr=subprocess.DEVNULL, env={**os.environ, "HOME": self.folder})
        self.line, self.number = self.connect(port), 0
        self.take()
        self.ask("WebDriver:NewSession", {"capabilities": {"alwaysMatch": {"acceptInsecureCerts": False}}})
        self.ask("WebDriver:SetTimeouts", {"script": 30000})

    def connect(self, port):
        until = time.monotonic() + 60
        while True:
            try:
                return socket.create_connection(("127.0.0.1", port), timeout=60)
            except OSError:
                if time.monotonic() > until or self.process.poll() is not None:
                    raise
                time.sleep(0.2)

    def take(self):
        size = b""
        while not size.endswith(b":"):
            size += self.line.recv(1)
        rest, text = int(size[:-1]), b""
        while len(text) < rest:
            text += self.line.recv(rest - len(text))
        return json.loads(text)

    def ask(self, name, params=None):
        self.number += 1
        told = json.dumps([0, self.number, name, params or {}]).encode()
        self.line.sendall(str(len(told)).encode() + b":" + told)
        _, _, fault, got = self.take()
        if fault:
            raise RuntimeError(f"{name}: {fault.get('message')}")
        return got

    def open(self, url):
        self.ask("WebDriver:Navigate", {"url": url})

    def run(self, script):
        """What an expression gives in the page; a promise is waited for."""
        # in a sandbox that isn't bound by the page's policy; `window` there is the page's
        body = f"const [done] = arguments; const window = globalThis.window.wrappedJSObject || globalThis.window; Promise.resolve((() => ({script}))()).then(done, fault => done('FAULT ' + fault));"
        got = self.ask("WebDriver:ExecuteAsyncScript", {"script": body, "args": [], "sandbox": "default"})["value"]
        if isinstance(got, str) and got.startswith("FAULT "):
            raise RuntimeError(got)
        return got

    def until(self, script, seconds=20):
        """Waits until an expression holds."""
        end, last = time.monotonic() + seconds, None
        while time.monotonic() < end:
            try:
                if self.run(f"Boolean({script})"):
                    return
            except RuntimeError as fault:
                last = fault
            time.sleep(0.1)
        raise TimeoutError(f"it doesn't come to hold: {script} {last or ''}")

    def size(self, width, height, dark=False, touch=False):
        self.ask("WebDriver:SetWindowRect", {"width": width, "height": height})

    def picture(self, path):
        Path(path).write_bytes(base64.b64decode(self.ask("WebDriver:TakeScreenshot", {"full": False})["value"]))

    def close(self):
        try:
            self.ask("Marionette:Quit", {"flags": ["eForceQuit"]})
            self.process.wait(10)
        except (OSError, RuntimeError, ValueError, subprocess.TimeoutExpired):
            self.process.kill()
            self.process.wait()
        self.line.close()
        shutil.rmtree(self.folder, ignore_errors=True)
