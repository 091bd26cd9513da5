#!/usr/bin/env python3
"""The module in Chromium and in Firefox: in a page and in a worker, from a server, and from one file without a server, which has the
module and its modules in it. Each plays an example, steps back in a session and is refused; what it tells has to be the native
program's. A browser that isn't there is skipped, with a sentence. The last line is `N passed, N failed`.
    tests/node/browsers.py [PROGRAM [BROWSER..]]    by default bin/vuthgal, and both"""
import base64
import http.server
import json
import os
import queue
import re
import shutil
import signal
import subprocess
import sys
import tempfile
import threading
from pathlib import Path

TOP = Path(__file__).resolve().parent.parent.parent
WEB = TOP / "web"
MODULES = ("faults", "bytes", "values", "looks", "library", "session", "vuthgal")
PATIENCE = 180
EXAMPLE, SCHEDULE = TOP / "examples/meeting.asm", "t0 t1 t0*3 t1*2"

# what a page or a worker plays, with `load` and `told` in reach
PLAY = """
async function played(load, code, program, schedule) {
  const begun = performance.now();
  const vuthgal = await load(code);
  const trace = vuthgal.run(program, schedule);
  const first = performance.now() - begun;
  const session = vuthgal.session(program);
  const lines = [session.step(0).text, session.step("b").text];
  session.back();
  lines.push(session.step("b").text);
  session.close();
  let refused;
  try { vuthgal.run("main: hlt", ""); } catch (fault) { refused = [fault.name, fault.line, fault.told]; }
  return { trace: trace.text, lines, refused, first: Math.round(first) };
}
"""
WORKER = "onmessage = async ({ data }) => { try { postMessage(await played(load, ...data)); } catch (error) { postMessage({ error: String(error) }); } };"


def page(head, port, way):
    """A page that plays in itself and in a worker, and tells both. `head` gives `load`, `code` and `worker`."""
    given = json.dumps([EXAMPLE.read_text(), SCHEDULE])
    return f"""<!doctype html><meta charset="utf-8"><title>{way}</title><script type="module">
const tell = (where, what) => fetch(`http://127.0.0.1:{port}/told/{way}/${{where}}`, {{ method: "POST", mode: "no-cors", body: JSON.stringify(what) }});
try {{
{head}
{PLAY}
const given = {given};
tell("page", await played(load, code, ...given));
const other = await worker();
other.onmessage = ({{ data }}) => tell("worker", data);
other.onerror = (event) => tell("worker", {{ error: event.message || "it doesn't start" }});
other.postMessage([code, ...given]);
}} catch (error) {{ tell("page", {{ error: `${{error}}` }}); tell("worker", {{ error: "no page" }}); }}
</script>"""


def served(port):
    return page("""const { load } = await import("/web/vuthgal.mjs"), code = undefined;
const worker = () => new Worker("/worker.mjs", { type: "module" });""", port, "server")


def one_file(port):
    """The modules in one text, without what they take from each other: no name is in two of them. Chromium starts no worker that is a
    module there, so the worker is a script, which has no address of its own."""
    text = "\n".join((WEB / f"{name}.mjs").read_text() for name in MODULES)
    text = re.sub(r"^(import\b[^;]*|export (\*|\{)[^;]*);$", "", text, flags=re.M)
    text = re.sub(r"^export ", "", text, flags=re.M).replace("import.meta.url", "location.href")
    text = json.dumps(text + PLAY).replace("</", "<\\/")
    code = base64.b64encode((WEB / "vuthgal.wasm").read_bytes()).decode()
    return page(f"""const text = {text};
const address = (of) => URL.createObjectURL(new Blob([text + of], {{ type: "text/javascript" }}));
const {{ load }} = await import(address("export {{ load }};"));
const code = Uint8Array.from(atob("{code}"), (it) => it.charCodeAt(0));
const worker = () => new Worker(address({json.dumps(WORKER)}));""", port, "file")


class Handler(http.server.SimpleHTTPRequestHandler):
    told: "queue.Queue[tuple[str, dict]]" = queue.Queue()

    def log_message(self, *_):
        pass

    def do_GET(self):
        port = self.server.server_address[1]
        made = {"/": (served(port), "text/html"), "/worker.mjs": (f'import {{ load }} from "/web/vuthgal.mjs"; {PLAY} {WORKER}', "text/javascript")}
        kinds = {".mjs": "text/javascript", ".wasm": "application/wasm"}
        if self.path in made:
            text, kind = made[self.path]
            data = text.encode()
        elif self.path.startswith("/web/") and "/" not in self.path[5:] and (WEB / self.path[5:]).is_file():
            data, kind = (WEB / self.path[5:]).read_bytes(), kinds.get(Path(self.path).suffix, "text/plain")
        else:
            return self.send_error(404)
        self.send_response(200)
        self.send_header("Content-Type", kind)
        self.end_headers()
        self.wfile.write(data)

    def do_POST(self):
        body = json.loads(self.rfile.read(int(self.headers["Content-Length"])))
        self.send_response(204)
        self.end_headers()
        self.told.put((self.path.removeprefix("/told/"), body))


def command(name, folder, address):
    if name == "chromium":
        return [name, "--headless=new", "--no-sandbox", "--disable-gpu", "--no-first-run", f"--user-data-dir={folder}", address]
    return [name, "--headless", "--no-remote", "--profile", folder, address]


def told_by(name, address, way):
    """What a browser tells of a way, from the page and from the worker."""
    folder = tempfile.mkdtemp(prefix="vuthgal-web")
    environment = {**os.environ, "HOME": folder, "MOZ_HEADLESS": "1"}
    how = {"stdin": subprocess.DEVNULL, "stdout": subprocess.DEVNULL, "stderr": subprocess.DEVNULL}
    browser = subprocess.Popen(command(name, folder, address), env=environment, start_new_session=True, **how)
    found = {}
    try:
        while len(found) < 2:
            where, what = Handler.told.get(timeout=PATIENCE)
            if where.startswith(f"{way}/"):
                found[where.removeprefix(f"{way}/")] = what
    except queue.Empty:
        pass
    finally:
        os.killpg(browser.pid, signal.SIGKILL)
        browser.wait()
        shutil.rmtree(folder, ignore_errors=True)
    return found


def main(program, names):
    room = Path(tempfile.mkdtemp(prefix="vuthgal-web"))
    (room / "schedule").write_text(SCHEDULE)
    trace = subprocess.run([program, "run", EXAMPLE, room / "schedule"], capture_output=True, text=True, check=True).stdout
    lines = trace.splitlines()[:2]
    wanted = {"trace": trace, "lines": [*lines, lines[1]], "refused": ["Refused", 1, "refused asm 1 3"]}
    server = http.server.ThreadingHTTPServer(("127.0.0.1", 0), Handler)
    port = server.server_address[1]
    threading.Thread(target=server.serve_forever, daemon=True).start()
    (room / "page.html").write_text(one_file(port))
    passed = failed = 0
    for name in names:
        if not shutil.which(name):
            print(f"{name} plays nothing: it isn't there")
            continue
        for way, address in (("server", f"http://127.0.0.1:{port}/"), ("file", (room / "page.html").as_uri())):
            found = told_by(name, address, way)
            for where in ("page", "worker"):
                got = found.get(where, {"error": f"it tells nothing within {PATIENCE} s"})
                first = got.pop("first", None)
                if got == wanted:
                    passed += 1
                    print(f"{name}, {way}, {where}: loaded and first run in {first} ms")
                else:
                    failed += 1
                    print(f"FAILED {name}, {way}, {where}: {got!r:.400}")
    server.shutdown()
    shutil.rmtree(room, ignore_errors=True)
    print(f"{passed} passed, {failed} failed")
    return 1 if failed else 0


if __name__ == "__main__":
    sys.exit(main(sys.argv[1] if sys.argv[1:] else TOP / "bin/vuthgal", sys.argv[2:] or ["chromium", "firefox"]))
