"""Chromium without a window or a GPU, on a page that is served on the loopback address and hands back its answers."""
import http.server
import json
import os
import pathlib
import shutil
import signal
import subprocess
import tempfile
import threading

HERE = pathlib.Path(__file__).resolve().parent
TYPES = {"/page.html": "text/html", "/page.js": "text/javascript"}
# --no-sandbox: in a container there is often no right to make one. The page is our own.
OPTIONS = ["--headless=new", "--no-sandbox", "--no-first-run", "--enable-unsafe-webgpu", "--use-webgpu-adapter=swiftshader"]


class Fault(Exception):
    """The browser gave no answers."""


class Handler(http.server.BaseHTTPRequestHandler):
    """Hands out the page and the scopes, and takes the answers."""

    def do_GET(self):
        if self.path == "/scopes":
            self.answer("application/json", json.dumps(self.server.scopes).encode())
        elif self.path in TYPES:
            self.answer(TYPES[self.path], (HERE / self.path[1:]).read_bytes())
        else:
            self.send_error(404)

    def do_POST(self):
        self.server.answers = json.loads(self.rfile.read(int(self.headers["Content-Length"])))
        self.answer("text/plain", b"")
        self.server.taken.set()

    def answer(self, kind, content):
        self.send_response(200)
        self.send_header("Content-Type", kind)
        self.send_header("Content-Length", str(len(content)))
        self.end_headers()
        self.wfile.write(content)

    def log_message(self, *_):
        pass


def stop(process):
    """Ends the browser and the processes that it has started, which are a group of their own."""
    process.terminate()
    try:
        process.wait(20)
    except subprocess.TimeoutExpired:
        pass
    try:
        os.killpg(process.pid, signal.SIGKILL)
    except ProcessLookupError:
        pass
    process.wait()


def visit(browser, address, taken, seconds):
    """Runs the browser until the answers are there, for so many seconds at most."""
    profile = tempfile.mkdtemp()
    process = subprocess.Popen([browser, *OPTIONS, f"--user-data-dir={profile}", address], start_new_session=True,
                               stdout=subprocess.DEVNULL, stderr=subprocess.DEVNULL)
    try:
        return taken.wait(seconds)
    finally:
        stop(process)
        # What the browser's last process writes while the folder goes may make that fail.
        shutil.rmtree(profile, ignore_errors=True)


def judge(browser, scopes, seconds):
    """The adapter's name, and for each scope what is said of making it ready and of finish(): None or a message."""
    with http.server.ThreadingHTTPServer(("127.0.0.1", 0), Handler) as server:
        server.scopes, server.answers, server.taken = scopes, None, threading.Event()
        threading.Thread(target=server.serve_forever, daemon=True).start()
        arrived = visit(browser, f"http://127.0.0.1:{server.server_port}/page.html", server.taken, seconds)
        server.shutdown()
    if not arrived:
        raise Fault(f"no answer within {seconds} seconds")
    if "fault" in server.answers:
        raise Fault(server.answers["fault"])
    return server.answers["adapter"], server.answers["answers"]
