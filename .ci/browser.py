#!/usr/bin/env python3
"""Lets a headless Chromium use `serve` of the built program as an app from another origin does.

Usage: .ci/browser.py PROGRAM, with the whole path. A page of another origin finds the storage by discovery, sends the browser to the
page that grants, where the password is filled in and the button pressed, comes back with the token in its fragment, and then writes a
document (with its preflight), reads it, asks again by its version, writes over it by version, lists the folder, and is refused beyond
its scopes; at last a grant is denied. Without Chromium it says so and does nothing. What is wrong is printed, and the status is then 1.
"""
import http.server
import json
import os
import select
import shutil
import subprocess
import sys
import tempfile
import threading
import time
import urllib.parse

from sockets import PASSWORD, PATIENCE, Server, Wrong, same

NAMES = ("chromium", "chromium-browser", "google-chrome", "google-chrome-stable")


class Browser:
    """A headless Chromium, driven by its DevTools protocol over pipes, and one page of it."""

    def __init__(self, name, profile):
        theirs_in, self.out = os.pipe()
        self.into, theirs_out = os.pipe()

        def place():
            # The browser reads from 3 and writes to 4; neither end may be overwritten before it is placed.
            into, out = os.dup(theirs_in), os.dup(theirs_out)
            os.dup2(into, 3)
            os.dup2(out, 4)

        self.process = subprocess.Popen(
            [name, "--headless=new", "--no-sandbox", "--disable-gpu", "--disable-dev-shm-usage", "--no-first-run", f"--user-data-dir={profile}", "--remote-debugging-pipe"],
            stdin=subprocess.DEVNULL,
            stdout=subprocess.DEVNULL,
            stderr=subprocess.DEVNULL,
            preexec_fn=place,
            close_fds=False,
        )
        os.close(theirs_in)
        os.close(theirs_out)
        self.number, self.held, self.session = 0, b"", None
        target = self.call("Target.createTarget", url="about:blank")["targetId"]
        self.session = self.call("Target.attachToTarget", targetId=target, flatten=True)["sessionId"]

    def call(self, method, **params):
        self.number += 1
        said = {"id": self.number, "method": method, "params": params}
        if self.session:
            said["sessionId"] = self.session
        os.write(self.out, json.dumps(said).encode() + b"\0")
        until = time.monotonic() + 3 * PATIENCE
        while True:
            while b"\0" not in self.held:
                ready, _, _ = select.select([self.into], [], [], max(0, until - time.monotonic()))
                piece = os.read(self.into, 65536) if ready else b""
                if not piece:
                    raise Wrong(f"the browser doesn't answer {method}")
                self.held += piece
            text, self.held = self.held.split(b"\0", 1)
            answer = json.loads(text)
            if answer.get("id") == self.number:
                if "error" in answer:
                    raise Wrong(f"{method}: {answer['error']}")
                return answer["result"]

    def run(self, script):
        """The value of a script in the page, awaited."""
        got = self.call("Runtime.evaluate", expression=script, awaitPromise=True, returnByValue=True)
        if "exceptionDetails" in got:
            raise Wrong(f"{script[:60]}: {got['exceptionDetails'].get('exception', {}).get('description')}")
        return got["result"].get("value")

    def go(self, address, ready):
        """Opens the address, and waits until the script says true in the page."""
        self.call("Page.navigate", url=address)
        self.wait(ready)

    def wait(self, ready):
        until = time.monotonic() + PATIENCE
        while True:
            try:
                if self.run(ready):
                    return
            except Wrong:
                pass
            if time.monotonic() > until:
                raise Wrong(f"not in time: {ready}; the page is {self.run('location.href')}")
            time.sleep(0.05)

    def end(self):
        self.process.kill()
        self.process.wait()


class App(http.server.BaseHTTPRequestHandler):
    def do_GET(self):
        page = b"<!DOCTYPE html><title>An app</title>"
        self.send_response(200)
        self.send_header("Content-Type", "text/html")
        self.send_header("Content-Length", str(len(page)))
        self.end_headers()
        self.wfile.write(page)

    def log_message(self, *words):
        pass


# What the app does with its token, and answers as a list of lists.
STORING = """(async () => {
  const root = %(root)s, token = %(token)s;
  const headers = { Authorization: "Bearer " + token };
  const put = await fetch(root + "/notes/x", { method: "PUT", headers: { ...headers, "Content-Type": "text/plain" }, body: "from a page" });
  const tag = put.headers.get("ETag");
  const get = await fetch(root + "/notes/x", { headers });
  const text = await get.text();
  const again = await fetch(root + "/notes/x", { headers: { ...headers, "If-None-Match": tag }, cache: "no-store" });
  const over = await fetch(root + "/notes/x", { method: "PUT", headers: { ...headers, "Content-Type": "text/plain", "If-Match": tag }, body: "again" });
  const old = await fetch(root + "/notes/x", { method: "PUT", headers: { ...headers, "Content-Type": "text/plain", "If-Match": tag }, body: "lost" });
  const list = await fetch(root + "/notes/", { headers });
  const items = Object.keys((await list.json()).items);
  const beyond = await fetch(root + "/other/x", { headers });
  const gone = await fetch(root + "/notes/x", { method: "DELETE", headers });
  return [put.status, tag !== null, get.status, text, get.headers.get("ETag") === tag, again.status, over.status, old.status, list.status, items, beyond.status, gone.status];
})()"""


def tries(browser, server, app):
    root = f"http://localhost:{server.port}"
    browser.go(app, 'document.title === "An app" && location.protocol === "http:"')
    found = browser.run(f"(async () => (await (await fetch('{root}/.well-known/webfinger?resource=acct:alice@localhost:{server.port}')).json()).links[0])()")
    same("the storage", found["href"], f"{root}/storage/alice")
    grants = found["properties"]["http://tools.ietf.org/html/rfc6749#section-4.2"]
    query = urllib.parse.urlencode({"response_type": "token", "client_id": app, "redirect_uri": app, "scope": "notes:rw", "state": "a state"})

    def decide(choice, password):
        browser.go(f"{grants}?{query}", "document.querySelector('input[type=password]') !== null")
        browser.run(f"document.querySelector('input[type=password]').value = {json.dumps(password)}; document.querySelector('button[value={choice}]').click()")

    decide("allow", PASSWORD)
    browser.wait(f"location.href.startsWith({json.dumps(app)}) && location.hash !== ''")
    given = dict(urllib.parse.parse_qsl(browser.run("location.hash.slice(1)")))
    same("the fragment", (sorted(given), given["state"], given["token_type"]), (["access_token", "state", "token_type"], "a state", "bearer"))
    got = browser.run(STORING % {"root": json.dumps(found["href"]), "token": json.dumps(given["access_token"])})
    same("what the app meets", got, [201, True, 200, "from a page", True, 304, 200, 412, 200, ["x"], 403, 200])
    decide("allow", "another password")
    browser.wait("document.querySelector('input[type=password]') !== null && document.body.innerText.length > 0")
    same("another password leads nowhere", browser.run("location.pathname"), "/oauth/alice")
    decide("deny", "")
    browser.wait("location.hash.includes('error=access_denied')")


def main():
    program = os.path.abspath(sys.argv[1])
    name = next((n for n in NAMES if shutil.which(n)), None)
    if name is None:
        print("browser: no Chromium, so it was not tried")
        return
    listener = http.server.ThreadingHTTPServer(("127.0.0.1", 0), App)
    threading.Thread(target=listener.serve_forever, daemon=True).start()
    with tempfile.TemporaryDirectory() as room, tempfile.TemporaryDirectory() as profile, Server(program, room, users=("alice",), grant=False) as server:
        browser = Browser(name, profile)
        try:
            tries(browser, server, f"http://localhost:{listener.server_port}/")
        finally:
            browser.end()
            time.sleep(0.2)
            shutil.rmtree(profile, ignore_errors=True)
            os.makedirs(profile, exist_ok=True)


if __name__ == "__main__":
    try:
        main()
    except Wrong as cause:
        print(f"browser: {cause}")
        sys.exit(1)
