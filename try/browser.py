#!/usr/bin/env python3
"""Points an installed Firefox at a built `sblistd serve`, by settings alone, and sees that it blocks what the journal lists.

The browser is headless, and driven by its own protocol for automation. It runs in a network namespace of its own that has `lo` alone,
so nothing else answers it. It blocks a listed page and shows another; then the journal lists the other and no longer the first, and
it is the other way round; then the server is started again, and then the browser, which still blocks what is listed.

    browser.py [--picture FILE]

With --picture the page that is shown in place of a listed one is written to FILE. It says so if Firefox is not installed, or if it
may not make a network namespace, and then nothing was tried. It takes one to two minutes.
"""

import argparse
import base64
import contextlib
import http.server
import json
import os
import shutil
import signal
import socket
import subprocess
import sys
import tempfile
import threading
import time

REPOSITORY = os.path.dirname(os.path.dirname(os.path.abspath(__file__)))
SBLISTD = os.path.join(REPOSITORY, "bin", "sblistd")
SBJOURNAL = os.path.join(REPOSITORY, "bin", "sbjournal")
INSIDE = "TRY_BROWSER_INSIDE"
LISTS = ("MALWARE/ANY_PLATFORM/URL", "SOCIAL_ENGINEERING/ANY_PLATFORM/URL")
TABLES = ("goog-malware-proto", "goog-phish-proto")
FIRST, SECOND = "first.example", "second.example"
WEB, LISTS_PORT, MARIONETTE = 8081, 8080, 2828
FETCHED, BLOCKED = 60.0, 20.0


def say(text):
    print(f"try-browser: {text}", flush=True)


def fail(text):
    say(text)
    sys.exit(1)


class Page(http.server.BaseHTTPRequestHandler):
    """A page for each name: its title is the name."""

    def do_GET(self):
        body = f"<!DOCTYPE html><title>{self.headers.get('Host', '').split(':')[0]}</title><p>A page.".encode()
        self.send_response(200)
        self.send_header("Content-Type", "text/html")
        self.send_header("Content-Length", str(len(body)))
        self.end_headers()
        # a browser that blocks a page may go away in the middle
        with contextlib.suppress(OSError):
            self.wfile.write(body)

    def log_message(self, *_):
        pass


class Browser:
    """A headless Firefox with a profile, and the connection that drives it."""

    def __init__(self, folder):
        self.folder, self.process, self.line, self.number = folder, None, None, 0

    def start(self):
        environment = dict(os.environ, HOME=self.folder, MOZ_DISABLE_CONTENT_SANDBOX="1", MOZ_CRASHREPORTER_DISABLE="1")
        self.process = subprocess.Popen(
            ["firefox-esr", "--headless", "--marionette", "--remote-allow-system-access", "--no-remote", "--profile", os.path.join(self.folder, "profile")],
            env=environment, stdout=subprocess.DEVNULL, stderr=subprocess.DEVNULL, start_new_session=True,
        )
        end = time.monotonic() + 60
        while True:
            try:
                self.line = socket.create_connection(("127.0.0.1", MARIONETTE), timeout=60)
                break
            except OSError:
                if time.monotonic() > end or self.process.poll() is not None:
                    fail("Firefox does not start")
                time.sleep(0.2)
        self.read()
        self.ask("WebDriver:NewSession", {"capabilities": {"alwaysMatch": {"acceptInsecureCerts": True, "timeouts": {"script": 60000, "pageLoad": 30000}}}})

    def read(self):
        length = b""
        while True:
            byte = self.line.recv(1)
            if byte == b":":
                break
            if not byte:
                fail("Firefox went away")
            length += byte
        left, text = int(length), b""
        while left:
            part = self.line.recv(left)
            if not part:
                fail("Firefox went away")
            text, left = text + part, left - len(part)
        return json.loads(text)

    def ask(self, command, given=None):
        """What a command comes to: its value, or the text of its error."""
        self.number += 1
        text = json.dumps([0, self.number, command, given or {}]).encode()
        self.line.sendall(str(len(text)).encode() + b":" + text)
        _, _, error, value = self.read()
        return (value, None) if error is None else (None, error.get("message", "") or error.get("error", ""))

    def in_chrome(self, script, asynchronous=False):
        """What a script comes to that runs with the browser's own rights."""
        self.ask("Marionette:SetContext", {"value": "chrome"})
        value, error = self.ask("WebDriver:ExecuteAsyncScript" if asynchronous else "WebDriver:ExecuteScript", {"script": script, "args": []})
        self.ask("Marionette:SetContext", {"value": "content"})
        if error is not None:
            fail(f"a script in Firefox fails: {error}")
        return value["value"]

    def tables(self):
        """The state of each table that it holds."""
        text = self.in_chrome(
            "const done = arguments[arguments.length - 1];"
            "Cc['@mozilla.org/url-classifier/dbservice;1'].getService(Ci.nsIUrlClassifierDBService).getTables(text => done(text));",
            asynchronous=True,
        )
        held = {}
        for line in (text or "").split("\n"):
            name, _, state = line.partition(";")
            if name in TABLES and state:
                held[name] = state
        return held

    def update(self, before):
        """Has it ask for updates, until its first table has another state than before."""
        end = time.monotonic() + FETCHED
        while time.monotonic() < end:
            self.in_chrome(
                "Cc['@mozilla.org/url-classifier/listmanager;1'].getService(Ci.nsIUrlListManager).forceUpdates('" + ",".join(TABLES) + "'); return 0;"
            )
            for _ in range(10):
                held = self.tables()
                if held.get(TABLES[0]) and held.get(TABLES[0]) != before.get(TABLES[0]):
                    return held
                time.sleep(0.3)
        fail(f"Firefox takes no update: it holds {self.tables()}")

    def shows(self, name):
        """What it shows for a name: "page", "blocked", or what else."""
        self.ask("WebDriver:Navigate", {"url": "about:blank"})
        _, error = self.ask("WebDriver:Navigate", {"url": f"http://{name}:{WEB}/"})
        address, _ = self.ask("WebDriver:ExecuteScript", {"script": "return document.documentURI;", "args": []})
        title, _ = self.ask("WebDriver:GetTitle")
        address = (address or {}).get("value", "")
        if address.startswith("about:blocked"):
            return "blocked"
        if (title or {}).get("value") == name:
            return "page"
        return f"{address} {error}"

    def picture(self):
        value, error = self.ask("WebDriver:TakeScreenshot", {"full": False})
        if error is not None:
            fail(f"no picture: {error}")
        return base64.b64decode(value["value"])

    def stop(self):
        if self.line is not None:
            with contextlib.suppress(Exception):
                self.ask("Marionette:Quit", {"flags": ["eForceQuit"]})
            self.line.close()
            self.line = None
        if self.process is not None:
            try:
                self.process.wait(timeout=20)
            except subprocess.TimeoutExpired:
                os.killpg(self.process.pid, signal.SIGKILL)
                self.process.wait()
            self.process = None


def write_profile(folder):
    """A new profile with the settings that point it at the server, and some that keep a trial quiet."""
    provider = "browser.safebrowsing.provider.google4"
    base = f"http://127.0.0.1:{LISTS_PORT}/v4"
    form = "$ct=application/x-protobuf&$httpMethod=POST"
    settings = {
        # what a user sets
        "browser.safebrowsing.provider.google5.enabled": False,
        f"{provider}.updateURL": f"{base}/threatListUpdates:fetch?{form}",
        f"{provider}.gethashURL": f"{base}/fullHashes:find?{form}",
        f"{provider}.excludeFromGoogleSafeBrowsingKeyCheck": True,
        # what a trial needs besides
        f"{provider}.nextupdatetime": "1",
        "remote.prefs.recommended": False,
        "network.dns.localDomains": f"{FIRST},{SECOND}",
        "network.captive-portal-service.enabled": False,
        "network.connectivity-service.enabled": False,
        "dom.security.https_first": False,
        "datareporting.policy.dataSubmissionEnabled": False,
        "browser.shell.checkDefaultBrowser": False,
        "browser.aboutwelcome.enabled": False,
        "app.update.enabled": False,
    }
    profile = os.path.join(folder, "profile")
    os.makedirs(profile)
    with open(os.path.join(profile, "user.js"), "w", encoding="utf-8") as file:
        for name, value in settings.items():
            file.write(f"user_pref({json.dumps(name)}, {json.dumps(value)});\n")


def tell(journal, words, text=""):
    """Appends to the journal what `sbjournal` makes."""
    made = subprocess.run([SBJOURNAL, *words], input=text.encode(), capture_output=True, check=False)
    if made.returncode != 0:
        fail(f"sbjournal {' '.join(words)} ends with {made.returncode}: {made.stderr.decode()}")
    with open(journal, "ab") as file:
        file.write(made.stdout)


def serve(journal):
    server = subprocess.Popen([SBLISTD, "serve", "--journal", journal, "--listen", f"127.0.0.1:{LISTS_PORT}", "--wait", "300"], stdout=subprocess.PIPE)
    end = time.monotonic() + 10
    while time.monotonic() < end:
        with contextlib.suppress(OSError), socket.create_connection(("127.0.0.1", LISTS_PORT), timeout=1):
            return server
        time.sleep(0.1)
    fail("sblistd does not listen")


def expect(browser, name, wanted, when):
    end = time.monotonic() + BLOCKED
    while True:
        shown = browser.shows(name)
        if shown == wanted:
            say(f"{when}: {name} is {'blocked' if wanted == 'blocked' else 'shown'}")
            return
        if time.monotonic() > end:
            fail(f"{when}: {name} is {shown}, and not {wanted}")
        time.sleep(1)


def trial(folder, picture):
    journal = os.path.join(folder, "journal")
    open(journal, "wb").close()
    tell(journal, ["new", *LISTS])
    tell(journal, ["change", LISTS[0]], f"+{FIRST}\n")
    pages = http.server.ThreadingHTTPServer(("127.0.0.1", WEB), Page)
    threading.Thread(target=pages.serve_forever, daemon=True).start()
    write_profile(folder)
    browser, server = Browser(folder), serve(journal)
    try:
        browser.start()
        held = browser.update({})
        say(f"an update came: {held[TABLES[0]].split(':')[0]}")
        expect(browser, FIRST, "blocked", "before a change")
        if picture:
            with open(picture, "wb") as file:
                file.write(browser.picture())
        expect(browser, SECOND, "page", "before a change")
        tell(journal, ["change", LISTS[0]], f"-{FIRST}\n+{SECOND}\n")
        held = browser.update(held)
        say(f"an update came: {held[TABLES[0]].split(':')[0]}")
        expect(browser, SECOND, "blocked", "after a change")
        expect(browser, FIRST, "page", "after a change")
        server.terminate()
        server.wait()
        server = serve(journal)
        tell(journal, ["change", LISTS[0]], f"+{FIRST}\n")
        held = browser.update(held)
        expect(browser, FIRST, "blocked", "after the server was started again")
        browser.stop()
        browser.start()
        expect(browser, FIRST, "blocked", "after the browser was started again")
        expect(browser, SECOND, "blocked", "after the browser was started again")
    finally:
        browser.stop()
        server.terminate()
        printed = server.communicate()[0].decode()
        lines = [line for line in printed.split("\n") if line]
        refused = [line for line in lines if not line.endswith(" answered 200") and not line.endswith(" read-fault") and not line.endswith(" answered 400")]
        say(f"the server printed {len(lines)} lines in the end, {len(refused)} of them of something else than 200")
        pages.shutdown()


def main():
    parser = argparse.ArgumentParser(description=__doc__, formatter_class=argparse.RawDescriptionHelpFormatter)
    parser.add_argument("--picture")
    given = parser.parse_args()
    if shutil.which("firefox-esr") is None:
        say("firefox-esr is not installed, so nothing was tried")
        return
    if os.environ.get(INSIDE) is None:
        probe = subprocess.run(["unshare", "--net", "ip", "link", "set", "lo", "up"], capture_output=True, check=False)
        if probe.returncode != 0:
            say("no network namespace can be made, so nothing was tried")
            return
        words = ["unshare", "--net", "sh", "-c", 'ip link set lo up && exec "$@"', "sh", sys.executable, os.path.abspath(__file__), *sys.argv[1:]]
        os.execvpe("unshare", words, dict(os.environ, **{INSIDE: "1"}, PATH=os.environ["PATH"] + ":/usr/sbin"))
    for program in (SBLISTD, SBJOURNAL):
        if not os.access(program, os.X_OK):
            fail(f"{program} is not built: run make first")
    with tempfile.TemporaryDirectory() as folder:
        trial(folder, given.picture)
    say("done")


if __name__ == "__main__":
    main()
