#!/usr/bin/env python3
"""port-browser: asks for a page of the port of Prometheus as a person does, in headless Chromium.

    tests/port-browser.py [FOLDER]

A server with `--guard` gets samples. The browser opens the form, types a selector and a series into its
fields, and presses Enter. Then it shows the page of the answer, with the rows that were written. A time that
is none is not sent. Form and page have their own style, fetch nothing else, and a script that is put into
them does not run. In FOLDER pictures of both are left. QUERIER names a program that is built already, else it
is built (RT); CHROMIUM names the browser (Debian: chromium). Exit status 0 if all holds.
"""
import base64
import contextlib
import json
import os
import pathlib
import select
import signal
import subprocess
import sys
import tempfile
import time
import urllib.parse

sys.dont_write_bytecode = True
HERE = pathlib.Path(__file__).resolve().parent
sys.path[:0] = [str(HERE / "live")]
import lib  # noqa: E402
import wire  # noqa: E402
from lib import holds  # noqa: E402

CHROMIUM = os.environ.get("CHROMIUM", "chromium")
SELECTOR = 'gauge{job=~"a|<b>"}'
ABOUT = 'gauge{job="<script>"}'


class Browser:
    """A page of Chromium, which is told what to do by messages over two pipes."""

    def __init__(self, home):
        (theirs, self.to), (self.of, theirs_too) = os.pipe(), os.pipe()
        words = [
            CHROMIUM, "--headless=new", "--no-sandbox", "--disable-gpu", "--no-first-run",
            "--hide-scrollbars", "--disable-background-networking", "--disable-component-update",
            "--disable-sync", "--disable-extensions", "--disable-default-apps", "--no-pings",
            f"--user-data-dir={home}", "--remote-debugging-pipe", "--window-size=1100,800",
        ]
        # the browser reads messages at 3, and writes its own at 4
        line = f'exec 3<&{theirs} 4>&{theirs_too}; exec "$@"'
        self.process = subprocess.Popen(
            ["bash", "-c", line, "", *words], pass_fds=(theirs, theirs_too), stdin=subprocess.DEVNULL,
            stdout=subprocess.DEVNULL, stderr=subprocess.DEVNULL, start_new_session=True,
        )
        os.close(theirs)
        os.close(theirs_too)
        self.count, self.rest, self.told, self.session = 0, b"", [], None
        target = self.asks("Target.createTarget", url="about:blank")["targetId"]
        self.session = self.asks("Target.attachToTarget", targetId=target, flatten=True)["sessionId"]
        for domain in ("Page", "Log", "Network"):
            self.asks(f"{domain}.enable")

    def reads(self, seconds):
        """The next message."""
        until = time.time() + seconds
        while b"\0" not in self.rest:
            if not select.select([self.of], [], [], max(0, until - time.time()))[0]:
                raise AssertionError("the browser says nothing")
            self.rest += os.read(self.of, 1 << 20)
        message, self.rest = self.rest.split(b"\0", 1)
        return json.loads(message)

    def asks(self, method, seconds=60, **words):
        """What the browser answers; what it tells meanwhile is left in `told`."""
        self.count += 1
        message = {"id": self.count, "method": method, "params": words}
        if self.session:
            message["sessionId"] = self.session
        os.write(self.to, json.dumps(message).encode() + b"\0")
        while True:
            came = self.reads(seconds)
            if came.get("id") == self.count:
                assert "error" not in came, came
                return came["result"]
            self.told.append(came)

    def value(self, expression):
        return self.asks("Runtime.evaluate", expression=expression)["result"].get("value")

    def waits_for(self, expression, wanted, seconds=30):
        """Waits until an expression has a value; whether it has."""
        until = time.time() + seconds
        while time.time() < until:
            if self.value(expression) == wanted:
                return True
            time.sleep(0.1)
        print("waited in vain:", expression, "is", self.value(expression))
        return False

    def types(self, text):
        self.asks("Input.insertText", text=text)

    def presses(self, key, code):
        for what in ("keyDown", "keyUp"):
            text = {"text": "\r"} if key == "Enter" and what == "keyDown" else {}
            pressed = {"type": what, "key": key, "code": key, "windowsVirtualKeyCode": code, **text}
            self.asks("Input.dispatchKeyEvent", **pressed)

    def asked_for(self):
        """What was asked for since this was last called, and what the policy of a page forbade."""
        told, self.told = self.told, []
        of = lambda method: [one["params"] for one in told if one.get("method") == method]
        lost = of("Network.loadingFailed")
        blocked = {one["requestId"] for one in lost if one.get("blockedReason") == "csp"}
        sent = [one for one in of("Network.requestWillBeSent") if one["requestId"] not in blocked]
        urls = [one["request"]["url"] for one in sent]
        entries = [one["entry"] for one in of("Log.entryAdded")]
        return urls, [one["text"] for one in entries if one["source"] == "security"]

    def takes_picture(self, path):
        picture = self.asks("Page.captureScreenshot", captureBeyondViewport=True)["data"]
        path.write_bytes(base64.b64decode(picture))

    def ends(self):
        self.session = None
        with contextlib.suppress(AssertionError, OSError, subprocess.TimeoutExpired):
            self.asks("Browser.close", 10)
            self.process.wait(20)
        with contextlib.suppress(OSError):
            os.killpg(self.process.pid, signal.SIGKILL)
        self.process.wait()


def put_in(browser, at):
    """Puts a script and an image into a page: whether the script ran, what was fetched and forbidden."""
    browser.asked_for()
    browser.value("""{
        const script = document.createElement("script")
        script.textContent = "document.title = 'ran'"
        document.body.append(script)
        const image = document.createElement("img")
        image.src = "%s/image.png"
        document.body.append(image)
    }""" % at)
    time.sleep(0.5)
    return browser.value("document.title") == "ran", *browser.asked_for()


def looks_at(browser, name, at):
    """The style of the page is its own; what is put into it by hand does not run, and is not fetched."""
    holds(f"{name}: it has its style", browser.value("document.styleSheets.length") == 1)
    holds(f"{name}: it has no script", browser.value("document.scripts.length") == 0)
    _, forbidden = browser.asked_for()
    holds(f"{name}: nothing of it is forbidden, but {forbidden}", not forbidden)
    ran, urls, forbidden = put_in(browser, at)
    holds(f"{name}: no script runs", not ran)
    holds(f"{name}: no image is fetched, but {urls}", not urls)
    holds(f"{name}: the policy forbids both: {forbidden}", len(forbidden) == 2)


def asks_as_a_person(browser, at, folder):
    """Types into the fields of the form, each reached by the key Tab, and sends it by the key Enter."""
    form = f"{at}/"
    browser.asks("Page.navigate", url=form)
    holds("the form is there", browser.waits_for("document.forms.length", 1))
    holds("the first field has the focus", browser.waits_for("document.activeElement.name", "selector"))
    urls, forbidden = browser.asked_for()
    holds(f"the form fetches nothing else: {urls}, {forbidden}", (urls, forbidden) == ([form], []))
    browser.presses("Enter", 13)
    time.sleep(0.5)
    holds("no form without a selector is sent", browser.value("location.href") == form)
    browser.types(SELECTOR)
    browser.presses("Tab", 9)
    browser.types("1.5")
    browser.presses("Enter", 13)
    time.sleep(0.5)
    holds("no time with a point is sent", browser.value("location.href") == form)
    browser.presses("Backspace", 8)
    browser.presses("Backspace", 8)
    browser.presses("Backspace", 8)
    holds("the field is empty", browser.value("document.activeElement.value") == "")
    for _ in range(2):
        browser.presses("Tab", 9)
    holds("the last field has the focus", browser.value("document.activeElement.name") == "about")
    browser.types(ABOUT)
    if folder:
        browser.takes_picture(folder / "form.png")
    browser.asked_for()
    browser.presses("Enter", 13)
    holds("the page is there", browser.waits_for("document.querySelectorAll('#rows tbody tr').length", 2))
    url = browser.value("location.href")
    sent = urllib.parse.parse_qsl(urllib.parse.urlsplit(url).query, keep_blank_values=True)
    wanted = [("selector", SELECTOR), ("from", ""), ("to", ""), ("about", ABOUT)]
    holds(f"what is sent is {sent}", sent == wanted)
    urls, forbidden = browser.asked_for()
    holds(f"the page fetches nothing else: {urls}, {forbidden}", (urls, forbidden) == ([url], []))
    if folder:
        browser.takes_picture(folder / "page.png")


def main():
    folder = pathlib.Path(sys.argv[1]) if sys.argv[1:] else None
    if folder:
        folder.mkdir(exist_ok=True)
    when, port = int(time.time() * 1000) - 60_000, lib.free_port()
    at = f"http://127.0.0.1:{port}"
    with tempfile.TemporaryDirectory(prefix="browser-", ignore_cleanup_errors=True) as room:
        token = pathlib.Path(room) / "token"
        token.write_text("a-long-token\n")
        token.chmod(0o600)
        server = lib.Running([
            lib.find_program("querier"), "serve", "--data", f"{room}/kept", "--port", "0",
            "--guard", str(token), "--prometheus-port", str(port),
        ])
        assert server.wait(), server.told
        samples = [(when, wire.bits_of(0.25)), (when + 1000, wire.bits_of(1e6))]
        series = [([("__name__", "gauge"), ("job", job)], samples) for job in ("a", "<b>", "<script>")]
        taken = wire.write(port, series, {"Authorization": "Bearer a-long-token"})
        holds(f"samples are taken: {taken}", taken[0] == 200)
        browser = Browser(f"{room}/home")
        try:
            asks_as_a_person(browser, at, folder)
            told = browser.value("document.body.innerText")
            for text in [
                "No series is missing, by the certificates below.", "Nobody judged: head.", SELECTOR,
                "It is not in the answer, since", 'job=~"a|<b>"', "rejects these labels", ABOUT,
            ]:
                holds(f"it says {text}", text in told)
            rows = browser.value("""JSON.stringify([...document.querySelectorAll("#rows tbody tr")].map(row =>
                [...row.querySelectorAll("code, td.n")].map(cell => cell.textContent)))""")
            figures = ["2", "0.25", "1e+06", "0.25", "1e+06"]
            wanted = [['gauge{job="<b>"}', *figures], ['gauge{job="a"}', *figures]]
            holds(f"its rows are {rows}", json.loads(rows) == wanted)
            looks_at(browser, "page", at)
            browser.asks("Page.navigate", url=f"{at}/")
            holds("the form is there again", browser.waits_for("document.forms.length", 1))
            looks_at(browser, "form", at)
            browser.asks("Page.navigate", url="data:text/html,<body>no policy")
            is_there = browser.waits_for("document.body.innerText", "no policy")
            holds("there is a page without a policy", is_there)
            told = put_in(browser, at)
            holds(f"there both are done: {told}", told == (True, [f"{at}/image.png"], []))
        finally:
            browser.ends()
            lib.end_all()
    print(f"{len(lib.failed)} failed")
    return 1 if lib.failed else 0


if __name__ == "__main__":
    sys.exit(main())
