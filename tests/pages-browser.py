#!/usr/bin/env python3
"""pages-browser: opens pages of `explain` in headless Chromium (Debian: chromium), and takes pictures.

    tests/pages-browser.py FOLDER PAGE.html..

Each page is opened at 1200 and at 600 pixels, light and dark; the pictures are FOLDER/PAGE-WIDTH-SCHEME.png,
as long as the page. A proxy sees all that the browser asks for: of a page it may ask for the page alone. A
script, an image and a style that are put into a copy of the page by hand neither run nor are fetched, since
the policy in its head forbids it; in a copy without the policy the script runs and the image is fetched, so
the test can tell. CHROMIUM names the program. Exit status 0 if all holds.
"""
import http.server
import os
import pathlib
import re
import subprocess
import sys
import tempfile
import threading

sys.dont_write_bytecode = True
from lib import failed, holds  # noqa: E402

CHROMIUM = os.environ.get("CHROMIUM", "chromium")
PUT_IN = (
    '<script>document.title="ran"</script>'
    '<img src="http://other.test/image.png" onerror="document.title=\'ran\'">'
    '<p style="background:url(http://other.test/style.png)">x</p>'
    '<iframe src="http://other.test/frame"></iframe>'
)
pages, asked = {}, []


class Proxy(http.server.BaseHTTPRequestHandler):
    """Gives the pages of pages.test, refuses all else, and notes what is asked for."""

    def do_GET(self):
        asked.append(self.path)
        body = pages.get(self.path)
        self.send_response(200 if body else 404)
        self.send_header("Content-Type", "text/html" if body else "text/plain")
        self.send_header("Content-Length", str(len(body or b"")))
        self.end_headers()
        self.wfile.write(body or b"")

    def do_CONNECT(self):
        asked.append(self.path)
        self.send_error(403)

    def log_message(self, *_):
        pass


def chromium(url, port, *words):
    with tempfile.TemporaryDirectory() as home:
        done = subprocess.run(
            [
                CHROMIUM, "--headless=new", "--no-sandbox", "--disable-gpu", "--hide-scrollbars",
                "--no-first-run", "--disable-background-networking", "--disable-component-update",
                "--disable-sync", "--disable-extensions", "--disable-default-apps",
                "--disable-domain-reliability", "--no-pings", f"--user-data-dir={home}",
                f"--proxy-server=http://127.0.0.1:{port}", "--proxy-bypass-list=<-loopback>", *words, url,
            ],
            capture_output=True,
            timeout=120,
        )
    return done.stdout.decode(errors="replace")


def fetched(name, page, port, *words):
    """The page's text after its scripts, if it has any, and what was asked for besides it."""
    url = f"http://pages.test/{name}"
    pages[url] = page.encode()
    asked.clear()
    told = chromium(url, port, *words)
    # The browser's own: it asks its maker for news, whatever page is open.
    own = re.compile(r"(google|gstatic|googleapis|chromium)\.[a-z.]+(:443)?(/|$)")
    return told, [one for one in asked if one != url and not own.search(one)], url in asked


def height_of(page_text, width):
    """How long the picture is made: enough for the page; what is left over is cut off."""
    return 3200 if width == 600 else 2600


def cut(path):
    """Cuts empty rows off the end of a picture, if Pillow is there."""
    try:
        from PIL import Image, ImageChops
    except ImportError:
        return
    with Image.open(path) as picture:
        picture = picture.convert("RGB")
        ground = Image.new("RGB", picture.size, picture.getpixel((2, picture.height - 2)))
        box = ImageChops.difference(picture, ground).getbbox()
        if box and box[3] + 24 < picture.height:
            picture = picture.crop((0, 0, picture.width, box[3] + 24))
        picture.quantize(128).save(path, optimize=True)


def main():
    folder, paths = pathlib.Path(sys.argv[1]), [pathlib.Path(word) for word in sys.argv[2:]]
    folder.mkdir(exist_ok=True)
    if not paths:
        print("no page was named")
        return 2
    server = http.server.ThreadingHTTPServer(("127.0.0.1", 0), Proxy)
    threading.Thread(target=server.serve_forever, daemon=True).start()
    port = server.server_address[1]
    for path in paths:
        page = path.read_text()
        for width in (1200, 600):
            for scheme, number in (("light", 1), ("dark", 0)):
                picture = folder / f"{path.stem}-{width}-{scheme}.png"
                _, others, opened = fetched(
                    path.name, page, port, f"--screenshot={picture}",
                    f"--window-size={width},{height_of(page, width)}",
                    f"--blink-settings=preferredColorScheme={number}",
                )
                holds(f"{path.stem}: opened", opened and picture.exists())
                holds(f"{path.stem}: nothing is fetched, but {others}", not others)
                cut(picture)
        changed = page.replace("<main>", "<main>" + PUT_IN, 1)
        holds(f"{path.stem}: there is a place to put a script", changed != page)
        told, others, opened = fetched("script-" + path.name, changed, port, "--dump-dom")
        holds(f"{path.stem}: the script does not run", opened and "<title>ran</title>" not in told)
        holds(f"{path.stem}: the policy blocks {others}", not others)
        bare = re.sub(r"<meta http-equiv[^>]*>", "", changed, count=1)
        told, others, opened = fetched("bare-" + path.name, bare, port, "--dump-dom")
        holds(f"{path.stem}: without the policy the script runs", "<title>ran</title>" in told)
        holds(
            f"{path.stem}: without the policy the image is fetched", any("image.png" in one for one in others)
        )
        print(path.stem, "opened")
    print(f"{len(failed)} failed")
    return 1 if failed else 0


if __name__ == "__main__":
    sys.exit(main())
