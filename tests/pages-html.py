#!/usr/bin/env python3
"""pages-html: makes replies, has the program `explain` show each, and checks what the pages must have.

    tests/pages-html.py [--try] [FOLDER]

The elements nest; nothing is fetched or run; the policy names the style's own hash; the columns of each strip
meet and their heights sum to the strip's; each number of the reply stands in the tables; label values of any
characters change neither elements nor each other; with --values doubles a value stands as Prometheus prints
its double; a page claims that no series is missing exactly if the
reply was not damaged; the box of the claim is green exactly if an auditor found no flaw in the block of each
directory and nothing else is named but an empty head; with the block's directory each part carries its
judgement; over the folder of a store the head is judged too, and the page tells of which state; the texts for
a terminal fit 80 columns; and pages stay small.

It takes the program that EXPLAIN names, or builds it where it stands (RT), with --try with no proof. The
replies of the files REPLIES/NAME.json are tried too, if REPLIES names a folder: NAME.args has the selector
and the two times, a line each. In FOLDER the pages are left. Exit status 0 if all holds.
"""
import base64
import hashlib
import json
import math
import os
import pathlib
import random
import re
import subprocess
import sys
import tempfile
import time
import unicodedata
from html.parser import HTMLParser

sys.dont_write_bytecode = True
from lib import TOP, failed, find_program, holds  # noqa: E402
from read_block import checksum  # noqa: E402

END = 1 << 32
VOID = {"meta", "input", "br", "wbr"}
GOOD = ("good/index", "good/chunks/000001", "good/tombstones")


# ---- cases: what the program is given, and what its page must have


class Case:
    """A reply, the words that the program is given, the exit status that is wanted, and further checks."""

    def __init__(self, name, reply, words, status=0, checks=()):
        self.name, self.words, self.status, self.checks = name, words, status, checks
        self.reply = None if isinstance(reply, bytes) else reply
        self.text = (
            reply
            if isinstance(reply, bytes)
            else json.dumps(reply, ensure_ascii=False, separators=(",", ":")).encode()
        )
        self.out, self.err, self.ended, self.took = b"", b"", None, 0


def files():
    """The files that lie where the program runs, two blocks' and a store's."""
    good = {name: (TOP / "examples" / name).read_bytes() for name in GOOD}
    other = {name.replace("good", "other"): content for name, content in good.items()}
    return {**good, **other, "other/chunks/000001": other_chunks(), "kept/journal": journal()}


def other_chunks():
    """The chunks of `good`, but the sample of up{job="a"} has the value 9 and not 1."""
    chunks = (TOP / "examples/good/chunks/000001").read_bytes()
    chunk = chunks[57:75] + b"\x09"
    return chunks[:57] + chunk + checksum(chunk) + chunks[80:]


def run(cases, program):
    with tempfile.TemporaryDirectory() as folder:
        for name, data in files().items():
            path = pathlib.Path(folder, name)
            path.parent.mkdir(parents=True, exist_ok=True)
            path.write_bytes(data)
        for case in cases:
            began = time.monotonic()
            done = subprocess.run([program, *case.words], input=case.text, capture_output=True, cwd=folder)
            case.took = time.monotonic() - began
            case.out, case.err, case.ended = done.stdout, done.stderr, done.returncode


def run_unproved(cases):
    """Builds the program once with no proof, and runs it on each case; the status is read from its line."""
    with tempfile.TemporaryDirectory() as folder, tempfile.TemporaryDirectory() as beside:
        for case in cases:
            pathlib.Path(folder, case.name).write_bytes(case.text)
            pathlib.Path(folder, case.name + ".args").write_text("".join(f"{word}\n" for word in case.words))
        words = []
        for number, (name, data) in enumerate(files().items()):
            path = pathlib.Path(beside, str(number))
            path.write_bytes(data)
            words += ["--data", f"{name}={path}"]
        done = subprocess.run([os.environ.get("RT", "rt"), "try", "--cases", folder, *words],
                              cwd=TOP / "crates" / "explain", capture_output=True)
    if os.environ.get("KEEP_TRY"):
        pathlib.Path(os.environ["KEEP_TRY"]).write_bytes(done.stdout + b"\n#### stderr\n" + done.stderr)
    parts = re.split(rb"(?m)^== (\S+)\n", done.stdout)
    outs = dict(zip((name.decode() for name in parts[1::2]), parts[2::2]))
    for case in cases:
        case.out = outs.get(case.name, b"")
        told = re.search(
            rb"(?m)^case=%s .*?status=(\d+)" % re.escape(case.name.encode()), done.stderr + done.stdout
        )
        case.ended = int(told[1]) if told else None
    if not outs:
        sys.exit(done.stderr.decode()[-2000:])


# ---- what each page must have


class Elements(HTMLParser):
    """The elements of a page, and the texts of those that name a series."""

    def __init__(self, name):
        super().__init__(convert_charrefs=True)
        self.name, self.open, self.all, self.series, self.depth = name, [], [], [], None

    def handle_starttag(self, tag, attributes):
        for key, value in attributes:
            holds(
                f"{self.name}: no {key}", not key.startswith("on") and key not in ("style", "src", "action")
            )
            holds(f"{self.name}: a link within", key != "href" or value.startswith("#"))
        if tag not in VOID:
            self.open.append(tag)
        if (tag, dict(attributes).get("class")) != ("i", "u"):
            self.all.append((tag, tuple(key for key, _ in attributes)))
        if dict(attributes).get("class") == "lbs":
            self.depth = len(self.open)
            self.series.append("")

    def handle_startendtag(self, tag, attributes):
        self.handle_starttag(tag, attributes)
        if tag not in VOID:
            self.open.pop()

    def handle_endtag(self, tag):
        holds(f"{self.name}: </{tag}> ends {self.open[-1:]}", self.open[-1:] == [tag])
        if self.depth == len(self.open):
            self.depth = None
        if self.open:
            self.open.pop()

    def handle_data(self, text):
        if self.depth:
            self.series[-1] += text


def elements(name, page):
    found = Elements(name)
    found.feed(page)
    found.close()
    holds(f"{name}: all elements end", not found.open)
    return found


def strips(name, page):
    """Columns meet and cover the strip; the heights of each sum to the strip's, and none is nothing."""
    places = lambda text: round(float(text) * 100)
    found = re.findall(r'<svg class="fig".*?</svg>\n<p class="least">', page, re.S)
    for figure in found:
        at = 0
        for column in re.findall(r"<g><title>.*?</g>", figure, re.S):
            boxes = re.findall(
                r'<rect class="c \w+" x="([\d.]+)%" y="(\d+)" width="([\d.]+)%" height="(\d+)"/>', column)
            holds(f"{name}: a column stands behind the one before",
                  boxes and all(places(box[0]) == at and box[2] == boxes[0][2] for box in boxes))
            at += places(boxes[0][2]) if boxes else 0
            heights = [int(box[3]) for box in boxes]
            holds(f"{name}: heights sum", sum(heights) in (44, 96) and min(heights) >= 1)
        holds(f"{name}: the columns cover the strip", at == 10000)
    return len(found)


def policy(name, page):
    style = re.search(r"<style>(.*?)</style>", page, re.S)[1]
    digest = base64.b64encode(hashlib.sha256(style.encode()).digest()).decode()
    head = page.split("<style>")[0]
    holds(f"{name}: the policy names the style", f"style-src 'sha256-{digest}'" in head)
    holds(f"{name}: the policy lets nothing be fetched", "default-src 'none'" in head)
    holds(
        f"{name}: the policy stands first",
        head.index("charset") < head.index("Policy") < head.index("viewport"),
    )
    low = re.sub(r"&lt;[^&]*", "", page.lower())
    for word in ("<script", "http:", "https:", "javascript:", "@import", "url(h"):
        holds(f"{name}: no {word}", word not in low)


def figures(name, page, reply, texts):
    """The first, last, least and greatest value of each row, as texts."""
    value = r'">([^<]*)<'
    cells = re.findall(r'data-l="samples">([\d,]+)<.*?data-l="first' + value + '.*?data-l="last' + value
                       + '.*?data-l="least' + value + '.*?data-l="greatest' + value, page)
    wanted = [(f"{len(row['samples']):,}", *texts([value for _, value in row["samples"]]))
              for row in reply["rows"][:50]]
    holds(f"{name}: the figures of rows: {cells[:3]}, wanted {wanted[:3]}", cells == wanted)


def whole_figures(values):
    return map(str, (values[0], values[-1], min(values), max(values)))


def numbers(name, page, reply, doubles):
    few = sum("rows" in part for part in reply["parts"]) <= 8
    for part in reply["parts"]:
        for one in part.get("intervals", [])[:100 if few else 20]:
            holds(f"{name}: the interval {one['from']}",
                  f'<td class="n">{one["from"]}</td><td class="n">{one["until"]}</td>' in page)
    figures(name, page, reply, double_figures if doubles else whole_figures)


def checked(case):
    holds(
        f"{case.name}: status {case.ended}, wanted {case.status} {case.err[:200]}", case.ended == case.status
    )
    page = case.out.decode()
    if "--text" in case.words:
        width = lambda line: sum(2 if unicodedata.east_asian_width(c) in "WF" else 1 for c in line)
        holds(f"{case.name}: 80 columns", all(width(line) <= 80 for line in page.splitlines()))
        claim = page.split("\n")[0]
        holds(f"{case.name}: the claim", claim in CLAIMS and (claim == NOT_SHOWN) == (case.status == 1))
        holds(f"{case.name}: no HTML", "<svg" not in page)
    elif page.startswith("<!doctype"):
        digest = hashlib.sha256(case.text).hexdigest()
        holds(f"{case.name}: the reply's digest", digest in page and f"{len(case.text):,} bytes" in page)
        colour, claim, _ = box(page)
        is_wanted = (colour, claim) in COLOURS and (colour == "bad") == (case.status == 1)
        holds(f"{case.name}: the claim", is_wanted)
        holds(f"{case.name}: green with a judge alone", colour != "ok" or "The auditor said:" in page)
        elements(case.name, page)
        strips(case.name, page)
        policy(case.name, page)
        if case.reply:
            numbers(case.name, page, case.reply, "doubles" in case.words)
    says_range = "outside the range" in page or "meet the range" in page
    holds(f"{case.name}: no range of a block is read", not says_range)
    for check in case.checks:
        check(case.name, page)


ALL_JUDGED = "No series is missing. The auditor found no flaw."
DIRECTORIES_JUDGED = "No series of these directories is missing. The auditor found no flaw."
CERTIFIED = "No series is missing, by the certificates below."
NOT_SHOWN = "This reply does not show that no series is missing."
CLAIMS = (ALL_JUDGED, DIRECTORIES_JUDGED, CERTIFIED, NOT_SHOWN)
COLOURS = (("ok", ALL_JUDGED), ("ok", DIRECTORIES_JUDGED), ("plain", CERTIFIED), ("bad", NOT_SHOWN))
EMPTY_HEAD = "The reply tells of a head without series, which nobody judged."
NOT_NAMED = "The reply does not name the head and each block once."


def box(page):
    """The colour of the box of the claim, the claim, and the sentences below it in the box."""
    box = r'<div class="say (\w+)"><p class="big"><span [^>]*>[^<]*</span> ([^<]*)</p>\n(.*?)</div>\n'
    found = re.findall(box, page, re.S)
    colour, claim, rest = found[0] if len(found) == 1 else ("none", "", "")
    return colour, claim, re.sub(r"<[^>]*>", "", rest)


def says(wanted, colour, *sentences):
    """The claim, its box's colour, and sentences in it. The text for a terminal begins with the claim."""
    def check(name, page):
        found = box(page)
        holds(f"{name}: {found[:2]}, wanted {(colour, wanted)}", found[:2] == (colour, wanted))
        for sentence in sentences:
            holds(f"{name}: in the box: {sentence}", sentence in found[2])
        for sentence in {EMPTY_HEAD, NOT_NAMED} - set(sentences):
            holds(f"{name}: not in the box: {sentence}", sentence not in found[2])
    return check


def has(*texts):
    return lambda name, page: [holds(f"{name}: {text}", text in page) for text in texts]


def lacks(*texts):
    return lambda name, page: [holds(f"{name}: no {text}", text not in page) for text in texts]


def articles(*texts):
    """A text for each searched part, in the reply's order, which its article has, and no other's text."""
    def check(name, page):
        found = re.findall(r'<article class="part" id="p\d+">(.*?)</article>', page, re.S)
        holds(f"{name}: {len(found)} articles", len(found) == len(texts))
        for at, (article, wanted) in enumerate(zip(found, texts)):
            has_each = {text: text in article for text in texts}
            holds(f"{name}: article {at}: {wanted}", has_each == {text: text == wanted for text in texts})
    return check


# ---- replies


def merged(parts):
    rows = {}
    for part in parts:
        for row in part.get("rows", []):
            rows.setdefault(tuple(sorted(row["labels"].items())), {}).update(map(tuple, row["samples"]))
    return [{"labels": dict(labels), "samples": [list(sample) for sample in sorted(samples.items())]}
            for labels, samples in sorted(rows.items())]


def part(name, count, rng, matchers, apart=7, every=5, start=1, most=40):
    """A part of so many intervals, of which each so-many-eth is a match with a row."""
    intervals, rows, at = [], [], start
    for i in range(count):
        until = END if i + 1 == count else at + rng.randrange(1, apart)
        verdict = "match" if i % every == 0 else "none" if i % every == 1 else rng.randrange(matchers)
        intervals.append({"from": at, "until": until, "verdict": verdict})
        if verdict == "match":
            samples = [
                [1700000000000 + 15000 * k, rng.randrange(-50, 50)] for k in range(rng.randrange(1, most))
            ]
            rows.append({"labels": {"__name__": "up", "i": f"{i:06}"}, "samples": samples})
        at = until
    return {
        "part": name,
        "intervals": intervals,
        "rows": rows,
        "separators": [one["from"] for one in intervals],
    }


def reply_of(parts):
    return {"parts": parts, "rows": merged(parts)}


def damaged(reply):
    """Replies that do not show that no series is missing, each with what is wrong."""
    copy = lambda: json.loads(json.dumps(reply))
    one = copy(); del one["parts"][0]["intervals"][1], one["parts"][0]["separators"][1]; yield "hole", one
    one = copy(); one["parts"][0]["intervals"][-1]["until"] = END - 1; yield "early-end", one
    one = copy(); del one["parts"][0]["rows"][0]; one["rows"] = merged(one["parts"]); yield "row-missing", one
    one = copy(); del one["rows"][0]; yield "merged-row-missing", one
    one = copy(); one["rows"][0]["samples"][0][1] += 1; yield "changed-value", one
    one = copy(); del one["parts"][0]["separators"][0]; yield "separator-missing", one
    one = copy()
    one["parts"][0]["separators"][0] = one["parts"][0]["intervals"][0]["until"]
    yield "separator-moved", one
    one = copy(); one["parts"][0]["intervals"][2]["verdict"] = 9; yield "no-such-matcher", one


HOSTILE = [
    "<", ">", "&", '"', "'", "\\", "\n", "\0", "\t", "\u202e", "\u2028", "]]>", "<!--", "-->", "</code>",
    "</style>", "</title>", "<script>", "&lt;",
    "&#39;",
    "\ufeff", "é", "東", "\U0001f600", "\u0300", "`", "=", "{", "}", "\x7f", "\x85", "\U000e0041",
    "\U0010ffff",
]
UNSEEN = [
    (0, 31), (127, 159), (173, 173), (0x61C, 0x61C), (0x115F, 0x1160), (0x180E, 0x180E), (0x200B, 0x200F),
    (0x2028, 0x202E), (0x2060, 0x206F), (0x3164, 0x3164), (0xFE00, 0xFE0F), (0xFEFF, 0xFEFF),
    (0xFFA0, 0xFFA0), (0xFFF0, 0xFFFB), (0xE0000, 0xE0FFF),
]


def read(text):
    """A value as a reader of the page sees it: a character that cannot be seen by its code."""
    spelled = text.replace("\\", "\\\\").replace('"', '\\"').replace("\n", "\\n")
    unseen = lambda n: any(low <= n <= high for low, high in UNSEEN) or n & 0xFFFE == 0xFFFE
    return "".join(f"U+{ord(c):04X}" if unseen(ord(c)) else c for c in spelled)


def of_values(values):
    rows = [{"labels": {"__name__": "up", "a": value}, "samples": [[10, 1], [20, 2]]} for value in values]
    intervals = [{"from": i + 1, "until": i + 2, "verdict": "match"} for i in range(len(values))]
    intervals[-1]["until"] = END
    return reply_of([{"part": "head", "intervals": intervals, "rows": rows,
                      "separators": [i + 1 for i in range(len(values))]}])


def hostile(rng):
    """Label values of any characters leave the elements as they are, and are read as they were written."""
    plain = []
    same = lambda name, page: plain.append(elements(name, page).all)
    yield Case("plain", of_values(["x", "y", "z"]), ["--selector", "up"], checks=[same])
    for turn in range(60):
        values = sorted(
            "".join(rng.choice(HOSTILE) for _ in range(rng.randrange(0, 12))) + str(i) for i in range(3)
        )
        reply = of_values(values)
        wanted = ['up{a="' + read(row["labels"]["a"]) + '"}' for row in reply["rows"]]

        def alike(name, page, wanted=wanted):
            found = elements(name, page)
            holds(f"{name}: the same elements", found.all == plain[0])
            holds(f"{name}: {found.series} is read, wanted {wanted}", found.series[-3:] == wanted)

        yield Case(f"hostile-{turn}", reply, ["--selector", "up"], checks=[alike])
    yield Case("long", of_values(["x" * 10000]), ["--selector", "up"],
               checks=[has("x" * 120, "+9,880 characters"), lacks("x" * 121)])
    seen = lambda name, page: holds(f"{name}: at most sixteen boxes", page.count("U+202E</i>") == 16)
    yield Case(
        "unseen", of_values(["\u202e" * 40]), ["--selector", "up"], checks=[seen, has("+24 characters")]
    )
    escape = lambda name, page: holds(
        f"{name}: no escape sequence", "\x1b" not in page and "\u202e" not in page
    )
    yield Case("escapes", of_values(["\x1b[2J\u202e" * 3]), ['--selector', 'up{a!="\x1b[31m"}', "--text",
               "--about", 'up{a="\x1b[2J"}'], checks=[escape])


# The numbers that are kept for doubles, these, and their texts as Prometheus prints them: Go's strconv in its
# form g. A number of size at most 2^53 is its own double, and else stands for the double with its bits, but
# for those of such a double: they stand for the one with that number's bits. The last is a stale marker.
MINUS = -(1 << 63)
DOUBLES = [
    (42, 42.0, "42"), (-1, -1.0, "-1"), (0, 0.0, "0"), (MINUS, -0.0, "-0"), (999999, 999999.0, "999999"),
    (1000000, 1e6, "1e+06"), (1 << 53, 2.0**53, "9.007199254740992e+15"), (0x3FB999999999999A, 0.1, "0.1"),
    (0x3F1A36E2EB1C432D, 0.0001, "0.0001"), (0x3EE4F8B588E368F1, 1e-5, "1e-05"),
    (0x3FF8000000000000, 1.5, "1.5"), (MINUS + 0x3FE0000000000000, -0.5, "-0.5"),
    (0x3FF0000000000000, 5e-324, "5e-324"), (0x7FF0000000000000, math.inf, "+Inf"),
    (MINUS + 0x4330000000000000, -math.inf, "-Inf"), (-(1 << 52), -(2.0**52), "-4.503599627370496e+15"),
    (0x7FEFFFFFFFFFFFFF, sys.float_info.max, "1.7976931348623157e+308"),
    (0x7FF8000000000001, math.nan, "NaN"), (0x7FF0000000000002, math.nan, "NaN"),
]
BY_NUMBER = {number: (double, text) for number, double, text in DOUBLES}


def double_figures(values):
    """Of several that are equal the first."""
    double = lambda value: BY_NUMBER[value][0]
    real = [value for value in values if not math.isnan(double(value))]
    least, greatest = (min(real, key=double), max(real, key=double)) if real else (values[0], values[0])
    return (BY_NUMBER[value][1] for value in (values[0], values[-1], least, greatest))


def of_numbers(lists):
    rows = [{"labels": {"__name__": "up", "i": f"{at:03}"},
             "samples": [[1700000000000 + 15000 * k, number] for k, number in enumerate(numbers)]}
            for at, numbers in enumerate(lists)]
    intervals = [{"from": at + 1, "until": at + 2, "verdict": "match"} for at in range(len(rows))]
    intervals[-1]["until"] = END
    return reply_of([{"part": "head", "intervals": intervals, "rows": rows,
                      "separators": [at + 1 for at in range(len(rows))]}])


def of_doubles(rng):
    """Values that are kept for doubles, and the words that say so."""
    two, words = ["--selector", "up"], ["--selector", "up", "--values", "doubles"]
    all_numbers = [number for number, _, _ in DOUBLES]
    lists = [[number] for number in all_numbers] + [all_numbers] + [
        [rng.choice(all_numbers) for _ in range(rng.randrange(1, 30))] for _ in range(30)]
    reply = of_numbers(lists)
    yield Case("doubles", reply, words, checks=[has("The values are doubles")])
    yield Case("numbers-of-doubles", reply, two, checks=[lacks("The values are doubles")])
    nan = 0x7FF0000000000002
    paths = lambda name, page: holds(f"{name}: no line of NaNs", "<path" not in page.split('id="rows"')[-1])
    yield Case("stale", of_numbers([[nan, nan]]), words, checks=[paths])
    yield Case("text-doubles", reply, [*words, "--text"])
    yield Case("other-values", reply, [*two, "--values", "whole"], status=1,
               checks=[lambda name, page: holds(f"{name}: no page", page == "")])


def about(reply):
    two = ["--selector", 'up{i=~"0.*",job="a"}', "--about"]
    row = lambda name, page: holds(f"{name}: row 1", "as row 1." in page or "row 1" in page)
    yield Case("about-row", reply, [*two, 'up{i="000000"}'], checks=[row])

    def all_reject(name, page):
        said = re.search(r'<div class="about">.*?</div>', page, re.S)[0]
        holds(f"{name}: all that reject", said.count("<svg") == 3 and " reject these labels" in said)

    yield Case("about-rejected", reply, [*two, 'down{i="1"}'], checks=[all_reject])
    yield Case("about-silent", reply, [*two, 'up{i="0x",job="a"}'],
               checks=[has("very matcher accepts these labels")])
    for turn, bad in enumerate(['up{a!="b"}', 'up{a=~"b"}', 'up{a!~"b"}', 'up{', "", 'up{a="1",a="2"}']):
        empty = lambda name, page: holds(f"{name}: no page", page == "")
        yield Case(f"about-refused-{turn}", reply, [*two, bad], status=1, checks=[empty])


def judged():
    """The worked answer of the README over its block, as it is, skipped, and lied about."""
    readme = (TOP / "README.md").read_text()
    found = lambda command: re.search(re.escape(f"$ querier select {command}\n") + r"\s+(\{.*\})", readme)[
        1
    ].encode()
    answer = found("--from=0 --to=100 'up{job=\"a\"}' good")
    skip = found("--to=100 --from=20 'up{job=\"a\"}' good")
    words = ["--selector", 'up{job="a"}', "--to=100"]
    yield Case("worked", answer, [*words, "--from=0"], checks=[
        says(CERTIFIED, "plain", "Nobody judged: block 0, head."),
        has("This part is told to have no series"), lacks("auditor found")])
    yield Case("worked-judged", answer, [*words, "--from=0", "good"], checks=[
        says(DIRECTORIES_JUDGED, "ok", EMPTY_HEAD), has("This part is told to have no series"),
        has("The auditor found no flaw.", "block 0: valid", '<span class="v">&quot;<bdi>b</bdi>')])
    yield Case("worked-about", answer, [*words, "--from=0", "--about", 'up{job="b"}', "good"],
               checks=[has("rejects these labels")])
    silent, told = "1 part was skipped: the query selects nothing of it.", "1 part is told to be skipped."
    yield Case("skip-judged", skip, [*words, "--from=20", "good"], checks=[
        says(DIRECTORIES_JUDGED, "ok", EMPTY_HEAD, silent),
        has("block 0: skipped", "skipped: the query selects nothing of it")])
    yield Case("skip-not-judged", skip, [*words, "--from=20"], checks=[
        says(CERTIFIED, "plain", "Nobody judged: head, block 0.", told),
        has("Told to be skipped"), lacks("selects nothing")])
    yield from half_judged(json.loads(answer), [*words, "--from=0"])
    lie = answer.replace(b'"verdict":1', b'"verdict":0')
    yield Case("lie", lie, [*words, "--from=0"])
    yield Case("lie-judged", lie, [*words, "--from=0", "good"], status=1, checks=[has("F3")])
    hidden = re.sub(rb'"parts":\[.*?\]\},\{"intervals":\[\],"part":"head"',
                    b'"parts":[{"part":"block 0","skipped":true},{"intervals":[],"part":"head"', answer)
    hidden = re.sub(rb'"rows":\[\{.*\}\]\}$', b'"rows":[]}', hidden)
    yield Case("hidden", hidden, [*words, "--from=0"])
    yield Case("hidden-judged", hidden, [*words, "--from=0", "good"], status=1, checks=[has("F9")])
    yield Case("text-judged", answer, [*words, "--from=0", "--text", "--about", 'up{job="b"}', "good"])
    yield Case("text-lie", lie, [*words, "--from=0", "--text", "good"], status=1)


def journal():
    """The journal of the README's session: an empty head, and behind it a batch, a deletion and a cut."""
    def number(n):
        return bytes([n]) if n < 128 else bytes([n & 127 | 128]) + number(n >> 7)

    signed = lambda n: number(2 * n if n >= 0 else -2 * n - 1)
    text = lambda word: number(len(word)) + word.encode()
    labels = lambda **pairs: number(len(pairs)) + b"".join(map(text, sum(sorted(pairs.items()), ())))
    samples = lambda *times: number(len(times)) + b"".join(signed(n) for pair in times for n in pair)
    run = lambda job, *times: labels(__name__="up", job=job) + samples(*times)
    length = lambda content: len(content).to_bytes(4, "big")
    framed = lambda content: length(content) + checksum(length(content)) + content + checksum(content)
    head = b"\x10" + signed(-(1 << 62)) + number(0) + number(0)
    batch = b"\x01" + number(2) + run("a", (10, 1), (20, 2)) + run("b", (10, 3))
    deletion = b"\x02" + number(1) + b"\0" + text("job") + text("a") + signed(0) + signed(10)
    cut = b"\x03" + signed(20)
    return b"FZLJ\x01" + b"".join(map(framed, (head, batch, deletion, cut)))


def kept():
    """The answer of the README's session over the store that was kept: as it is, and changed."""
    readme = (TOP / "README.md").read_text()
    asked = "curl -G -d from=0 -d to=100 --data-urlencode 'selector=up{job=\"a\"}' 127.0.0.1:8080/select\n"
    answer = re.search(re.escape(asked) + r"\s+(\{.*\})", readme)[1].encode()
    words = ["--store", "kept", "--from=0", "--to=100", "--selector", 'up{job="a"}']
    place = "event 3 of 3, mark 228f27dc:3."
    right = f"It is right of the store at {place}"
    wrong = f"It is right of no state of the store that was sought. It was judged at {place}"
    plain_place = "event 3 of 3,\nmark 228f27dc:3.\n"
    plain_right = f"It is right of the store at {plain_place}"
    plain_wrong = f"It is right of no state of the store that was sought.\nIt was judged at {plain_place}"
    lines = has("block 0: valid, numbered otherwise", "head: valid", "rows: valid")
    yield Case("kept", answer, words, checks=[
        says(ALL_JUDGED, "ok", right, "not for how few its intervals are: block 0."), lines,
        lacks("Not judged", "did not judge")])
    yield Case("text-kept", answer, [*words, "--text"], checks=[
        has(ALL_JUDGED, plain_right, "not for how few its intervals are:\n  block 0\n")])
    hidden = json.loads(answer)
    hidden["parts"][1].update(rows=[], intervals=[{"from": 1, "until": END, "verdict": "none"}])
    hidden["rows"] = []
    says_no = says(NOT_SHOWN, "bad", "The auditor found a flaw: head: F8")
    yield Case("kept-hidden", hidden, words, status=1, checks=[says_no, has("head: F8", wrong)])
    yield Case("text-kept-hidden", hidden, [*words, "--text"], status=1, checks=[has(plain_wrong)])
    # The head is named twice, once as it is, and once with its series hidden.
    twice = json.loads(answer)
    twice["parts"].append(hidden["parts"][1])
    yield Case("kept-twice", twice, words, status=1, checks=[
        has("head: valid", "head: F8", "parts: F11"), articles(
            "The auditor judged this part for what is missing",
            "The auditor judged this part: it is valid.",
            "The auditor names a flaw of this part: see above.")])


def half_judged(answer, words):
    """The worked answer over its block, and what a server with more than that block might make of it."""
    copy = lambda: json.loads(json.dumps(answer))
    block, head = range(2)
    shown = lambda check, *more: {"checks": [check, lacks(ALL_JUDGED), *more]}
    # A head with a series, told as it is, and told to be empty.
    one = copy()
    row = {"labels": {"__name__": "up", "job": "a", "z": "1"}, "samples": [[30, 5]]}
    match = {"from": 1, "until": END, "verdict": "match"}
    one["parts"][head].update(intervals=[match], rows=[row], separators=[1])
    one["rows"] = merged(one["parts"])
    yield Case("head", one, [*words, "good"], **shown(
        says(CERTIFIED, "plain", "Nobody judged: head."), has("did not judge this part")))
    emptied = copy()
    yield Case("head-emptied", emptied, [*words, "good"], **shown(says(DIRECTORIES_JUDGED, "ok", EMPTY_HEAD)))
    # A second block, told to be skipped, with its directory, and without.
    one = copy()
    one["parts"].insert(head, {"part": "block 1", "skipped": True})
    yield Case("head-emptied-and-skip", one, [*words, "good"], **shown(
        says(CERTIFIED, "plain", "Nobody judged: head, block 1.", "1 part is told to be skipped."),
        has("block 1: not judged", ">told to be skipped<"), lacks("selects nothing")))
    yield Case("text-skip", one, [*words, "--text", "good"], **shown(
        has(CERTIFIED, "block 1: told to be skipped", "nobody judged")))
    yield Case("skip-of-something", one, [*words, "good", "good"], status=1,
               checks=[has("block 1: F9"), lacks("selects nothing")])
    # Parts that are left out, and a part that is named twice.
    one = copy()
    del one["parts"][head]
    yield Case("head-left-out", one, [*words, "good"], **shown(says(CERTIFIED, "plain", NOT_NAMED)))
    nothing = {"parts": [], "rows": []}
    silent = ["--selector", "absent", "good"]
    yield Case("nothing-judged", nothing, silent, **shown(says(CERTIFIED, "plain", NOT_NAMED)))
    yield Case("nothing-hidden", nothing, [*words, "good"], status=1, checks=[has("block 0: F9")])
    yield Case("no-directory", nothing, ["--selector", "absent"], **shown(
        says(CERTIFIED, "plain", NOT_NAMED)))
    one = copy()
    del one["parts"][block]
    one["rows"] = []
    yield Case("block-left-out", one, silent, **shown(says(CERTIFIED, "plain", "Nobody judged: head.")))
    for part in (block, head):
        one = copy()
        one["parts"].insert(part, one["parts"][part])
        yield Case(f"named-twice-{part}", one, [*words, "good"], **shown(says(CERTIFIED, "plain", "head")))
    # A block that is named twice, once as it is, and once lied about: each article has its own judgement.
    right, wrong = ("The auditor judged this part: it is valid.",
                    "The auditor names a flaw of this part: see above.")
    nobody = "The auditor did not judge this part"
    one = copy()
    one["parts"].insert(head, copy()["parts"][block])
    one["parts"][head]["intervals"][3]["verdict"] = 0
    yield Case("twice-then-lied", one, [*words, "good"], status=1, checks=[
        has("block 0: valid", "block 0: F3"), articles(right, wrong, nobody)])
    one = json.loads(json.dumps(one))
    one["parts"][:2] = one["parts"][1::-1]
    yield Case("twice-lied-first", one, [*words, "good"], status=1, checks=[
        has("block 0: F3", "block 0: valid"), articles(wrong, right, nobody)])
    one = copy()
    one["parts"].insert(head, {"part": "block 0", "intervals": [], "rows": [], "separators": []})
    yield Case("twice-then-emptied", one, [*words, "good"], status=1, checks=[
        has("block 0: valid", "block 0: F1"), articles(right, wrong, nobody),
        has("This part is told to have no series"), lacks("This part has no series")])
    one = copy()
    one["parts"].insert(head, {"part": "block 0", "skipped": True})
    yield Case("twice-then-skipped", one, [*words, "good"], status=1, checks=[
        has("block 0: valid", "block 0: F9", "block 0: the auditor names a flaw of this"),
        has(">told to be skipped<"), articles(right, nobody), lacks("selects nothing")])
    # Two directories, of which each is named, or one.
    yield Case("one-of-two", copy(), [*words, "good", "good"], status=1, checks=[has("block 1: F9")])
    one = copy()
    one["parts"].insert(head, {**one["parts"][block], "part": "block 1"})
    yield Case("two-of-two", one, [*words, "good", "good"], **shown(
        says(DIRECTORIES_JUDGED, "ok", EMPTY_HEAD)))
    yield Case("text-two-of-two", one, [*words, "--text", "good", "good"], **shown(
        has(DIRECTORIES_JUDGED, EMPTY_HEAD)))
    # Two blocks that say two values of one time: the later wins. A reply that tells of them the other way
    # round has the earlier block's value, and all of the auditor's lines say yes.
    two = copy()
    two["parts"].insert(head, {**copy()["parts"][block], "part": "block 1"})
    two["parts"][head]["rows"][0]["samples"] = [[10, 9]]
    for name, order, value, check in (
        ("in-order", (0, 1, 2), 9, says(DIRECTORIES_JUDGED, "ok", EMPTY_HEAD)),
        ("out-of-order", (1, 0, 2), 1, says(CERTIFIED, "plain", "Nobody judged: head.")),
        ("head-first", (2, 0, 1), 9, says(CERTIFIED, "plain", "Nobody judged: head.")),
    ):
        one = reply_of([two["parts"][number] for number in order])
        holds(f"{name}: the value", one["rows"][0]["samples"] == [[10, value]])
        yield Case(name, one, [*words, "good", "other"], **shown(
            check, has("block 0: valid", "block 1: valid", "rows: valid")))


def given():
    """The replies of a folder."""
    folder = os.environ.get("REPLIES")
    for path in sorted(pathlib.Path(folder).glob("*.json")) if folder else []:
        selector, low, high = path.with_suffix(".args").read_text().split("\n")[:3]
        status = 1 if path.stem == "flawed" else 0
        words = ["--selector", selector, f"--from={low}", f"--to={high}"]
        yield Case(path.stem, path.read_bytes(), words, status)
        yield Case(f"text-{path.stem}", path.read_bytes(), [*words, "--text"], status)


def cases(rng):
    one = part("block 0", 15, rng, 2)
    reply = reply_of([one])
    skipped = {"part": "block 1", "skipped": True}
    empty = {"part": "head", "intervals": [], "rows": [], "separators": []}
    two = ["--selector", 'up{job="a"}']
    yield from judged()
    yield from kept()
    yield Case("fifteen", reply, two)
    yield Case("parts", reply_of([one, skipped, part("head", 80, rng, 2, start=3)]), two)
    yield Case("empty", reply_of([empty]), ["--selector", "up"])
    yield Case("nothing", {"parts": [], "rows": []}, ["--selector", "up"])
    yield Case("columns", reply_of([part("block 0", 1503, rng, 2)]),
               [*two, "--from", "1700000000000", "--to", "1700000600000"])
    yield Case("text-columns", reply_of([part("block 0", 1503, rng, 2)]), [*two, "--text"])
    many = [part(f"block {i}", 20 + i, rng, 2) for i in range(63)] + [part("head", 300, rng, 2)]
    yield Case("many", reply_of(many), two)
    yield Case("text-many", reply_of(many), [*two, "--text"])
    wide = "up{" + ",".join(f'l{i}!="{i}"' for i in range(15)) + "}"
    yield Case("matchers", reply_of([part("block 0", 240, rng, 16)]), ["--selector", wide])
    yield Case("text-matchers", reply_of([part("block 0", 240, rng, 16)]), ["--selector", wide, "--text"])
    for name, bad in damaged(reply):
        yield Case(name, bad, two, status=1)
        yield Case(f"text-{name}", bad, [*two, "--text"], status=1)
    yield from hostile(rng)
    yield from about(reply)
    yield from of_doubles(rng)
    yield from given()
    for name, text in (("no-reply", b"{}"), ("half-a-reply", b'{"parts":[],'), ("no-text", b"\xff")):
        yield Case(
            name, text, two, status=3, checks=[lambda name, page: holds(f"{name}: no page", page == "")]
        )
    yield Case("large", reply_of([part("block 0", 100000, rng, 2, every=2, most=10)]), two)
    yield Case("again", reply, two)


def main():
    words = [word for word in sys.argv[1:] if word != "--try"]
    unproved = "--try" in sys.argv[1:]
    all_cases = list(cases(random.Random(5)))
    if unproved:
        run_unproved(all_cases)
    else:
        run(all_cases, find_program("explain"))
    for case in all_cases:
        checked(case)
    by_name = {case.name: case for case in all_cases}
    large = by_name["large"]
    print(f"{len(all_cases)} pages and texts; large: {len(large.out):,} bytes, {large.took:.2f} s")
    holds("large: at most 300 KB", len(large.out) <= 300_000)
    holds("large: at most 2.5 s", large.took <= 2.5)
    holds("the same bytes for the same input", by_name["again"].out == by_name["fifteen"].out)
    if words:
        folder = pathlib.Path(words[0])
        folder.mkdir(exist_ok=True)
        for case in all_cases:
            end = ".txt" if "--text" in case.words else ".html"
            if case.out:
                (folder / (case.name + end)).write_bytes(case.out)
    print(f"{len(failed)} failed")
    return 1 if failed else 0


if __name__ == "__main__":
    sys.exit(main())
